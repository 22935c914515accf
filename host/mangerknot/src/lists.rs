//! What a call on slices is lent, in small structs: the lists that belong together.
//!
//! How many records there are is nowhere said twice. Regions are as many as `ids` has entries, particles as many as there are whole
//! records in `words`, colliders as many as there are frictions, and proposals of a step as many as are lent. Every other list is held
//! against these by the archive, a broken record at the end of `words` too, so that any two lists that do not belong together are refused
//! with number 1. What no length can show is a list that is short together with all others of its kind; of particles, the ranges show
//! it (number 7).
//!
//! ```
//! use mangerknot::lists::NodesMut;
//! use mangerknot::sp_grid::clear2;
//! let (mut floats, mut words) = ([7.0; 224], [1; 31]);
//! let refused = clear2(&[0, 4096], NodesMut { floats: &mut floats, words: &mut words }).unwrap_err();
//! assert_eq!(refused.to_string(), "the nodes' words are 31, and have to be 32 (number 1, index 0)");
//! clear2(&[0], NodesMut { floats: &mut floats[..112], words: &mut words[..16] })?;
//! assert_eq!((floats[111], floats[112]), (0.0, 7.0));
//! # Ok::<(), mangerknot::Refused>(())
//! ```
#![forbid(unsafe_code)]

use crate::records::{NODE_FLOATS, PARTICLE_FLOATS, PARTICLE_WORDS, REGION_NODES};

/// Regions: their ids, which ascend, and two entries for each, the place of its first particle and how many it has.
#[derive(Clone, Copy, Debug, Default)]
pub struct Regions<'a> {
    /// An entry for each region.
    pub ids: &'a [u64],
    /// Two entries for each region, start and count.
    pub ranges: &'a [u64],
}

/// Particles to be read: 26 floats and 4 words for each, as [`crate::Particle`] has them.
#[derive(Clone, Copy, Debug, Default)]
pub struct Particles<'a> {
    /// 26 entries for each particle.
    pub floats: &'a [f32],
    /// 4 entries for each particle, each 0 or 1.
    pub words: &'a [u32],
}

/// Particles to be written.
#[derive(Debug, Default)]
pub struct ParticlesMut<'a> {
    /// 26 entries for each particle.
    pub floats: &'a mut [f32],
    /// 4 entries for each particle, each 0 or 1.
    pub words: &'a mut [u32],
}

/// Nodes to be read: for each region 16, and for each node 7 floats and a word, as [`crate::Node`] has them.
#[derive(Clone, Copy, Debug, Default)]
pub struct Nodes<'a> {
    /// 112 entries for each region.
    pub floats: &'a [f32],
    /// 16 entries for each region.
    pub words: &'a [u32],
}

/// Nodes to be written.
#[derive(Debug, Default)]
pub struct NodesMut<'a> {
    /// 112 entries for each region.
    pub floats: &'a mut [f32],
    /// 16 entries for each region.
    pub words: &'a mut [u32],
}

/// What an update is given of boundaries: two codes, and colliders with their projections, by region, cell and collider.
#[derive(Clone, Copy, Debug, Default)]
pub struct Colliders<'a> {
    /// 0 none, 1 stick, 2 friction, 3 friction z-up.
    pub handling: u32,
    /// Bit 0 locks x and bit 1 locks y.
    pub locks: u32,
    /// An entry for each collider.
    pub frictions: &'a [f32],
    /// The points x, y that a collider's shape has for the centres of cells: 2 entries for each region, cell and collider.
    pub points: &'a [f32],
    /// Whether that centre is inside, 1 or 0: an entry for each region, cell and collider.
    pub insides: &'a [u32],
}

/// What the models say of particles: a density and an energy of each, and whether it failed.
#[derive(Clone, Copy, Debug, Default)]
pub struct Given<'a> {
    /// 2 entries for each particle, density and energy.
    pub floats: &'a [f32],
    /// An entry for each particle, 1 where it failed and 0 where not.
    pub words: &'a [u32],
}

impl Particles<'_> {
    /// How many there are: the whole records in `words`.
    pub fn count(&self) -> usize {
        self.words.len() / PARTICLE_WORDS
    }

    /// The floats of a particle, as many of them as there are.
    pub(crate) fn floats_of(&self, place: usize) -> &[f32] {
        record(self.floats, place, PARTICLE_FLOATS)
    }

    pub(crate) fn words_of(&self, place: usize) -> &[u32] {
        record(self.words, place, PARTICLE_WORDS)
    }

    pub(crate) fn position(&self, place: usize) -> Option<[f32; 2]> {
        Some([*self.floats_of(place).first()?, *self.floats_of(place).get(1)?])
    }
}

impl ParticlesMut<'_> {
    /// The same, to be read.
    pub fn as_read(&self) -> Particles<'_> {
        Particles { floats: self.floats, words: self.words }
    }
}

impl NodesMut<'_> {
    /// The same, to be read.
    pub fn as_read(&self) -> Nodes<'_> {
        Nodes { floats: self.floats, words: self.words }
    }
}

/// The entries of one record of a list, none where it has no such record.
pub(crate) fn record<T>(list: &[T], place: usize, size: usize) -> &[T] {
    list.chunks(size).nth(place).unwrap_or(&[])
}

/// How many floats a region's nodes have.
pub(crate) const REGION_FLOATS: usize = REGION_NODES * NODE_FLOATS;
