//! Calls of a scatter, of an update, of a gather and of a recomputation of fluids to judge by: made from a seed (`random`), written in
//! lines and read again (`lines`), and put together to whole substeps (`substeps`); steps whose lengths are asked for (`lengths`); and
//! bench listings (`listing`), good and damaged (`damage`). The rules are document 01's (`plane`); nothing is taken from the port.

pub mod damage;
pub mod lengths;
pub mod lines;
pub mod listing;
pub mod plane;
pub mod random;
mod rng;
pub mod substeps;

pub use rng::Rng;

/// The records: floats and words of each, and the nodes of a region.
pub const PARTICLE_FLOATS: usize = 26;
pub const PARTICLE_WORDS: usize = 4;
pub const NODE_FLOATS: usize = 7;
pub const REGION_NODES: usize = 16;
pub const REGION_FLOATS: usize = REGION_NODES * NODE_FLOATS;
pub const PROJECTION_FLOATS: usize = 2;
pub const GIVEN_FLOATS: usize = 2;

/// Where a node's velocity stands among its floats.
pub const VELOCITY: usize = 3;

/// Where a particle's fields stand, those up to the kinematic velocity among its floats, the others among its words.
pub mod particle {
    pub const POSITION: usize = 0;
    pub const VELOCITY: usize = 2;
    pub const GRADIENT: usize = 4;
    pub const STRESS: usize = 8;
    pub const MASS: usize = 12;
    pub const VOLUME: usize = 13;
    pub const PHASE: usize = 14;
    pub const CRACK_FACTOR: usize = 15;
    pub const PSI: usize = 16;
    pub const DEFORMATION: usize = 17;
    pub const CRACK_THRESHOLD: usize = 21;
    pub const PARAMETER1: usize = 22;
    pub const PARAMETER2: usize = 23;
    pub const KINEMATIC_VELOCITY: usize = 24;

    pub const FAILED: usize = 0;
    pub const KINEMATIC: usize = 1;
    pub const FLUID: usize = 2;
    pub const STATIC: usize = 3;
}

/// All that a scatter is given, an update, a gather, and a recomputation of fluids. Floats of records are kept as bits, so that no NaN loses its pattern.
#[derive(Clone, Debug, PartialEq)]
pub struct Call {
    pub cell_width: f32,
    pub dt: f32,
    pub gravity: [f32; 2],
    pub regions: u64,
    pub ids: Vec<u64>,
    pub ranges: Vec<u64>,
    pub particles: u64,
    pub particle_floats: Vec<u32>,
    pub particle_words: Vec<u32>,
    pub node_floats: Vec<u32>,
    pub node_words: Vec<u32>,
    pub boundary: Boundary,
    pub gather: Gather,
}

/// The floats, by their bits, and the words of particles or of nodes.
pub type Records = (Vec<u32>, Vec<u32>);

/// What an update is given beside settings, regions and nodes: its own settings, and of each collider a friction and the points
/// that it has for the cells, whether inside or not, ordered by region, cell and collider.
#[derive(Clone, Debug, Default, PartialEq)]
pub struct Boundary {
    pub handling: u32,
    pub locks: u32,
    pub colliders: u64,
    pub frictions: Vec<u32>,
    pub points: Vec<u32>,
    pub insides: Vec<u32>,
}

/// What the halves of a gather are given beside settings, regions, particles and nodes: whether eigenerosion is the modified one; and
/// of each particle what its models say: a density, an energy, and whether it failed.
#[derive(Clone, Debug, Default, PartialEq)]
pub struct Gather {
    pub eigenerosion: u32,
    pub given_floats: Vec<u32>,
    pub given_words: Vec<u32>,
}

/// Codes of boundary handling.
pub const NONE: u32 = 0;
pub const STICK: u32 = 1;
pub const FRICTION: u32 = 2;
pub const FRICTION_Z_UP: u32 = 3;

impl Call {
    /// A call on these regions, with no particle, no collider and empty nodes.
    pub fn on(ids: Vec<u64>) -> Call {
        let regions = ids.len();
        Call {
            cell_width: 1.0,
            dt: 1.0,
            gravity: [0.0; 2],
            regions: regions as u64,
            ids,
            ranges: vec![0; 2 * regions],
            particles: 0,
            particle_floats: vec![],
            particle_words: vec![],
            node_floats: vec![0; regions * REGION_FLOATS],
            node_words: vec![0; regions * REGION_NODES],
            boundary: Boundary::default(),
            gather: Gather::default(),
        }
    }

    /// A call on region 0 with one particle, which has these of its floats and these of its flags on, and else zeros.
    pub fn of_one(floats: &[(usize, f32)], flags: &[usize]) -> Call {
        let mut call = Call { particles: 1, ranges: vec![0, 1], ..Call::on(vec![0]) };
        call.particle_floats = vec![0; PARTICLE_FLOATS];
        call.particle_words = vec![0; PARTICLE_WORDS];
        floats.iter().for_each(|(place, float)| call.particle_floats[*place] = float.to_bits());
        flags.iter().for_each(|flag| call.particle_words[*flag] = 1);
        call
    }

    /// The call with these colliders, whose points are all the origin, and outside.
    pub fn bounded(self, handling: u32, frictions: &[f32]) -> Call {
        let projections = self.ids.len() * REGION_NODES * frictions.len();
        let boundary = Boundary {
            handling,
            locks: 0,
            colliders: frictions.len() as u64,
            frictions: frictions.iter().map(|friction| friction.to_bits()).collect(),
            points: vec![0; projections * PROJECTION_FLOATS],
            insides: vec![0; projections],
        };
        Call { boundary, ..self }
    }

    /// The same particles on a list that has more regions, with empty nodes and no collider.
    pub fn on_list(&self, ids: &[u64]) -> Call {
        let mut call = Call::on(ids.to_vec());
        let counts = ids.iter().map(|id| self.ids.binary_search(id).map_or(0, |place| self.ranges[2 * place + 1]));
        for (range, count) in call.ranges.chunks_exact_mut(2).zip(counts) {
            range.copy_from_slice(&[call.particles, count]);
            call.particles += count;
        }
        assert_eq!(call.particles, self.particles, "a region that is not listed");
        Call {
            cell_width: self.cell_width,
            dt: self.dt,
            gravity: self.gravity,
            particle_floats: self.particle_floats.clone(),
            particle_words: self.particle_words.clone(),
            ..call
        }
    }

    /// The call with these particles in place of its own.
    pub fn with_particles(&self, (floats, words): &Records) -> Call {
        Call { particle_floats: floats.clone(), particle_words: words.clone(), ..self.clone() }
    }

    pub fn position(&self, particle: usize) -> [f32; 2] {
        let floats = &self.particle_floats[particle * PARTICLE_FLOATS..];
        [floats[0], floats[1]].map(f32::from_bits)
    }

    /// Of each node of an accepted call, whether a particle reaches it: one of the region at a place, or of any.
    pub fn hits(&self, place: Option<usize>) -> Vec<bool> {
        let mut hit = vec![false; self.node_words.len()];
        let ranges = self.ranges.chunks_exact(2).enumerate().filter(|(region, _)| place.map_or(true, |place| place == *region));
        for particle in ranges.flat_map(|(_, range)| range[0]..range[0] + range[1]) {
            let first = plane::first_cell(self.position(particle as usize), self.cell_width).expect("an accepted particle");
            for cell in plane::stencil(first) {
                let region = self.ids.binary_search(&plane::region(cell)).expect("a listed region");
                hit[region * REGION_NODES + plane::number_in_region(cell)] = true;
            }
        }
        hit
    }
}

/// How every NaN is written, since nothing says which of its patterns an operation answers.
pub const WRITTEN_NAN: u32 = 0x7fc0_0000;

/// The bits of a number, the same for every NaN.
pub fn canonical(bits: u32) -> u32 {
    if f32::from_bits(bits).is_nan() {
        WRITTEN_NAN
    } else {
        bits
    }
}

#[cfg(test)]
mod tests {
    use super::*;
    use random::{bounded, Style};

    #[test]
    fn on_a_longer_list_as_many_nodes_are_hit() {
        let mut rng = Rng::new(7);
        for _ in 0..50 {
            let calls = Style::any(&mut rng).samples_on_one_list(3, &mut rng);
            assert!(calls.iter().all(|call| call.ids == calls[0].ids && call.ids.windows(2).all(|pair| pair[0] < pair[1])));
            let alone = Style::any(&mut rng).sample(&mut rng);
            let mut ids = [&alone.ids[..], &[1 << 60, 1 << 61]].concat();
            ids.sort_unstable();
            let listed = alone.on_list(&ids);
            let count = |call: &Call| call.hits(None).iter().filter(|hit| **hit).count();
            assert_eq!(count(&alone), count(&listed));
        }
    }

    /// Of the points about cells some are at the centre, some within a cell's width, some beyond, and all are finite.
    #[test]
    fn a_boundarys_points_lie_about_its_cells() {
        let mut rng = Rng::new(8);
        let call = bounded(Call::on(vec![0, 4096]), 16, &mut rng);
        assert!(call.boundary.points.iter().all(|bits| f32::from_bits(*bits).is_finite()));
        let distance = |place: usize| {
            let cell = place / 16;
            let centre = plane::centre(plane::cell_of(call.ids[cell / REGION_NODES], cell % REGION_NODES), 1.0);
            let away = [0, 1].map(|axis| centre[axis] - f32::from_bits(call.boundary.points[2 * place + axis]));
            (away[0] * away[0] + away[1] * away[1]).sqrt()
        };
        let near = |low: f32, high: f32| (0..512).filter(|place| (low..high).contains(&distance(*place))).count();
        assert!([near(0.0, 1e-9), near(1e-6, 1e-4), near(0.01, 0.999), near(0.99999, 1.00001), near(1.01, 5.0)]
            .iter()
            .all(|count| *count > 15));
    }
}
