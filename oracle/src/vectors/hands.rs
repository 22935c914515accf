//! What the rules of document 01 that are said by hand in tests have in common: particles and their stencils.

use samples::particle::*;
use samples::{plane, Call, Records, PARTICLE_FLOATS, PARTICLE_WORDS, REGION_NODES};

pub type Pair = [f32; 2];
pub type Square = [[f32; 2]; 2];

/// A particle's numbers and flags.
pub struct Body {
    pub floats: Vec<f32>,
    pub words: Vec<u32>,
}

impl Body {
    pub fn is(&self, flag: usize) -> bool {
        self.words[flag] == 1
    }

    pub fn pair(&self, place: usize) -> Pair {
        [self.floats[place], self.floats[place + 1]]
    }

    pub fn square(&self, place: usize) -> Square {
        [self.pair(place), self.pair(place + 2)]
    }

    pub fn set(&mut self, place: usize, parts: &[f32]) {
        self.floats[place..][..parts.len()].copy_from_slice(parts);
    }

    /// d: the way to the first node of the stencil.
    pub fn way(&self, h: f32) -> Pair {
        let position = self.pair(POSITION);
        let r = plane::nearest(position, h);
        [0, 1].map(|axis| (r[axis] - 1.0) * h - position[axis])
    }

    /// The place in the list of the node that this shift leads to.
    pub fn node(&self, shift: [usize; 2], call: &Call) -> usize {
        let first = plane::first_cell(self.pair(POSITION), call.cell_width).expect("an accepted particle");
        let cell = [first[0] + shift[0] as u32, first[1] + shift[1] as u32];
        let region = call.ids.binary_search(&plane::region(cell)).expect("a listed region");
        region * REGION_NODES + plane::number_in_region(cell)
    }
}

/// The call's particles, each changed.
pub fn each(call: &Call, mut change: impl FnMut(usize, &mut Body)) -> Records {
    let bits = call.particle_floats.chunks_exact(PARTICLE_FLOATS);
    let words = call.particle_words.chunks_exact(PARTICLE_WORDS);
    let bodies = bits.zip(words).enumerate().map(|(place, (bits, words))| {
        let mut body = Body { floats: bits.iter().copied().map(f32::from_bits).collect(), words: words.to_vec() };
        change(place, &mut body);
        (body.floats.into_iter().map(f32::to_bits).collect::<Vec<u32>>(), body.words)
    });
    let (floats, words): (Vec<_>, Vec<_>) = bodies.unzip();
    (floats.concat(), words.concat())
}

/// The weights of three nodes in a row, for a particle that lies so far beyond the first of them, in cells.
pub fn weights(t: f32) -> [f32; 3] {
    [0.5 * ((1.5 - t) * (1.5 - t)), 0.75 - (t - 1.0) * (t - 1.0), 0.5 * ((t - 0.5) * (t - 0.5))]
}

/// The stencil's shifts, in document 01's order or in one that is wrong on purpose.
pub fn shifts(wrong: &str) -> [[usize; 2]; 9] {
    let mut shifts = [[2, 2], [2, 0], [2, 1], [0, 2], [0, 0], [0, 1], [1, 2], [1, 0], [1, 1]];
    match wrong {
        "stencil backwards" => shifts.reverse(),
        "stencil by rows" => shifts.sort_by_key(|[x, y]| 3 * y + x),
        "stencil by columns" => shifts.sort_unstable(),
        _ => {}
    }
    shifts
}
