//! Calls of a scatter, of an update and of a gather that no rule refuses.

use crate::particle::{CRACK_FACTOR, DEFORMATION, MASS, PHASE, PSI, VOLUME};
use crate::{
    plane, Boundary, Call, Gather, Rng, FRICTION, FRICTION_Z_UP, NODE_FLOATS, NONE, PARTICLE_FLOATS, PARTICLE_WORDS,
    REGION_NODES, STICK,
};
use std::collections::BTreeMap;

/// What a sample's numbers are like, and with them what its results are like.
#[derive(Clone, Copy, Debug, PartialEq)]
pub enum Numbers {
    Everyday,
    /// Everyday ones among zeros of both signs, subnormals, and the ends of the range.
    Mixed,
    /// So large that many a product is infinite.
    Huge,
    /// So small that many a product is subnormal or zero.
    Tiny,
    /// Any finite pattern.
    Any,
}

/// What the nodes hold before the call.
#[derive(Clone, Copy, Debug, PartialEq)]
pub enum Old {
    Empty,
    /// Zeros of either sign, which a sum with +0 tells apart.
    Zeros,
    Numbers,
    /// Any pattern, many of them NaNs and infinities, and flags of any bits.
    Patterns,
}

/// How to make a sample: particles in a window of cells (its corner, and its cells along each axis), and regions beside theirs.
#[derive(Clone, Copy, Debug)]
pub struct Style {
    pub cell_width: f32,
    pub corner: [u32; 2],
    pub window: [u32; 2],
    pub particles: usize,
    pub numbers: Numbers,
    pub old: Old,
    pub other_regions: usize,
}

/// The last first cell of a stencil.
pub const LAST_CELL: u32 = 65534;

/// Powers of two, the ends of the range among them, and others.
pub const WIDTHS: [f32; 12] = [1.0, 0.5, 0.25, 2.0, 0.1, 0.05, 0.3, 3.0, 0.001, 1.0 / 3.0, 1048576.0, 1.0 / 1048576.0];

const SPECIAL: [f32; 14] =
    [0.0, -0.0, 1e-45, -1e-45, f32::MIN_POSITIVE, -f32::MIN_POSITIVE, 5e-39, f32::MAX, f32::MIN, 1e20, -1e20, 1e-20, 1.0, -1.0];

const LENGTHS: [f32; 8] = [1.0, 0.001, 1.0 / 60.0, 0.1, 1e-45, 1e-30, 1e30, f32::MAX];

/// Numbers and nodes as often as they are taken: what is finite tells more, since any NaN equals any other.
const USUAL_NUMBERS: [Numbers; 8] = [
    Numbers::Everyday,
    Numbers::Everyday,
    Numbers::Everyday,
    Numbers::Mixed,
    Numbers::Tiny,
    Numbers::Tiny,
    Numbers::Huge,
    Numbers::Any,
];
const USUAL_OLD: [Old; 6] = [Old::Empty, Old::Empty, Old::Zeros, Old::Numbers, Old::Numbers, Old::Patterns];

/// The places of a call's regions colour by colour, shuffled within each.
pub fn order(call: &Call, rng: &mut Rng) -> Vec<u64> {
    let mut places: Vec<u64> = (0..call.ids.len() as u64).collect();
    rng.shuffle(&mut places);
    places.sort_by_key(|place| plane::colour(call.ids[*place as usize]));
    places
}

const HANDLINGS: [u32; 6] = [FRICTION, FRICTION, FRICTION, FRICTION_Z_UP, STICK, NONE];

const FRICTIONS: [f32; 12] = [0.5, 0.3, 1.0, 0.05, 2.0, 0.0, -0.0, -1.0, 1e30, 1e-45, f32::MAX, f32::MIN];

/// The call with so many colliders, whose points lie about the cells' centres.
pub fn bounded(call: Call, colliders: usize, rng: &mut Rng) -> Call {
    let projections = call.ids.len() * REGION_NODES * colliders;
    let cells = (0..projections).map(|place| place / colliders).map(|cell| (cell / REGION_NODES, cell % REGION_NODES));
    let centres: Vec<[f32; 2]> =
        cells.map(|(region, number)| plane::centre(plane::cell_of(call.ids[region], number), call.cell_width)).collect();
    let boundary = Boundary {
        handling: rng.one_of(&HANDLINGS),
        locks: rng.one_of(&[0, 0, 0, 0, 1, 2, 3]),
        colliders: colliders as u64,
        frictions: (0..colliders).map(|_| rng.one_of(&FRICTIONS).to_bits()).collect(),
        points: centres.iter().flat_map(|centre| point_about(*centre, &call, rng)).map(f32::to_bits).collect(),
        insides: (0..projections).map(|_| rng.one_of(&[0, 0, 1])).collect(),
    };
    Call { boundary, ..call }
}

/// A point at the centre, so near to it that there is no normal, within a cell's width, about that width and beyond it by what is
/// covered in dt or by more; or anywhere.
fn point_about(centre: [f32; 2], call: &Call, rng: &mut Rng) -> [f32; 2] {
    let width = call.cell_width;
    let distance = match rng.below(8) {
        0 => 0.0,
        1 => rng.between(0.5, 1.5) * 1.0e-5,
        2 | 3 => rng.between(0.0, 1.0) * width,
        4 => width * (1.0 + rng.between(-4.0, 4.0) * f32::EPSILON),
        5 => width + rng.between(0.0, 2.0) * call.dt.min(1e30),
        6 => rng.between(1.0, 4.0) * width,
        _ => return [0; 2].map(|_| with_exponent(0, 254, rng)),
    };
    let way = [rng.between(-1.0, 1.0), rng.between(-1.0, 1.0)];
    let [x, y] = rng.one_of(&[way, way, [1.0, 0.0], [0.0, -1.0]]);
    let length = (x * x + y * y).sqrt().max(0.001);
    [centre[0] + x / length * distance, centre[1] + y / length * distance]
}

/// F00 beyond this, of either sign, is too much for a solid.
pub const LARGEST_DEFORMATION: f32 = 1.0e4;

/// A number about the largest F00, of either sign.
pub fn about_the_largest(rng: &mut Rng) -> f32 {
    let near = f32::from_bits(LARGEST_DEFORMATION.to_bits() + rng.below(5) as u32 - 2);
    let farther = rng.between(0.9, 1.1) * LARGEST_DEFORMATION;
    rng.one_of(&[near, near, farther, f32::MAX]) * rng.one_of(&[1.0, -1.0])
}

/// The call as one of a gather's halves: with what they are given, and now and then an F00 about the largest.
pub fn gathered(mut call: Call, rng: &mut Rng) -> Call {
    for floats in call.particle_floats.chunks_exact_mut(PARTICLE_FLOATS) {
        if rng.below(6) == 0 {
            floats[DEFORMATION] = about_the_largest(rng).to_bits();
        }
    }
    given(call, rng)
}

/// The call with or without modified eigenerosion, and with what models say of its particles.
pub fn given(call: Call, rng: &mut Rng) -> Call {
    let psis: Vec<f32> = call.particle_floats.chunks_exact(PARTICLE_FLOATS).map(|floats| f32::from_bits(floats[PSI])).collect();
    let gather = Gather {
        eigenerosion: rng.one_of(&[0, 1, 1]),
        given_floats: psis.iter().flat_map(|psi| [density(rng), energy_about(*psi, rng)]).map(f32::to_bits).collect(),
        given_words: psis.iter().map(|_| rng.one_of(&[0, 0, 1])).collect(),
    };
    Call { gather, ..call }
}

fn density(rng: &mut Rng) -> f32 {
    let (everyday, any) = (rng.between(0.1, 3.0), with_exponent(0, 254, rng));
    rng.one_of(&[everyday, everyday, everyday, everyday, -2.5, any, 1e-45, f32::MAX, 0.0, -0.0])
}

/// An energy below psi, above it, the same, or any. No two zeros but both +0: of others Rust's own maximum is another or hangs on the
/// machine.
fn energy_about(psi: f32, rng: &mut Rng) -> f32 {
    let (everyday, any) = (rng.between(-2.0, 2.0), with_exponent(0, 254, rng));
    let energy = rng.one_of(&[psi, psi + 0.5, psi - 0.5, 2.0 * psi, 0.5 * psi, -psi, everyday, any, 0.0, -0.0]);
    match (psi == 0.0 && energy == 0.0, psi.to_bits() | energy.to_bits()) {
        (true, 0) => energy,
        (true, _) => everyday,
        _ if energy.is_finite() => energy,
        _ => everyday,
    }
}

impl Style {
    /// Everyday particles of one window and empty nodes.
    pub fn plain(cell_width: f32, corner: [u32; 2], window: [u32; 2], particles: usize) -> Style {
        Style { cell_width, corner, window, particles, numbers: Numbers::Everyday, old: Old::Empty, other_regions: 0 }
    }

    /// Any style, with few particles or some dozens.
    pub fn any(rng: &mut Rng) -> Style {
        let side = rng.one_of(&[1, 2, 3, 4, 6, 9, 16, 30]);
        let most = rng.one_of(&[1, 2, 4, 12, 40]);
        Style {
            cell_width: any_width(rng),
            corner: [0; 2].map(|_| any_corner(rng)),
            window: [side, rng.one_of(&[1, side, 5])],
            particles: 1 + rng.below(most) as usize,
            numbers: rng.one_of(&USUAL_NUMBERS),
            old: rng.one_of(&USUAL_OLD),
            other_regions: rng.below(3) as usize,
        }
    }

    /// Any style over nodes that hold something, be it zeros.
    pub fn over_old_nodes(rng: &mut Rng) -> Style {
        Style { old: rng.one_of(&[Old::Patterns, Old::Numbers, Old::Zeros]), ..Style::any(rng) }
    }

    pub fn sample(&self, rng: &mut Rng) -> Call {
        let records = (0..self.particles).map(|_| self.particle(rng)).collect();
        let mut regions = by_regions(records, self.cell_width).expect("made to be in range");
        for _ in 0..self.other_regions {
            regions.entry(plane::region([0; 2].map(|_| any_corner(rng)))).or_default();
        }
        self.settled(call(regions), rng)
    }

    /// So many calls on one list, which has all the regions that any of them needs.
    pub fn samples_on_one_list(&self, count: usize, rng: &mut Rng) -> Vec<Call> {
        let calls: Vec<Call> = (0..count).map(|_| self.sample(rng)).collect();
        let mut ids: Vec<u64> = calls.iter().flat_map(|call| call.ids.iter().copied()).collect();
        ids.sort_unstable();
        ids.dedup();
        calls.iter().map(|call| call.on_list(&ids)).collect()
    }

    /// The call with settings and nodes of this style.
    fn settled(&self, call: Call, rng: &mut Rng) -> Call {
        let old_float = |rng: &mut Rng| match self.old {
            Old::Empty => 0,
            Old::Zeros => rng.word() & 0x8000_0000,
            Old::Numbers => self.numbers.number(rng).to_bits(),
            Old::Patterns => any_pattern(rng),
        };
        let old_word = |rng: &mut Rng| if self.old == Old::Empty { 0 } else { rng.one_of(&[0, 1, 7, u32::MAX]) };
        Call {
            cell_width: self.cell_width,
            dt: self.numbers.length(rng),
            gravity: self.numbers.gravity(rng),
            node_floats: (0..call.node_words.len() * NODE_FLOATS).map(|_| old_float(rng)).collect(),
            node_words: call.node_words.iter().map(|_| old_word(rng)).collect(),
            ..call
        }
    }

    fn particle(&self, rng: &mut Rng) -> Record {
        let mut floats = [0; PARTICLE_FLOATS].map(|_| self.numbers.number(rng));
        [floats[0], floats[1]] = self.place(rng);
        if self.numbers == Numbers::Everyday {
            floats[MASS] = rng.between(0.1, 3.0);
            floats[VOLUME] = rng.between(0.1, 2.0);
        }
        for place in [PHASE, CRACK_FACTOR] {
            floats[place] = rng.one_of(&[1.0, 1.0, 0.25, 0.0, -0.0, -1.0, 1e-45, floats[place]]);
        }
        let words = [rng.one_of(&[0, 0, 0, 1]), rng.below(2) as u32, rng.below(2) as u32, rng.below(2) as u32];
        Record { floats, words }
    }

    /// A place whose cell is of the window, or next to it; now and then on the middle or on the edge of a cell.
    fn place(&self, rng: &mut Rng) -> [f32; 2] {
        loop {
            let along = |axis: usize, rng: &mut Rng| {
                let cell = self.corner[axis] + rng.below(u64::from(self.window[axis])) as u32;
                let within = rng.between(-0.5, 0.5);
                (cell.min(LAST_CELL) as f32 + 1.0 + rng.one_of(&[within, within, within, 0.0, 0.5, -0.5])) * self.cell_width
            };
            let place = [along(0, rng), along(1, rng)];
            if plane::first_cell(place, self.cell_width).is_some() {
                return place;
            }
        }
    }
}

impl Numbers {
    fn number(self, rng: &mut Rng) -> f32 {
        match self {
            Numbers::Everyday => rng.between(-2.0, 2.0),
            Numbers::Mixed => {
                let (everyday, special) = (rng.between(-2.0, 2.0), rng.one_of(&SPECIAL));
                rng.one_of(&[everyday, everyday, special])
            }
            Numbers::Huge => with_exponent(150, 200, rng),
            Numbers::Tiny => with_exponent(30, 100, rng),
            Numbers::Any => with_exponent(0, 254, rng),
        }
    }

    fn length(self, rng: &mut Rng) -> f32 {
        match self {
            Numbers::Everyday => rng.one_of(&LENGTHS[..4]),
            _ => rng.one_of(&LENGTHS),
        }
    }

    fn gravity(self, rng: &mut Rng) -> [f32; 2] {
        match self {
            Numbers::Everyday => rng.one_of(&[[0.0, -9.81], [0.0, 0.0], [0.3, -1.0]]),
            _ => [0; 2].map(|_| self.number(rng)),
        }
    }
}

/// Random digits and sign, with an exponent's field from one to another.
pub(crate) fn with_exponent(least: u32, largest: u32, rng: &mut Rng) -> f32 {
    let field = least + rng.below(u64::from(largest - least) + 1) as u32;
    f32::from_bits(rng.word() & 0x807f_ffff | field << 23)
}

/// Any pattern; every other one a NaN of any digits or an infinity.
fn any_pattern(rng: &mut Rng) -> u32 {
    let random = rng.word();
    rng.one_of(&[random, random | 0x7f80_0000, random & 0x8000_0000 | 0x7f80_0000, random, random | 0x7f80_0001])
}

fn any_width(rng: &mut Rng) -> f32 {
    let (known, random) = (rng.one_of(&WIDTHS), with_exponent(127 - 20, 127 + 19, rng).abs());
    rng.one_of(&[known, random])
}

/// Mostly near the beginning of an axis, now and then anywhere or at its end.
fn any_corner(rng: &mut Rng) -> u32 {
    let (near, anywhere) = (rng.below(12) as u32, rng.below(u64::from(LAST_CELL)) as u32);
    rng.one_of(&[0, near, near, near, anywhere, LAST_CELL - near])
}

/// A particle's record.
#[derive(Clone)]
struct Record {
    floats: [f32; PARTICLE_FLOATS],
    words: [u32; PARTICLE_WORDS],
}

impl Record {
    fn position(&self) -> [f32; 2] {
        [self.floats[0], self.floats[1]]
    }
}

/// The regions that particles are in or reach, each with its own in their order; none where a particle is off the grid.
fn by_regions(records: Vec<Record>, cell_width: f32) -> Option<BTreeMap<u64, Vec<Record>>> {
    let mut regions: BTreeMap<u64, Vec<Record>> = BTreeMap::new();
    for record in records {
        let first = plane::first_cell(record.position(), cell_width)?;
        for region in plane::regions(first) {
            regions.entry(region).or_default();
        }
        regions.entry(plane::region(first)).or_default().push(record);
    }
    Some(regions)
}

/// The call's settings and particles, in the regions where these are now, over nodes of any pattern; none where a particle is off the
/// grid.
pub fn sorted_again(old: &Call, rng: &mut Rng) -> Option<Call> {
    let bits = old.particle_floats.chunks_exact(PARTICLE_FLOATS).map(|bits| <[u32; PARTICLE_FLOATS]>::try_from(bits));
    let words = old.particle_words.chunks_exact(PARTICLE_WORDS).map(|words| <[u32; PARTICLE_WORDS]>::try_from(words));
    let records = bits.zip(words).map(|(bits, words)| {
        let (bits, words) = (bits.expect("a particle's floats"), words.expect("a particle's words"));
        Record { floats: bits.map(f32::from_bits), words }
    });
    let mut new = call(by_regions(records.collect(), old.cell_width)?);
    (new.cell_width, new.dt, new.gravity) = (old.cell_width, old.dt, old.gravity);
    new.node_floats.iter_mut().chain(&mut new.node_words).for_each(|word| *word = rng.word());
    Some(new)
}

/// A call on these regions and their particles.
fn call(regions: BTreeMap<u64, Vec<Record>>) -> Call {
    let mut made = Call::on(regions.keys().copied().collect());
    for (place, records) in regions.into_values().enumerate() {
        made.ranges[2 * place] = made.particles;
        made.ranges[2 * place + 1] = records.len() as u64;
        made.particles += records.len() as u64;
        for record in records {
            made.particle_floats.extend(record.floats.map(f32::to_bits));
            made.particle_words.extend(record.words);
        }
    }
    made
}
