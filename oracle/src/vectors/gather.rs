//! Questions to the two halves of gather, and to whole substeps in a row. What a call is refused for is `reading`'s answer; the particles
//! of one that is not are the handed-over Rust's, which has both halves in one call. Between them it asks a plastic model, and that is
//! here a host: he writes down what the first half left, and puts his own F in its place or, for a question to the second half alone,
//! the particle that the question has.
//!
//! What the Rust cannot be asked: a given density, since it works one out of mass, volume and F. It only asks whether that is zero, and
//! the volume is changed where it has to be (`sparkl/given.rs`). Energy and failure are answered by models of given numbers, so that it
//! does not matter when they are asked. Of psi and energy no question has two zeros, unless both are +0: there Rust's own maximum
//! hangs on the machine or is not document 01's.

#[cfg(test)]
mod by_hand;

use super::book::{answer, entry, Book};
use super::faults::{self, over_512};
use super::floats::{near, strange_pairs};
use super::scatter::{self, ENDS, SIGNS};
use super::{decimal, Sheet, OF_BOTH};
use crate::reading::{self, Refusal};
use crate::rng::Rng;
use samples::lines::{folded, Edit};
use samples::particle::*;
use samples::random::{gathered, given, Numbers, Old, Style, LARGEST_DEFORMATION, LAST_CELL, WIDTHS};
use samples::substeps::{self, Answer, Stage, Substep};
use samples::{Call, Records, NODE_FLOATS, PARTICLE_FLOATS, PARTICLE_WORDS};
use sparkl2d::scene::Scene;

const LEGEND: [&str; 23] = [
    "Fields, between tabs: W an f32's bits in 8 hex digits, H a u64 in 16, D a decimal, P a particle (26 floats and 4 words, each in 8",
    "hex digits), N a node (7 floats and a word), G what is given of a particle (density, energy, and a word, whether it failed), or 0",
    "for one of zeros of these two, E a change.",
    "b a call D W W W W D [H D D].. D P.. N.. D G.. = D: the number that it has in the lines below; h, dt, gravity x and y; how many",
    "  regions, of each the id, start and count; how many particles, and these; 16 nodes for each region; whether eigenerosion is the",
    "  modified one; what is given of each particle. How many nodes there are",
    "g the first half D E.. = D D P..: the call, with changes",
    "s the second half D E.. = D D P..: the call, with changes",
    "  Of both: number and index and, where the number is 0, every particle after the call: = for one that is as it was, bit for bit; in",
    "  the others a NaN is 7FC00000; *D behind one, that so many in a row are the same. Nodes keep every bit. Where the number is not 0,",
    "  every lent word is as it was.",
    "w whole substeps in a row D D D = D D D D P.. D D P..: the call, a seed, how many. `host/samples/src/substeps.rs` says what the seed",
    "  makes: of each substep the colliders, what is given, and the F that a host puts between the halves. Of each substep, number and",
    "  index of clear, scatter and update in one, of the first half with its particles, and of the second with its. It ends with what",
    "  is refused, or where a particle is off the grid",
    "Changes, in their order:",
    "  h=W t=W x=W y=W e=W   cell width, dt, gravity, modified eigenerosion",
    "  r=D p=D           the counts of regions and of particles, whatever the lists have",
    "  iD=X sD=X fD=X wD=X mD=X kD=X gD=X vD=X   an entry of the ids, of the starts and counts, of the floats and of the words of particles",
    "                    and of nodes, of the floats and of the words that are given of particles; X in hex",
    "  iD sD fD wD mD kD gD vD with # before the D: the length of these; what is missing is 0",
    "  *D                the particles are the first one, D times, with what is given of it, and all of the first region",
    "End of the header.",
];

pub fn make() -> Sheet {
    let sources =
        [&["src/dynamics/solver/grid_to_particle.rs", "src/dynamics/solver/grid_update.rs"], &scatter::SOURCES[..]].concat();
    let mut book = Book::new(Sheet::titled("Gather", OF_BOTH, &sources, &LEGEND));
    book.first_halves();
    book.second_halves();
    book.substeps_in_a_row();
    book.refused_gathers();
    book.sheet
}

impl Book {
    fn add_gather(&mut self, call: Call) -> usize {
        let fields = call.gather_fields();
        self.enter(call, fields)
    }

    fn ask_first(&mut self, number: usize, edits: &[Edit]) {
        self.question("g", number, vec![], edits, |call| {
            answer(reading::first_half(call), || written(call, &Scene::first_half(call)))
        });
    }

    fn ask_second(&mut self, number: usize, edits: &[Edit]) {
        self.question("s", number, vec![], edits, |call| {
            answer(reading::second_half(call), || written(call, &Scene::second_half(call)))
        });
    }

    /// So many substeps in a row, with a recomputation of fluids' volumes in front of each or without it.
    pub fn ask_substeps(&mut self, number: usize, recomputes: bool, count: usize) {
        let seed = u64::from(self.rng.word());
        let more = vec![decimal(seed), decimal(count as u64)];
        self.question("w", number, more, &[], |call| substeps::run(call, recomputes, seed, count, stages));
    }
}

fn written(call: &Call, (floats, words): &Records) -> Vec<String> {
    folded(&call.particles_answered((floats, words)))
}

/// What the stages of a substep answer; the Rust's gather is one call there.
pub fn stages(substep: &Substep) -> Vec<Answer> {
    substep.judged(|stage, call| refused(stage, call).map(|refusal| (refusal.number, refusal.index)), Scene::substep)
}

fn refused(stage: Stage, call: &Call) -> Option<Refusal> {
    match stage {
        Stage::Clear => reading::clear(call.regions, &call.ids, call.node_floats.len() as u64, call.node_words.len() as u64),
        Stage::Fluids => reading::fluids(call),
        Stage::Sequence => reading::clear_scatter_update(call),
        Stage::FirstHalf => reading::first_half(call),
        Stage::SecondHalf => reading::second_half(call),
    }
}

/// The change of a float, of a particle (f), a node (m) or of what is given (g).
pub fn float(letter: char, place: usize, float: f32) -> Edit {
    entry(letter, place, float.to_bits())
}

pub fn flag(place: usize) -> Edit {
    entry('w', place, 1)
}

// First halves that are done.

impl Book {
    fn first_halves(&mut self) {
        let number = self.one_particle();
        self.fields_of_a_first_half(number);
        self.flags_of_a_first_half(number);
        self.phases_and_cracks_of_a_first_half(number);
        self.nodes_of_a_first_half(number);
        self.thresholds();
        self.sampled_first_halves();
        self.first_halves_at_the_limits(number);
    }

    /// A solid particle that has everything, and whose stencil lies in one region over nodes that have everything.
    fn one_particle(&mut self) -> usize {
        let style = Style { old: Old::Numbers, ..Style::plain(0.3, [1, 1], [1, 1], 1) };
        let mut call = given(style.sample(&mut self.rng), &mut self.rng);
        for (place, float) in [(PHASE, 0.5f32), (CRACK_FACTOR, 2.0), (CRACK_THRESHOLD, -1e30), (PSI, 0.75)] {
            call.particle_floats[place] = float.to_bits();
        }
        call.particle_words.fill(0);
        call.gather.eigenerosion = 1;
        self.add_gather(call)
    }

    fn fields_of_a_first_half(&mut self, number: usize) {
        let kinds = [vec![], vec![flag(FLUID)], vec![flag(KINEMATIC)]];
        for end in ENDS {
            for place in 2..PARTICLE_FLOATS {
                self.ask_first(number, &[float('f', place, end)]);
            }
            for place in DEFORMATION..DEFORMATION + 4 {
                self.ask_first(number, &[float('f', place, end), flag(FLUID)]);
            }
            for place in KINEMATIC_VELOCITY..PARTICLE_FLOATS {
                self.ask_first(number, &[float('f', place, end), flag(KINEMATIC)]);
            }
        }
        for dt in [1e-45, 1e-20, 0.5, 3.0, 1e20, f32::MAX] {
            for kind in &kinds {
                self.ask_first(number, &[&[Edit::Setting('t', dt.to_bits())], &kind[..]].concat());
            }
        }
    }

    fn flags_of_a_first_half(&mut self, number: usize) {
        for flags in 0..16 {
            let words = (0..PARTICLE_WORDS).filter(|place| flags >> place & 1 == 1).map(flag);
            for eigenerosion in [0, 1] {
                let edits: Vec<Edit> = words.clone().chain([Edit::Setting('e', eigenerosion)]).collect();
                self.ask_first(number, &edits);
            }
        }
    }

    /// Phases and factors about 0, with a threshold that any energy is above and one that none is.
    fn phases_and_cracks_of_a_first_half(&mut self, number: usize) {
        for (phase, crack) in SIGNS.iter().flat_map(|phase| SIGNS.map(|crack| (*phase, crack))) {
            for threshold in [f32::MIN, f32::MAX] {
                let edits = [float('f', PHASE, phase), float('f', CRACK_FACTOR, crack), float('f', CRACK_THRESHOLD, threshold)];
                self.ask_first(number, &edits);
            }
        }
    }

    /// Zeros, infinities and NaNs in one node of the stencil, or in all of them.
    fn nodes_of_a_first_half(&mut self, number: usize) {
        let hits = self.calls[number].hits(None);
        let nodes: Vec<usize> = (0..hits.len()).filter(|node| hits[*node]).map(|node| node * NODE_FLOATS).collect();
        let kinds = [vec![], vec![flag(FLUID)], vec![flag(KINEMATIC)], vec![flag(STATIC), flag(FLUID)]];
        for (place, [x, y]) in strange_pairs().enumerate() {
            let node = nodes[place % nodes.len()];
            let velocity = vec![entry('m', node + 3, x), entry('m', node + 4, y)];
            self.ask_first(number, &[velocity, kinds[place % kinds.len()].clone()].concat());
            let psi = vec![entry('m', node + 5, x), entry('m', node + 6, y)];
            for threshold in [f32::MIN, 0.0, f32::MAX] {
                self.ask_first(number, &[psi.clone(), vec![float('f', CRACK_THRESHOLD, threshold)]].concat());
            }
        }
        let psi_masses = [1e-45, -1e-45, 1e-39, f32::MIN_POSITIVE, -2.0, 1e38, f32::MIN];
        for (place, psi_mass) in psi_masses.into_iter().enumerate() {
            let node = nodes[place % nodes.len()];
            for momentum in [0.0, -0.0, 1e-45, 1.5, -1.5, f32::MAX] {
                let edits = [float('m', node + 5, momentum), float('m', node + 6, psi_mass), float('f', CRACK_THRESHOLD, 0.25)];
                self.ask_first(number, &edits);
            }
        }
        for zero in [0.0, -0.0] {
            for kind in &kinds {
                let all = nodes.iter().flat_map(|node| (0..NODE_FLOATS).map(move |place| float('m', node + place, zero)));
                self.ask_first(number, &all.chain(kind.iter().cloned()).collect::<Vec<_>>());
            }
        }
        for (word, node) in [1, 7, u32::MAX].into_iter().zip(&nodes) {
            self.ask_first(number, &[entry('k', node / NODE_FLOATS, word)]);
        }
    }

    /// Thresholds at the energy of a crack and next to it.
    fn thresholds(&mut self) {
        for place in 0..36 {
            let style = Style {
                old: Old::Numbers,
                numbers: [Numbers::Everyday, Numbers::Everyday, Numbers::Tiny][place % 3],
                ..Style::plain(WIDTHS[place % 10], [place as u32 % 2, 5], [1, 1], 1)
            };
            let mut call = given(style.sample(&mut self.rng), &mut self.rng);
            call.particle_floats[PHASE] = self.rng.between(0.1, 1.0).to_bits();
            call.particle_floats[CRACK_FACTOR] = (self.rng.between(0.1, 2.0) * self.rng.one_of(&[1.0, -1.0])).to_bits();
            call.gather.eigenerosion = 1;
            let energy = place_in_order(crack_energy(&call));
            let number = self.add_gather(call);
            for threshold in energy - 2..=energy + 2 {
                self.ask_first(number, &[float('f', CRACK_THRESHOLD, at_place(threshold))]);
            }
        }
    }

    /// Few regions, with numbers and nodes of every kind, each width, and both ends of the axes.
    fn sampled_first_halves(&mut self) {
        let numbers = [Numbers::Everyday, Numbers::Mixed, Numbers::Tiny, Numbers::Everyday, Numbers::Huge, Numbers::Any];
        let olds = [Old::Numbers, Old::Numbers, Old::Patterns, Old::Zeros, Old::Numbers];
        let mut styles = vec![];
        for place in 0..150 {
            styles.push(Style {
                numbers: numbers[place % 6],
                old: olds[place % 5],
                other_regions: place % 2,
                ..Style::plain(WIDTHS[place % 12], [place as u32 % 7, 3 + place as u32 % 2], [1, 1], 1 + place % 3)
            });
        }
        for (place, width) in WIDTHS.into_iter().enumerate() {
            let end = LAST_CELL - place as u32 % 5;
            let corner = [[end, 0], [20000 + 3 * place as u32, end]][place % 2];
            styles.push(Style { old: Old::Numbers, ..Style::plain(width, corner, [2, 2], 2) });
        }
        styles.extend([9, 17].map(|count| Style { old: Old::Numbers, ..Style::plain(0.1, [6, 6], [4, 4], count) }));
        for style in styles {
            let call = gathered(style.sample(&mut self.rng), &mut self.rng);
            let number = self.add_gather(call);
            self.ask_first(number, &[]);
        }
    }

    fn first_halves_at_the_limits(&mut self, number: usize) {
        for count in [2, 3, 5, 1000, 65535, 65536] {
            self.ask_first(number, &[Edit::Copies(count)]);
        }
        let largest = given(scatter::limit(), &mut self.rng);
        for call in [largest, Call::on(vec![]), Call::on(vec![0]), Call::on(vec![0, 4096, 1 << 63])] {
            let number = self.add_gather(call);
            self.ask_first(number, &[]);
            self.ask_first(number, &[Edit::Setting('x', 0x7FC0_0000), Edit::Setting('e', 1)]);
        }
    }
}

/// The energy that the Rust compares a threshold with, found by asking it: the least threshold at which it keeps the phase.
fn crack_energy(call: &Call) -> f32 {
    let keeps = |place: i64| {
        let (floats, _) = Scene::first_half(&call.edited(&[float('f', CRACK_THRESHOLD, at_place(place))]));
        f32::from_bits(floats[PHASE]) != 0.0
    };
    let (mut cracks_at, mut keeps_at) = (place_in_order(f32::MIN), place_in_order(f32::MAX));
    assert!(!keeps(cracks_at) && keeps(keeps_at));
    while keeps_at - cracks_at > 1 {
        let middle = (cracks_at + keeps_at) / 2;
        *(if keeps(middle) { &mut keeps_at } else { &mut cracks_at }) = middle;
    }
    at_place(keeps_at)
}

/// The place of a number among all, 0 for both zeros, and the number at a place.
fn place_in_order(number: f32) -> i64 {
    let place = i64::from(number.abs().to_bits());
    if number < 0.0 {
        -place
    } else {
        place
    }
}

fn at_place(place: i64) -> f32 {
    let number = f32::from_bits(place.unsigned_abs() as u32);
    if place < 0 {
        -number
    } else {
        number
    }
}

// Second halves that are done.

/// The call with its particles and what is given of them alone.
fn without_regions(call: Call) -> Call {
    Call { regions: 0, ids: vec![], ranges: vec![], node_floats: vec![], node_words: vec![], ..call }
}

/// Values of psi and of energy, to be taken two by two.
const ENERGIES: [f32; 13] =
    [0.0, -0.0, 1.0, -1.0, 1.0000001, 0.99999994, 1e-45, -1e-45, 1e-20, 2.5, f32::MAX, f32::MIN, f32::MIN_POSITIVE];

/// F of every kind of determinant: 1, 0, infinite, and none.
const DEFORMATIONS: [[f32; 4]; 7] = [
    [1.0, 0.0, 0.0, 1.0],
    [0.0; 4],
    [1.5, 3.0, 0.5, 1.0],
    [1.0, 1e20, 1e20, 1.0],
    [-0.5, f32::MAX, 1e-45, -0.0],
    [1e20, 1e20, 1e20, 1e20],
    [1e-30, 1e-30, 1e-30, -1e-30],
];

impl Book {
    fn second_halves(&mut self) {
        let number = self.particle_alone();
        self.fields_of_a_second_half(number);
        self.flags_of_a_second_half(number);
        self.deformations(number);
        self.energies(number);
        self.sampled_second_halves();
        self.second_halves_at_the_limits(number);
    }

    /// A solid particle that has everything, and of which nothing is given that fails it.
    fn particle_alone(&mut self) -> usize {
        let mut call = without_regions(given(Style::plain(1.0, [0, 0], [1, 1], 1).sample(&mut self.rng), &mut self.rng));
        for (place, float) in [(PHASE, 0.5f32), (PSI, 0.75), (PARAMETER1, 9.0), (PARAMETER2, 8.0)] {
            call.particle_floats[place] = float.to_bits();
        }
        call.particle_words.fill(0);
        call.gather.given_floats = [2.5f32, 1.25].map(f32::to_bits).to_vec();
        call.gather.given_words = vec![0];
        self.add_gather(call)
    }

    fn fields_of_a_second_half(&mut self, number: usize) {
        for end in ENDS {
            for place in 0..PARTICLE_FLOATS {
                self.ask_second(number, &[float('f', place, end)]);
                if [VELOCITY, GRADIENT, DEFORMATION].contains(&place) {
                    self.ask_second(number, &[float('f', place, end), flag(STATIC)]);
                    self.ask_second(number, &[float('f', place, end), flag(FLUID)]);
                }
            }
            self.ask_second(number, &[float('g', 0, end)]);
            self.ask_second(number, &[float('g', 1, end)]);
        }
    }

    fn flags_of_a_second_half(&mut self, number: usize) {
        for flags in 0..16 {
            let words = (0..PARTICLE_WORDS).filter(|place| flags >> place & 1 == 1).map(flag);
            for (density, failure) in [(1.0, 0), (1.0, 1), (0.0, 0), (-0.0, 1)] {
                let edits: Vec<Edit> = words.clone().chain([float('g', 0, density), entry('v', 0, failure)]).collect();
                self.ask_second(number, &edits);
            }
        }
        for phase in SIGNS {
            for failure in [0, 1] {
                self.ask_second(number, &[float('f', PHASE, phase), entry('v', 0, failure)]);
                self.ask_second(number, &[float('f', PHASE, phase), entry('v', 0, failure), flag(FAILED)]);
            }
        }
    }

    /// F00 about the largest, of solids and of fluids; and given densities beside every kind of determinant and of mass, so that the
    /// Rust's own density is zero where the given one is not, and the other way round.
    fn deformations(&mut self, number: usize) {
        for f00 in near(LARGEST_DEFORMATION, 3).into_iter().chain([1e5, f32::MAX]).flat_map(|f00| [f00, -f00]) {
            for kind in [vec![], vec![flag(FLUID)], vec![flag(STATIC)]] {
                self.ask_second(number, &[vec![float('f', DEFORMATION, f00)], kind].concat());
            }
            for place in 1..4 {
                self.ask_second(number, &[float('f', DEFORMATION + place, f00)]);
            }
        }
        for (place, matrix) in DEFORMATIONS.into_iter().enumerate() {
            for density in [0.0, -0.0, 1e-45, -1e-45, f32::MIN_POSITIVE, 1.0, f32::MIN] {
                for mass in [1.5, 0.0] {
                    let kind = [vec![], vec![flag(FLUID)]][place % 2].clone();
                    let f = (0..4).map(|part| float('f', DEFORMATION + part, matrix[part]));
                    let edits = kind.into_iter().chain(f).chain([float('f', MASS, mass), float('g', 0, density)]);
                    self.ask_second(number, &edits.collect::<Vec<_>>());
                }
            }
        }
    }

    fn energies(&mut self, number: usize) {
        let pairs = ENERGIES.iter().flat_map(|psi| ENERGIES.map(|energy| (*psi, energy)));
        let masses = [1.5, -2.0, 0.0, -0.0, f32::MAX, 1e-45];
        for (place, (psi, energy)) in pairs.enumerate().filter(|(_, (psi, energy))| !is_of_two_zeros(*psi, *energy)) {
            let mass = masses[place % masses.len()];
            self.ask_second(number, &[float('f', PSI, psi), float('g', 1, energy), float('f', MASS, mass)]);
        }
    }

    fn sampled_second_halves(&mut self) {
        let numbers = [Numbers::Everyday, Numbers::Mixed, Numbers::Tiny, Numbers::Everyday, Numbers::Huge, Numbers::Any];
        for place in 0..60 {
            let style = Style { numbers: numbers[place % 6], ..Style::plain(1.0, [0, 0], [1, 1], 1 + place % 9) };
            let call = without_regions(gathered(style.sample(&mut self.rng), &mut self.rng));
            let number = self.add_gather(call);
            self.ask_second(number, &[]);
        }
    }

    fn second_halves_at_the_limits(&mut self, number: usize) {
        for count in [2, 3, 1000, 65535, 65536] {
            self.ask_second(number, &[Edit::Copies(count)]);
            self.ask_second(number, &[Edit::Copies(count), float('g', 2 * (count - 1), 0.0)]);
        }
        let number = self.add_gather(Call::on(vec![]));
        self.ask_second(number, &[]);
        self.ask_second(number, &[Edit::Setting('h', 0), Edit::Setting('t', 0), Edit::Setting('e', 2), Edit::Count('r', 7)]);
    }
}

/// Two zeros, unless both are +0.
fn is_of_two_zeros(psi: f32, energy: f32) -> bool {
    psi == 0.0 && energy == 0.0 && psi.to_bits() | energy.to_bits() != 0
}

// Whole substeps.

impl Book {
    /// Everyday particles, few and some, that go from region to region; and numbers that overflow in some stage.
    fn substeps_in_a_row(&mut self) {
        let windows = [[3, 2], [1, 1], [5, 1]];
        for place in 0..36 {
            let cell_width = [1.0, 0.5, 2.0, 0.3, 3.0][place % 5];
            let corner = [10 + place as u32 % 5, 9];
            let style = Style::plain(cell_width, corner, windows[place % 3], 1 + place % 4);
            let dt = [0.1, 0.01, 1.0 / 60.0, 0.5][place % 4];
            let call = style.sample(&mut self.rng);
            let number = self.add_substeps(call, dt);
            self.ask_substeps(number, false, 3 + place % 4);
        }
        for place in 0..24 {
            let numbers = [Numbers::Huge, Numbers::Mixed, Numbers::Tiny, Numbers::Any][place % 4];
            let style = Style { numbers, ..Style::plain(WIDTHS[place % 10], [5, 5], [1, 1], 1 + place % 3) };
            let call = style.sample(&mut self.rng);
            let number = self.add_substeps(call, [0.1, 1.0, 1e-30, 1e30][place / 4 % 4]);
            self.ask_substeps(number, false, 3);
        }
        self.second_halves_that_overflow();
        let number = self.add_gather(Call::on(vec![]));
        self.ask_substeps(number, false, 2);
    }

    /// A particle so heavy that psi times its mass is infinite: that is stored, and refused by the next substep.
    fn second_halves_that_overflow(&mut self) {
        for place in 0..4 {
            let mut call = Style::plain(1.0, [5, 5], [1, 1], 2).sample(&mut self.rng);
            call.particle_floats[PARTICLE_FLOATS..][VELOCITY..VOLUME].fill(0);
            for (field, float) in [(VELOCITY + 1, 0.25f32), (MASS, 1e38), (PSI, 5.0)] {
                call.particle_floats[PARTICLE_FLOATS + field] = float.to_bits();
            }
            let number = self.add_substeps(call, [0.1, 0.01][place % 2]);
            self.ask_substeps(number, false, 3);
        }
    }

    /// A call whose stages are given nothing yet: each substep has its own.
    fn add_substeps(&mut self, call: Call, dt: f32) -> usize {
        let gather = samples::Gather {
            eigenerosion: 0,
            given_floats: vec![0; 2 * call.particles as usize],
            given_words: vec![0; call.particles as usize],
        };
        self.add_gather(Call { dt, gather, ..call })
    }
}

// Calls that are refused.

impl Book {
    fn refused_gathers(&mut self) {
        for number in self.good_gathers() {
            let of_first = faults::of_first_half(&self.calls[number]);
            let of_second = faults::of_second_half(&self.calls[number]);
            of_first.iter().for_each(|edits| self.ask_first(number, edits));
            of_second.iter().for_each(|edits| self.ask_second(number, edits));
            // Each half is asked with the other's faults too, which are none of its own.
            let all = [of_first, of_second].concat();
            for _ in 0..250 {
                let edits = faults::together(&all, &mut self.rng);
                self.ask_first(number, &edits);
                self.ask_second(number, &edits);
            }
        }
        self.too_many_particles();
        self.last_particles();
    }

    /// A few regions and particles, one of the calls with nodes of any pattern.
    fn good_gathers(&mut self) -> Vec<usize> {
        let near = Style::plain(1.0, [2, 2], [3, 3], 5);
        let strange = Style { old: Old::Patterns, ..Style::plain(0.3, [21, 38], [1, 1], 2) };
        let calls = [near, strange].map(|style| gathered(style.sample(&mut self.rng), &mut self.rng));
        calls.map(|call| self.add_gather(call)).to_vec()
    }

    /// More particles or regions than may be, whatever else is wrong.
    fn too_many_particles(&mut self) {
        let number = self.one_particle();
        let no_width = vec![Edit::Setting('h', 0)];
        for more in [vec![], no_width.clone(), vec![entry('w', 0, 2)], vec![entry('v', 65536, 2), float('g', 0, f32::NAN)]] {
            for count in [65537, 70000] {
                let edits = [vec![Edit::Copies(count)], more.clone()].concat();
                self.ask_first(number, &edits);
                self.ask_second(number, &edits);
            }
        }
        self.ask_first(number, &over_512());
        self.ask_first(number, &[over_512(), no_width].concat());
        self.ask_second(number, &over_512());
    }

    /// The last of as many particles as there may be, and the last of as many regions.
    fn last_particles(&mut self) {
        let number = self.one_particle();
        let last = 65535;
        let at = |place: usize, number: f32| float('f', last * PARTICLE_FLOATS + place, number);
        let edits = [
            entry('w', last * PARTICLE_WORDS + 3, 2),
            at(25, f32::INFINITY),
            at(0, 0.0),
            at(0, 9.0),
            at(1, 1e9),
            entry('v', last, 2),
            float('g', 2 * last, f32::NAN),
            float('g', 2 * last + 1, f32::NEG_INFINITY),
        ];
        for edit in edits {
            self.ask_first(number, &[Edit::Copies(65536), edit.clone()]);
            self.ask_second(number, &[Edit::Copies(65536), edit]);
        }
        let number = self.add_gather(given(scatter::limit(), &mut Rng::new(1)));
        for edit in [
            Edit::Entry('i', 511, 511 << 12 | 64),
            Edit::Entry('i', 511, 0),
            Edit::Entry('s', 1022, 0),
            Edit::Entry('s', 1023, 1),
        ] {
            self.ask_first(number, &[edit]);
        }
    }
}

#[cfg(test)]
mod tests {
    use super::by_hand;
    use super::*;
    use crate::rng::SEED;
    use crate::vectors::format::{self, answered, assert_calls_are_read_again, rows, Question};
    use std::collections::BTreeSet;

    /// The questions to the halves.
    fn questions(sheet: &Sheet) -> Vec<Question> {
        format::questions(sheet, Call::from_gather_fields, "gs")
    }

    /// How many fields an answer's field stands for.
    fn times(field: &str) -> usize {
        field.split_once('*').map_or(1, |(_, count)| count.parse().unwrap())
    }

    #[test]
    fn every_call_is_read_again_and_every_particle_is_answered() {
        let sheet = make();
        assert_calls_are_read_again(&sheet, Call::from_gather_fields, Call::gather_fields);
        for (half, call, answer) in questions(&sheet) {
            let particles = if answer[0] == "0" { call.particles as usize } else { 0 };
            assert_eq!(answer[2..].iter().map(|field| times(field)).sum::<usize>(), particles, "{} {:?}", half, &answer[..2]);
        }
    }

    #[test]
    fn both_halves_answer_every_number_often() {
        let found = answered(&make(), "gs");
        let numbers = |half: &str| found.keys().filter(|(asked, _)| asked == half).map(|(_, number)| *number).collect::<Vec<_>>();
        assert_eq!(numbers("g"), (0..=10).collect::<Vec<_>>());
        assert_eq!(numbers("s"), [0, 1, 2, 4, 5]);
        for ((half, number), (count, indices)) in &found {
            let least_indices = if *number < 4 { 1 } else { 3 };
            assert!(*count >= 3 && indices.len() >= least_indices, "{} {} {} {:?}", half, number, count, indices);
            assert!(![4, 5].contains(number) || indices.contains(&65535), "{} {}", half, number);
        }
    }

    #[test]
    fn no_answer_hangs_on_the_machine() {
        for (half, call, answer) in questions(&make()) {
            let psis = call.particle_floats.iter().skip(PSI).step_by(PARTICLE_FLOATS);
            let energies = call.gather.given_floats.iter().skip(1).step_by(2);
            let zeros = psis.zip(energies).any(|(psi, energy)| is_of_two_zeros(f32::from_bits(*psi), f32::from_bits(*energy)));
            assert!(half == "g" || answer[0] != "0" || !zeros);
        }
    }

    fn told(done: &[&Question], by_hand: fn(&Call, &str) -> Records, wrong: &str) -> usize {
        done.iter().filter(|(_, call, answer)| written(call, &by_hand(call, wrong)) != answer[2..]).count()
    }

    /// The stand-ins mean what document 01 says, and every wrong gather is told from the right one by some questions.
    #[test]
    fn the_rust_is_document_01s_gather_and_no_other() {
        let all = questions(&make());
        let done = |asked: &str| -> Vec<&Question> {
            let few = |call: &Call| call.particles < 1001;
            all.iter().filter(|(half, call, answer)| half == asked && answer[0] == "0" && few(call)).collect()
        };
        let (first, second) = (done("g"), done("s"));
        assert_eq!([told(&first, by_hand::first_half, ""), told(&second, by_hand::second_half, "")], [0, 0]);
        for wrong in by_hand::WRONG_FIRST {
            assert!(told(&first, by_hand::first_half, wrong) > 0, "{}", wrong);
        }
        for wrong in by_hand::WRONG_SECOND {
            assert!(told(&second, by_hand::second_half, wrong) > 0, "{}", wrong);
        }
    }

    #[test]
    fn random_gathers_are_document_01s() {
        let mut rng = Rng::new(SEED);
        for _ in 0..1000 {
            let call = gathered(Style::any(&mut rng).sample(&mut rng), &mut rng);
            assert_eq!([reading::first_half(&call), reading::second_half(&call)], [None, None]);
            assert_eq!(written(&call, &Scene::first_half(&call)), written(&call, &by_hand::first_half(&call, "")));
            assert_eq!(written(&call, &Scene::second_half(&call)), written(&call, &by_hand::second_half(&call, "")));
        }
    }

    /// A host who does nothing, or has another F, is the only thing between the halves: each by itself leaves what one call does.
    #[test]
    fn the_rusts_one_call_is_its_two_halves() {
        let mut rng = Rng::new(SEED);
        let mut whole = 0;
        for seed in 0..400 {
            let call = Style::any(&mut rng).sample(&mut rng);
            substeps::run(&call, false, seed, 2, |substep| {
                let answers = stages(substep);
                if let [Ok((node_floats, node_words)), Ok(left), Ok(last)] = &answers[..] {
                    let nodes = (node_floats.clone(), node_words.clone());
                    let updated = Call { node_floats: nodes.0, node_words: nodes.1, ..substep.call.clone() };
                    assert_eq!(written(&updated, &Scene::first_half(&updated)), written(&updated, left));
                    let handed_over = substep.handed_over(left);
                    assert_eq!(written(&handed_over, &Scene::second_half(&handed_over)), written(&handed_over, last));
                    whole += 1;
                }
                answers
            });
        }
        assert!(whole > 300, "{}", whole);
    }

    /// What the vectors' substeps are like: how often they go on to the last, are refused after an overflow of the first half or of the
    /// second, and have another list of regions.
    #[test]
    fn substeps_go_on_and_some_are_refused() {
        let sheet = make();
        let mut calls = vec![];
        let (mut to_the_last, mut refused, mut refused_at_first, mut regions) = (0, 0, 0, 0);
        for (question, answer) in rows(&sheet) {
            match question[0] {
                "b" => calls.push(Call::from_gather_fields(&question[2..])),
                "w" => {
                    let [number, seed, count] = [1, 2, 3].map(|place| question[place].parse::<usize>().unwrap());
                    let (mut substeps, mut lists, mut last) = (0, BTreeSet::new(), vec![]);
                    let again = substeps::run(&calls[number], false, seed as u64, count, |substep| {
                        substeps += 1;
                        lists.insert(substep.call.ids.clone());
                        last = stages(substep);
                        last.clone()
                    });
                    assert_eq!(again, answer);
                    to_the_last += usize::from(substeps == count && last.iter().all(Result::is_ok));
                    refused += usize::from(matches!(last[..], [Ok(_), Ok(_), Err((5, _))]));
                    refused_at_first += usize::from(matches!(last[..], [Err((5, _))]));
                    regions += lists.len() - 1;
                }
                _ => {}
            }
        }
        let found = [to_the_last, refused, refused_at_first, regions];
        assert!(found.iter().zip([20, 5, 2, 20]).all(|(found, least)| *found >= least), "{:?}", found);
    }

    /// An F that overflowed is finite again in the Rust, and the particle failed; the table refuses it.
    #[test]
    fn the_rust_goes_on_where_the_table_refuses() {
        let mut rng = Rng::new(SEED);
        let mut call = given(Style::plain(1.0, [1, 1], [1, 1], 1).sample(&mut rng), &mut rng);
        call.particle_words.fill(0);
        call.gather.given_floats[0] = 1f32.to_bits();
        call.particle_floats[DEFORMATION..][..4].copy_from_slice(&[100f32, 0.0, 0.0, 1.0].map(f32::to_bits));
        let node = call.hits(None).iter().position(|hit| *hit).expect("a node");
        call.node_floats[node * NODE_FLOATS + 3] = 5e37f32.to_bits();
        call.dt = 1.0;
        let left = call.with_particles(&Scene::first_half(&call));
        assert!(f32::from_bits(left.particle_floats[DEFORMATION]).is_infinite());
        assert_eq!(reading::second_half(&left).map(|refusal| (refusal.number, refusal.index)), Some((5, 0)));
        let (floats, words) = Scene::second_half(&left);
        assert_eq!((&floats[DEFORMATION..][..4], words[FAILED]), (&[1f32, 0.0, 0.0, 1.0].map(f32::to_bits)[..], 1));
    }

    /// x moves by v before a static particle's v is zeroed.
    #[test]
    fn static_particles_move() {
        let mut rng = Rng::new(SEED);
        let mut call = given(Style::plain(1.0, [1, 1], [1, 1], 1).sample(&mut rng), &mut rng);
        call.particle_floats[..2].fill(2f32.to_bits());
        call.particle_words.copy_from_slice(&[0, 0, 0, 1]);
        call.dt = 0.5;
        for node in call.node_floats.chunks_exact_mut(NODE_FLOATS) {
            node[3..5].copy_from_slice(&[1f32, -1.0].map(f32::to_bits));
        }
        let (floats, _) = Scene::first_half(&call);
        assert_eq!(floats[..4], [2.5f32, 1.5, 1.0, -1.0].map(f32::to_bits));
        let (floats, _) = Scene::second_half(&call.with_particles(&Scene::first_half(&call)));
        assert_eq!(floats[..8], [2.5f32, 1.5, 0.0, 0.0, 0.0, 0.0, 0.0, 0.0].map(f32::to_bits));
    }

    #[test]
    fn numbers_have_their_places() {
        for number in [0.0, 1.0, -1.0, 1e-45, -1e-45, f32::MAX, f32::MIN] {
            assert_eq!(at_place(place_in_order(number)), number);
        }
        assert_eq!([at_place(1), at_place(-1)], [1e-45, -1e-45]);
    }
}
