//! Questions to the recomputation of fluids' volumes, and to whole substeps in a row that have it in front. What a call is refused for is
//! `reading`'s answer; the particles and nodes of one that is not are the handed-over Rust's.

#[cfg(test)]
mod by_hand;

use super::book::{answer, entry, Book};
use super::faults::{self, over_512};
use super::floats::strange_pairs;
use super::gather::{flag, float};
use super::scatter::{self, ENDS};
use super::{Sheet, OF_BOTH};
use crate::reading;
use samples::lines::{folded, Edit};
use samples::particle::*;
use samples::random::{Numbers, Old, Style, LAST_CELL, WIDTHS};
use samples::{Call, Records, NODE_FLOATS, PARTICLE_FLOATS, PARTICLE_WORDS};
use sparkl2d::scene::Scene;

const LEGEND: [&str; 23] = [
    "Fields, between tabs: W an f32's bits in 8 hex digits, H a u64 in 16, D a decimal, P a particle (26 floats and 4 words, each in 8",
    "hex digits), N a node (7 floats and a word), or 0 for a node of zeros, E a change.",
    "b a call D W W W W D [H D D].. D P.. N.. = D: the number that it has in the lines below; h, dt, gravity x and y, of which h alone",
    "  is given to f; how many regions, of each the id, start and count; how many particles, and these; 16 nodes for each region. How",
    "  many nodes there are",
    "f the recomputation of fluids' volumes D E.. = D D P.. | N..: the call, with changes. Number and index and, where the number is 0,",
    "  every particle after the call: = for one that is as it was, bit for bit; in the others a NaN is 7FC00000. Behind the bar every",
    "  node: = for one that is as it was, bit for bit, m for one that is so but for its mass, which is +0. *D behind a field, that so",
    "  many in a row are the same. Where the number is not 0, every lent word is as it was.",
    "w whole substeps in a row D D D = D D D D P.. D D D D P.. D D P..: the call, a seed, how many. `host/samples/src/substeps.rs` says",
    "  what the seed makes: of each substep the colliders, what is given, and the F that a host puts between the halves of gather. Of",
    "  each substep, number and index of clear, of the recomputation with its particles, of clear, scatter and update in one, of the",
    "  first half with its particles, and of the second with its. It ends with what is refused, or where a particle is off the grid",
    "Changes, in their order:",
    "  h=W t=W x=W y=W   cell width, dt, gravity",
    "  r=D p=D           the counts of regions and of particles, whatever the lists have",
    "  iD=X sD=X fD=X wD=X mD=X kD=X   an entry of the ids, of the starts and counts, of the floats and of the words of particles and of",
    "                    nodes; X in hex",
    "  iD sD fD wD mD kD with # before the D: the length of these; what is missing is 0",
    "  *D                the particles are the first one, D times, and all of the first region",
    "Numbers are `reading`'s, particles and nodes the Rust's. A flag's word is the port's: 0 is off, all else is on, and none is changed",
    "by a recomputation.",
    "End of the header.",
];

pub fn make() -> Sheet {
    let own =
        ["src/dynamics/solver/fluids_volume.rs", "src/dynamics/solver/grid_to_particle.rs", "src/dynamics/solver/grid_update.rs"];
    let sources = [&own, &scatter::SOURCES[..]].concat();
    let mut book = Book::new(Sheet::titled("Fluids", OF_BOTH, &sources, &LEGEND));
    book.recomputed();
    book.recomputed_in_substeps();
    book.refused_fluids();
    book.sheet
}

impl Book {
    fn ask_fluids(&mut self, number: usize, edits: &[Edit]) {
        self.question("f", number, vec![], edits, |call| {
            answer(reading::fluids(call), || written(call, &Scene::recomputed(call)))
        });
    }
}

fn written(call: &Call, [(floats, words), (node_floats, node_words)]: &[Records; 2]) -> Vec<String> {
    let particles = folded(&call.particles_answered((floats, words)));
    [particles, vec!["|".to_string()], folded(&call.masses_answered((node_floats, node_words)))].concat()
}

// Recomputations that are done.

/// Masses and volumes of every sign and size, to be taken two by two.
const MASSES: [f32; 13] = [1.0, -1.0, 0.0, -0.0, 1e-45, -1e-45, 0.1, f32::MIN_POSITIVE, 1e-30, 1e20, -1e38, f32::MAX, f32::MIN];

impl Book {
    fn recomputed(&mut self) {
        let number = self.one_fluid(Old::Numbers);
        self.fields_of_a_fluid(number);
        self.masses_and_volumes();
        self.masses_of_nodes();
        self.widths();
        self.at_edges();
        self.sampled_fluids();
        self.colours_first();
        self.fluids_at_the_limits(number);
    }

    /// A fluid that has everything, whose stencil lies in one region.
    fn one_fluid(&mut self, old: Old) -> usize {
        let style = Style { old, ..Style::plain(0.3, [1, 1], [1, 1], 1) };
        let mut call = style.sample(&mut self.rng);
        call.particle_words.copy_from_slice(&[0, 0, 1, 0]);
        self.add(call)
    }

    /// Each field by itself, and every set of flags; h is the only setting that is given.
    fn fields_of_a_fluid(&mut self, number: usize) {
        for end in ENDS {
            for place in 2..PARTICLE_FLOATS {
                self.ask_fluids(number, &[float('f', place, end)]);
            }
        }
        for flags in 0..16 {
            let words: Vec<Edit> = (0..PARTICLE_WORDS).map(|place| entry('w', place, flags >> place & 1)).collect();
            self.ask_fluids(number, &words);
        }
        for bits in [0, 0x8000_0000, 0x7FC0_0000, 0xFF80_0000, 1] {
            let settings = ['t', 'x', 'y'].map(|letter| Edit::Setting(letter, bits));
            settings.iter().for_each(|setting| self.ask_fluids(number, &[setting.clone()]));
            self.ask_fluids(number, &settings);
        }
    }

    /// Over nodes that hold nothing, zeros of either sign, and numbers; of a fluid and of a solid, whose mass counts too.
    fn masses_and_volumes(&mut self) {
        for old in [Old::Empty, Old::Zeros, Old::Numbers] {
            let number = self.one_fluid(old);
            for (place, mass) in MASSES.into_iter().enumerate() {
                for volume in MASSES {
                    let edits = [float('f', MASS, mass), float('f', VOLUME, volume)];
                    self.ask_fluids(number, &edits);
                    if old == Old::Numbers && place % 3 == 0 {
                        self.ask_fluids(number, &[&edits[..], &[entry('w', FLUID, 0)]].concat());
                    }
                }
            }
        }
        // Half way between cells no weight is lost in rounding, and of a mass that is next to nothing a fourth is none.
        let half_way = Call::of_one(&[(POSITION, 1.5), (POSITION + 1, 1.5), (VOLUME, 2.0)], &[FLUID]);
        let number = self.add(half_way);
        for (mass, old) in MASSES.into_iter().flat_map(|mass| [0.0, -0.0, 1e-45, -1e-45].map(|old| (mass, old))) {
            let nodes = (0..16).map(|node| float('m', node * NODE_FLOATS, old));
            self.ask_fluids(number, &nodes.chain([float('f', MASS, mass)]).collect::<Vec<_>>());
        }
    }

    /// Infinities, NaNs and zeros in one node of the stencil, in all of them, and beside it.
    fn masses_of_nodes(&mut self) {
        let number = self.one_fluid(Old::Patterns);
        let hits = self.calls[number].hits(None);
        let places = |hit: bool| (0..hits.len()).filter(move |node| hits[*node] == hit).map(|node| node * NODE_FLOATS);
        let (nodes, others): (Vec<usize>, Vec<usize>) = (places.clone()(true).collect(), places(false).collect());
        let ordinary: Vec<Edit> = nodes.iter().map(|node| float('m', *node, 1.5)).collect();
        for (place, [x, y]) in strange_pairs().enumerate() {
            let one = [entry('m', nodes[place % 9], x), entry('m', nodes[(place / 9 + 1) % 9], y)];
            self.ask_fluids(number, &[&ordinary[..], &one].concat());
            let beside = [entry('m', others[place % others.len()], x), entry('m', others[place % others.len()] + 3, y)];
            self.ask_fluids(number, &[&ordinary[..], &beside].concat());
        }
        for bits in ENDS.map(f32::to_bits).into_iter().chain([0x7F80_0000, 0xFF80_0000, 0x7FC0_0000, 0xFFC1_2345]) {
            let all: Vec<Edit> = nodes.iter().map(|node| entry('m', *node, bits)).collect();
            self.ask_fluids(number, &all);
            self.ask_fluids(number, &[&all[..], &[float('f', MASS, 0.0)]].concat());
        }
        for word in [0, 1, 2, 7, u32::MAX] {
            self.ask_fluids(number, &[entry('k', nodes[0] / NODE_FLOATS, word), entry('k', others[0] / NODE_FLOATS, word)]);
        }
    }

    /// Every width, its ends among them; the particle goes with it.
    fn widths(&mut self) {
        for width in WIDTHS {
            for old in [Old::Empty, Old::Numbers] {
                let style = Style { old, ..Style::plain(width, [2, 2], [3, 3], 4) };
                self.ask_sampled(style);
            }
        }
    }

    fn ask_sampled(&mut self, style: Style) {
        let call = style.sample(&mut self.rng);
        let number = self.add(call);
        self.ask_fluids(number, &[]);
    }

    /// Stencils from each cell of a region, which reach one, two or four; and both ends of the axes.
    fn at_edges(&mut self) {
        for cell in 0..16 {
            self.ask_sampled(Style { old: Old::Numbers, ..Style::plain(0.1, [4 + cell % 4, 8 + cell / 4], [1, 1], 2) });
        }
        for (place, width) in WIDTHS.into_iter().enumerate() {
            let end = LAST_CELL - place as u32 % 5;
            let corner = [[end, 0], [20000 + 3 * place as u32, end], [end, end]][place % 3];
            self.ask_sampled(Style { old: Old::Numbers, ..Style::plain(width, corner, [2, 2], 2) });
        }
    }

    /// Few regions, fluids and solids, with numbers and nodes of every kind.
    fn sampled_fluids(&mut self) {
        for numbers in [Numbers::Everyday, Numbers::Mixed, Numbers::Huge, Numbers::Tiny, Numbers::Any] {
            for old in [Old::Empty, Old::Zeros, Old::Numbers, Old::Patterns] {
                for place in 0..6 {
                    let style = Style::plain(WIDTHS[place % 10], [place as u32, 2], [3, 2], 1 + 2 * place);
                    self.ask_sampled(Style { numbers, old, other_regions: 1, ..style });
                }
            }
        }
        for _ in 0..40 {
            let style = Style { particles: 3, other_regions: 0, window: [3, 2], ..Style::any(&mut self.rng) };
            self.ask_sampled(style);
        }
    }

    /// Many particles about the corners of regions, so that a node has mass from all four colours, and its sum hangs on their order.
    fn colours_first(&mut self) {
        for place in 0..24 {
            let corner = [2 + 4 * (place % 3), 2 + 4 * (place % 2)];
            let old = [Old::Empty, Old::Numbers][place as usize % 2];
            self.ask_sampled(Style { old, ..Style::plain([1.0, 0.3, 0.25][place as usize % 3], corner, [4, 4], 12) });
        }
        for side in [9, 14] {
            self.ask_sampled(Style { other_regions: 2, ..Style::plain(0.5, [side, 7], [side, side], 30) });
        }
    }

    fn fluids_at_the_limits(&mut self, number: usize) {
        for count in [2, 3, 5, 1000, 65535, 65536] {
            self.ask_fluids(number, &[Edit::Copies(count)]);
            self.ask_fluids(number, &[Edit::Copies(count), entry('w', FLUID, 0), float('f', MASS, 3.5)]);
        }
        let largest = self.add(scatter::limit());
        self.ask_fluids(largest, &[flag(FLUID)]);
        self.ask_fluids(largest, &[float('m', 511 * samples::REGION_FLOATS, 2.5), flag(FLUID)]);
        for ids in [vec![], vec![0], vec![0, 4096, 1 << 63]] {
            let mut call = Call::on(ids);
            call.node_floats.iter_mut().enumerate().for_each(|(place, bits)| *bits = 0x7F7F_FFF0 + place as u32);
            call.node_words.fill(7);
            let number = self.add(call);
            self.ask_fluids(number, &[]);
            self.ask_fluids(number, &[Edit::Setting('t', 0x7FC0_0000)]);
        }
    }
}

// Whole substeps.

impl Book {
    /// Everyday particles that go from region to region; and numbers by which a volume or a later stage overflows.
    fn recomputed_in_substeps(&mut self) {
        for place in 0..36 {
            let cell_width = [1.0, 0.5, 2.0, 0.3, 3.0][place % 5];
            let style = Style::plain(cell_width, [10 + place as u32 % 5, 9], [[3, 2], [1, 1], [5, 1]][place % 3], 1 + place % 4);
            let call = style.sample(&mut self.rng);
            let number = self.add(Call { dt: [0.1, 0.01, 1.0 / 60.0, 0.5][place % 4], ..call });
            self.ask_substeps(number, true, 2 + place % 4);
        }
        for place in 0..16 {
            let numbers = [Numbers::Huge, Numbers::Mixed, Numbers::Tiny, Numbers::Any][place % 4];
            let style = Style { numbers, ..Style::plain(WIDTHS[place % 10], [5, 5], [1, 1], 1 + place % 3) };
            let call = style.sample(&mut self.rng);
            let number = self.add(Call { dt: [0.1, 1.0, 1e-30, 1e30][place / 4 % 4], ..call });
            self.ask_substeps(number, true, 3);
        }
        // A volume of 0, and a mass of 0: what is stored then is refused by the stage behind it.
        for (place, (field, float)) in [(VOLUME, 0.0f32), (MASS, 0.0), (VOLUME, 1e-45), (MASS, -0.0)].into_iter().enumerate() {
            let mut call = Style::plain(1.0, [5, 5], [1, 1], 2 - place % 2).sample(&mut self.rng);
            call.particle_floats[field] = float.to_bits();
            call.particle_words[FLUID] = 1;
            let number = self.add(Call { dt: 0.1, ..call });
            self.ask_substeps(number, true, 2);
        }
    }
}

// Calls that are refused.

impl Book {
    fn refused_fluids(&mut self) {
        let near = Style::plain(1.0, [2, 2], [3, 3], 5);
        let strange = Style { old: Old::Patterns, ..Style::plain(0.3, [21, 38], [1, 1], 2) };
        for style in [near, strange] {
            let call = style.sample(&mut self.rng);
            let faults = faults::of_fluids(&call);
            let number = self.add(call);
            faults.iter().for_each(|edits| self.ask_fluids(number, edits));
            for _ in 0..400 {
                let edits = faults::together(&faults, &mut self.rng);
                self.ask_fluids(number, &edits);
            }
        }
        self.too_many_fluids();
        self.last_fluids();
    }

    /// More particles or regions than may be, whatever else is wrong.
    fn too_many_fluids(&mut self) {
        let number = self.one_fluid(Old::Numbers);
        for more in [vec![], vec![Edit::Setting('h', 0)], vec![entry('w', 0, 2)], over_512()] {
            for count in [65537, 70000] {
                self.ask_fluids(number, &[vec![Edit::Copies(count)], more.clone()].concat());
            }
        }
        self.ask_fluids(number, &over_512());
        self.ask_fluids(number, &[over_512(), vec![Edit::Setting('h', 0)]].concat());
    }

    /// The last of as many particles as there may be, and the last of as many regions.
    fn last_fluids(&mut self) {
        let number = self.one_fluid(Old::Numbers);
        let last = 65535;
        let at = |place: usize, number: f32| float('f', last * PARTICLE_FLOATS + place, number);
        for edit in [entry('w', last * PARTICLE_WORDS + 3, 2), at(25, f32::INFINITY), at(0, 0.0), at(0, 9.0), at(1, 1e9)] {
            self.ask_fluids(number, &[Edit::Copies(65536), edit]);
        }
        let number = self.add(scatter::limit());
        for (letter, place, wrong) in [('i', 511, 511 << 12 | 64), ('i', 511, 0), ('s', 1022, 0), ('s', 1023, 1)] {
            self.ask_fluids(number, &[Edit::Entry(letter, place, wrong)]);
        }
    }
}

#[cfg(test)]
mod tests {
    use super::*;
    use crate::rng::{Rng, SEED};
    use crate::vectors::format::{self, answered, assert_calls_are_read_again, rows, Question};
    use crate::vectors::gather::stages;
    use samples::lines::unfolded;
    use samples::plane;
    use samples::random::given;
    use samples::substeps::{self, Substep};
    use sparkl2d::lengths::stepped;

    fn questions(sheet: &Sheet) -> Vec<Question> {
        format::questions(sheet, Call::from_fields, "f")
    }

    #[test]
    fn every_call_is_read_again_and_every_record_is_answered() {
        let sheet = make();
        assert_calls_are_read_again(&sheet, Call::from_fields, Call::fields);
        for (_, call, answer) in questions(&sheet) {
            let fields: Vec<&str> = answer[2..].iter().map(String::as_str).collect();
            let records = if answer[0] == "0" { call.particles as usize + 1 + call.node_words.len() } else { 0 };
            assert_eq!(unfolded(&fields).count(), records);
            assert!(records == 0 || unfolded(&fields).nth(call.particles as usize) == Some("|"));
        }
    }

    #[test]
    fn every_number_is_answered_often() {
        let found = answered(&make(), "f");
        assert!(found.keys().map(|(_, number)| *number).eq(0..=10));
        for ((_, number), (count, indices)) in &found {
            let least_indices = if *number < 4 { 1 } else { 3 };
            assert!(*count >= 10 && indices.len() >= least_indices, "{} {} {:?}", number, count, indices);
            assert!(![4, 5, 8, 9].contains(number) || indices.contains(&65535), "{}", number);
        }
        assert!(found[&("f".to_string(), 0)].0 > 1000);
    }

    /// The stand-ins mean what document 01 says, and every wrong recomputation is told from the right one by some questions.
    #[test]
    fn the_rust_is_document_01s_recomputation_and_no_other() {
        let all = questions(&make());
        let done: Vec<&Question> =
            all.iter().filter(|(_, call, answer)| answer[0] == "0" && call.particles < 1001 && call.regions < 100).collect();
        let told = |wrong: &str| {
            done.iter().filter(|(_, call, answer)| written(call, &by_hand::recomputed(call, wrong)) != answer[2..]).count()
        };
        assert_eq!(told(""), 0);
        for wrong in by_hand::WRONG {
            assert!(told(wrong) > 0, "{}", wrong);
        }
    }

    #[test]
    fn random_recomputations_are_document_01s() {
        let mut rng = Rng::new(SEED);
        for _ in 0..4000 {
            let call = Style::any(&mut rng).sample(&mut rng);
            assert_eq!(reading::fluids(&call), None);
            assert_eq!(written(&call, &Scene::recomputed(&call)), written(&call, &by_hand::recomputed(&call, "")));
        }
    }

    /// How often substeps go on to the last, and are refused after a volume that is no number.
    #[test]
    fn substeps_go_on_and_some_are_refused() {
        let sheet = make();
        let calls: Vec<Call> = rows(&sheet)
            .filter(|(question, _)| question[0] == "b")
            .map(|(question, _)| Call::from_fields(&question[2..]))
            .collect();
        let (mut to_the_last, mut refused) = (0, 0);
        for (question, answer) in rows(&sheet).filter(|(question, _)| question[0] == "w") {
            let [number, seed, count] = [1, 2, 3].map(|place| question[place].parse::<usize>().unwrap());
            let (mut done, mut last) = (0, vec![]);
            let again = substeps::run(&calls[number], true, seed as u64, count, |substep| {
                last = stages(substep);
                done += usize::from(last.iter().all(Result::is_ok));
                last.clone()
            });
            assert_eq!(again, answer);
            to_the_last += usize::from(done == count);
            refused += usize::from(matches!(last[..], [Ok(_), Ok(_), Err((5, _))]));
        }
        assert!(to_the_last >= 15 && refused >= 3, "{} {}", to_the_last, refused);
    }

    /// What the Rust's own step does in a substep is what its stages do one after the other, a recomputation in front or not. It sorts
    /// particles by cells, so that they are here in that order, and finds their regions by itself.
    #[test]
    fn the_rusts_step_is_its_stages_in_turn() {
        let mut rng = Rng::new(SEED);
        let mut moved = 0;
        for recomputes in (0..600).map(|place| place % 2 == 1) {
            let call = given(by_cells(&Style::any(&mut rng).sample(&mut rng)), &mut rng);
            let substep = Substep { rewritten: vec![None; call.particles as usize], call, recomputes };
            let last = Scene::substep(&substep).pop().expect("what the last stage leaves");
            let particles = |(floats, words): &Records| substep.call.particles_answered((floats, words));
            assert_eq!(particles(&stepped(&substep)), particles(&last));
            moved += particles(&last).iter().filter(|particle| *particle != "=").count();
        }
        assert!(moved > 3000, "{}", moved);
    }

    /// The call with its particles by their first cells' ids, and so by regions too.
    fn by_cells(call: &Call) -> Call {
        let id = |particle: usize| {
            let first = plane::first_cell(call.position(particle), call.cell_width).expect("an accepted particle");
            (plane::region(first), plane::number_in_region(first))
        };
        let mut places: Vec<usize> = (0..call.particles as usize).collect();
        places.sort_by_key(|particle| id(*particle));
        let floats = places.iter().flat_map(|place| &call.particle_floats[place * PARTICLE_FLOATS..][..PARTICLE_FLOATS]);
        let words = places.iter().flat_map(|place| &call.particle_words[place * PARTICLE_WORDS..][..PARTICLE_WORDS]);
        call.with_particles(&(floats.copied().collect(), words.copied().collect()))
    }

    /// The Rust stores what a mass of 0 gives and goes on with it; in the port the next stage answers 5.
    #[test]
    fn a_mass_of_0_gives_a_nan_that_is_stored() {
        let call = Call::of_one(&[(POSITION, 1.0), (POSITION + 1, 1.0), (VOLUME, 1.0)], &[FLUID]);
        let [(floats, words), _] = Scene::recomputed(&call);
        assert!(f32::from_bits(floats[DEFORMATION]).is_nan());
        let left = call.with_particles(&(floats, words));
        assert_eq!(reading::fluids(&left).map(|refusal| (refusal.number, refusal.index)), Some((5, 0)));
        let [(floats, _), _] = Scene::recomputed(&left);
        assert!(f32::from_bits(floats[DEFORMATION]).is_nan());
    }

    /// At x = 0 the Rust's first cell is the last one of the axis, and its volume comes from the nodes there.
    #[test]
    fn the_rust_goes_on_where_the_table_refuses() {
        let call = Call::of_one(&[(POSITION + 1, 1.0), (MASS, 64.0), (VOLUME, 1.0)], &[FLUID]);
        assert_eq!(reading::fluids(&call).map(|refusal| (refusal.number, refusal.index)), Some((8, 0)));
        let [(floats, _), _] = Scene::recomputed(&call);
        assert_eq!(f32::from_bits(floats[DEFORMATION]), 1.0 / (0.59375 * 0.59375));
        let call = Call { cell_width: 0.0, ..Call::on(vec![0]) };
        assert_eq!(reading::fluids(&call).map(|refusal| refusal.number), Some(3));
        Scene::recomputed(&call);
    }
}
