//! Questions to the three calls of scatter. What a call is refused for is `reading`'s answer; the nodes of one that is not are the
//! handed-over Rust's. It has no call for one region: that is its scatter with the particles of no other region. Nor has it one
//! in an order of regions: that has to leave what its scatter leaves.

use super::book::{answer, Book};
use super::faults::{self, over_512};
use super::{decimal, Sheet, OF_BOTH};
use crate::reading::{self, Which};
use crate::rng::Rng;
use samples::lines::Edit;
use samples::particle::{CRACK_FACTOR, FAILED, MASS, PHASE, PSI, VOLUME};
use samples::random::{Numbers, Old, Style, LAST_CELL, WIDTHS};
use samples::{Call, PARTICLE_FLOATS, PARTICLE_WORDS};
use sparkl2d::scene::Scene;
use sparkl2d::MmapMut;

/// The handed-over files that the nodes come from.
pub const SOURCES: [&str; 6] = [
    "src/dynamics/solver/particle_to_grid.rs",
    "src/dynamics/particle.rs",
    "src/dynamics/grid_node.rs",
    "src/geometry/sp_grid.rs",
    "src_core/dynamics/solver/kernel.rs",
    "src/utils/physics.rs",
];

const LEGEND: [&str; 17] = [
    "Fields, between tabs: W an f32's bits in 8 hex digits, H a u64 in 16, D a decimal, P a particle (26 floats and 4 words, each in 8",
    "hex digits), N a node (7 floats and a word), or 0 for a node of zeros, E a change.",
    "b a call D W W W W D [H D D].. D P.. N.. = D: the number that it has in the lines below; h, dt, gravity x and y; how many regions,",
    "  of each the id, start and count; how many particles, and these; 16 nodes for each region. How many nodes there are",
    "f the scatter D E.. = D D N..: the call, with changes",
    "o the scatter of one region D D E.. = D D N..: the call, the region's place, changes",
    "q the scatter in an order D D D.. E.. = D D N..: the call, how many places there are and these, changes",
    "  Of all three: number and index and, where the number is 0, every node after the call: = for one that no particle reaches, which",
    "  keeps every bit; in the others a NaN is 7FC00000. Where the number is not 0, every lent word is as it was.",
    "Changes, in their order:",
    "  h=W t=W x=W y=W   cell width, dt, gravity",
    "  r=D p=D           the counts of regions and of particles, whatever the lists have",
    "  iD=X sD=X fD=X wD=X   an entry of the ids, of the starts and counts, of the particles' floats, of their words; X in hex",
    "  iD sD fD wD mD kD with # before the D: the length of these, of the nodes' floats and of their words; what is missing is 0",
    "  *D                the particles are the first one, D times, and all of the first region",
    "Numbers are `reading`'s, nodes the Rust's.",
    "End of the header.",
];

pub fn make() -> Sheet {
    let mut book = Book::new(Sheet::titled("Scatter", OF_BOTH, &SOURCES, &LEGEND));
    book.accepted();
    book.refused();
    book.sheet
}

impl Book {
    pub fn add(&mut self, call: Call) -> usize {
        let fields = call.fields();
        self.enter(call, fields)
    }

    fn ask(&mut self, number: usize, which: &Which, edits: &[Edit]) {
        let (operation, more) = match which {
            Which::All => ("f", vec![]),
            Which::Region(place) => ("o", vec![decimal(*place)]),
            Which::Order(order) => ("q", [order.len() as u64].iter().chain(*order).map(|place| decimal(*place)).collect()),
        };
        self.question(operation, number, more, edits, |call| answer(reading::scatter(which, call), || nodes(which, call)));
    }

    /// The call by all three: a region that has particles, and an order that is not the list's.
    fn ask_all(&mut self, number: usize, edits: &[Edit]) {
        self.ask(number, &Which::All, edits);
        if let Some(place) = self.busy_region(number) {
            self.ask(number, &Which::Region(place), edits);
        }
        let order = self.order(number);
        self.ask(number, &Which::Order(&order), edits);
    }

    fn busy_region(&mut self, number: usize) -> Option<u64> {
        let ranges = self.calls[number].ranges.chunks(2).zip(0..);
        let busy: Vec<u64> = ranges.filter(|(range, _)| range[1] > 0).map(|(_, place)| place).collect();
        (!busy.is_empty()).then(|| self.rng.one_of(&busy))
    }

    /// The regions colour by colour, shuffled within each.
    fn order(&mut self, number: usize) -> Vec<u64> {
        samples::random::order(&self.calls[number], &mut self.rng)
    }
}

/// The nodes that the Rust leaves.
fn nodes(which: &Which, call: &Call) -> Vec<String> {
    let mut scene = Scene::new(call, MmapMut::sparse());
    if let Which::Region(place) = which {
        scene.only(*place as usize);
    }
    scene.scatter();
    let (floats, words) = scene.nodes();
    call.answered((&floats, &words), &scene.hits())
}

// Calls that are done.

/// Document 01's listing: one particle of mass 64 at (1, 1) with the velocity (1, 0).
pub fn listing() -> Call {
    Call::of_one(&[(0, 1.0), (1, 1.0), (2, 1.0), (MASS, 64.0), (VOLUME, 1.0)], &[])
}

/// What is asked of each field by itself: zeros, the least and the largest.
pub const ENDS: [f32; 8] = [0.0, -0.0, 1e-45, -1e-45, f32::MIN_POSITIVE, 1e-20, f32::MAX, f32::MIN];

/// Phases and crack factors about the point where the rule changes.
pub const SIGNS: [f32; 6] = [1.0, 0.0, -0.0, -1.0, 1e-45, -1e-45];

impl Book {
    fn accepted(&mut self) {
        let listing = self.add(listing());
        self.ask_all(listing, &[]);
        self.one_field_at_a_time();
        self.phases_and_cracks();
        for style in styles(&mut self.rng) {
            let call = style.sample(&mut self.rng);
            let number = self.add(call);
            self.ask(number, &Which::All, &[]);
            let place = self.busy_region(number).expect("a particle");
            self.ask(number, &Which::Region(place), &[]);
        }
        self.in_orders();
        self.at_the_limits();
        self.empty();
    }

    /// A particle that has everything, in a cell whose stencil reaches four regions.
    fn full_particle(&mut self) -> usize {
        let mut call = Style::plain(0.5, [3, 2], [1, 1], 1).sample(&mut self.rng);
        for (place, float) in [(PHASE, 0.5f32), (CRACK_FACTOR, 2.0), (PSI, 0.75)] {
            call.particle_floats[place] = float.to_bits();
        }
        call.particle_words[FAILED] = 0;
        self.add(call)
    }

    fn one_field_at_a_time(&mut self) {
        let number = self.full_particle();
        for end in ENDS.map(f32::to_bits) {
            for place in 2..PARTICLE_FLOATS {
                self.ask(number, &Which::All, &[Edit::Entry('f', place, u64::from(end))]);
            }
            for letter in ['x', 'y'] {
                self.ask(number, &Which::All, &[Edit::Setting(letter, end)]);
            }
        }
        for dt in [1e-45, 1e-20, 0.5, 3.0, 1e20, f32::MAX].map(f32::to_bits) {
            self.ask(number, &Which::All, &[Edit::Setting('t', dt)]);
        }
        for word in 0..PARTICLE_WORDS {
            self.ask(number, &Which::All, &[Edit::Entry('w', word, 1)]);
        }
    }

    fn phases_and_cracks(&mut self) {
        let number = self.full_particle();
        for (phase, crack) in SIGNS.iter().flat_map(|phase| SIGNS.map(|crack| (*phase, crack))) {
            for failed in [0, 1] {
                let float = |place: usize, float: f32| Edit::Entry('f', place, u64::from(float.to_bits()));
                self.ask(
                    number,
                    &Which::All,
                    &[float(PHASE, phase), float(CRACK_FACTOR, crack), Edit::Entry('w', FAILED, failed)],
                );
            }
        }
    }

    fn in_orders(&mut self) {
        for place in 0..24 {
            let side = [3, 5, 9, 14][place % 4];
            let style = Style { other_regions: 2, ..Style::plain(WIDTHS[place % 12], [place as u32, 7], [side, side], 10) };
            let call = style.sample(&mut self.rng);
            let number = self.add(call);
            self.ask_all(number, &[]);
        }
    }

    fn at_the_limits(&mut self) {
        let number = self.add(limit());
        self.ask_all(number, &[]);
        self.ask(number, &Which::Region(511), &[]);
        let copied = self.full_particle();
        for count in [2, 3, 1000, 65535, 65536] {
            self.ask_all(copied, &[Edit::Copies(count)]);
        }
    }

    fn empty(&mut self) {
        for call in [Call::on(vec![]), Call::on(first_regions(1)), Call::on(first_regions(3))] {
            let regions = call.regions;
            let number = self.add(call);
            self.ask_all(number, &[]);
            (0..=regions).for_each(|place| self.ask(number, &Which::Region(place), &[]));
        }
    }
}

/// The listing's particle in the first of as many regions as there may be.
pub fn limit() -> Call {
    let Call { particles, particle_floats, particle_words, .. } = listing();
    let ranges = [vec![0, 1], [1, 0].repeat(511)].concat();
    Call { ranges, particles, particle_floats, particle_words, ..Call::on(first_regions(512)) }
}

fn first_regions(count: u64) -> Vec<u64> {
    (0..count).map(|place| place << 12).collect()
}

/// Dense and thin samples, few regions and many, the ends of axes, and numbers and nodes of every kind.
fn styles(rng: &mut Rng) -> Vec<Style> {
    let mut found = vec![];
    for width in WIDTHS {
        found.push(Style::plain(width, [0, 1], [5, 5], 7));
        found.push(Style { old: Old::Numbers, ..Style::plain(width, [2, 3], [2, 2], 4) });
    }
    for cell in 0..16 {
        found.push(Style::plain(0.1, [4 + cell % 4, 8 + cell / 4], [1, 1], 2));
    }
    found.extend([12, 40, 80].map(|count| Style::plain(0.25, [6, 6], [1, 1], count)));
    found.extend([(20, 20), (40, 30), (60, 60)].map(|(side, count)| Style::plain(1.0, [side, 0], [side, side], count)));
    for (place, width) in WIDTHS.into_iter().enumerate() {
        let end = LAST_CELL - place as u32 % 5;
        found.push(Style::plain(width, [end, [0, end, 40000][place % 3]], [5, 2], 3));
        found.push(Style::plain(width, [20000 + 3 * place as u32, end], [2, 5], 3));
    }
    for numbers in [Numbers::Everyday, Numbers::Mixed, Numbers::Huge, Numbers::Tiny, Numbers::Any] {
        for old in [Old::Empty, Old::Zeros, Old::Numbers, Old::Patterns] {
            let places = (0..6).map(|place| Style::plain(WIDTHS[place % 12], [place as u32, 2], [3, 2], 1 + 2 * place));
            found.extend(places.map(|style| Style { numbers, old, other_regions: 1, ..style }));
        }
    }
    found.extend((0..40).map(|_| Style { particles: 3, other_regions: 0, window: [3, 2], ..Style::any(rng) }));
    found
}

// Calls that are refused.

impl Book {
    fn refused(&mut self) {
        for number in self.good_calls() {
            let faults = faults::of_scatter(&self.calls[number]);
            for edits in &faults {
                self.ask_all(number, edits);
            }
            self.bad_places(number);
            for _ in 0..150 {
                let edits = faults::together(&faults, &mut self.rng);
                self.ask_all(number, &edits);
            }
        }
        self.too_many();
        self.last_records();
    }

    /// A few regions and particles, one of the calls with nodes of any pattern.
    fn good_calls(&mut self) -> Vec<usize> {
        let near = Style::plain(1.0, [2, 2], [5, 5], 8);
        let strange = Style { old: Old::Patterns, ..Style::plain(0.3, [21, 38], [3, 6], 5) };
        let styles = [near, strange, Style::plain(1048576.0, [3, 3], [1, 1], 2)];
        styles
            .into_iter()
            .map(|style| style.sample(&mut self.rng))
            .collect::<Vec<_>>()
            .into_iter()
            .map(|call| self.add(call))
            .collect()
    }

    /// Places and orders that are no good, alone, and with something wrong before or after them.
    fn bad_places(&mut self, number: usize) {
        let (regions, order) = (self.calls[number].regions, self.order(number));
        let beside = [vec![], vec![Edit::Setting('t', 0)], vec![Edit::Entry('w', 1, 2)], vec![Edit::Entry('i', 0, 1)]];
        let places = [regions - 1, regions, regions + 1, 1 << 32, 1 << 63, u64::MAX];
        for edits in &beside {
            places.iter().for_each(|place| self.ask(number, &Which::Region(*place), edits));
        }
        for (place, bad) in bad_orders(&order, regions).iter().enumerate() {
            self.ask(number, &Which::Order(bad), &beside[place % beside.len()]);
            self.ask(number, &Which::Order(bad), &[]);
        }
        // Colours are those of the ids that are given, also where these are refused later.
        for place in 0..regions as usize {
            let other_colour = self.calls[number].ids[place] ^ 0x3000;
            self.ask(number, &Which::Order(&order), &[Edit::Entry('i', place, other_colour)]);
        }
    }

    /// More regions or particles than may be, whatever else is wrong.
    fn too_many(&mut self) {
        let number = self.full_particle();
        let no_width = vec![Edit::Setting('h', 0)];
        let mut faults =
            vec![(1, over_512()), (65536, over_512()), (65537, over_512()), (65537, vec![]), (70000, no_width.clone())];
        faults.push((3, [over_512(), no_width].concat()));
        for (copies, more) in faults {
            let edits = [vec![Edit::Copies(copies)], more].concat();
            self.ask_all(number, &edits);
            self.ask(number, &Which::Order(&(0..513).collect::<Vec<_>>()), &edits);
        }
    }

    /// The last of as many regions and particles as there may be.
    fn last_records(&mut self) {
        let number = self.add(limit());
        let mut entries = vec![('i', 511, 511 << 12 | 64), ('i', 511, 0), ('s', 1022, 0), ('s', 1023, 1)];
        entries.push(('s', 1, 0));
        for (letter, place, entry) in entries {
            self.ask_all(number, &[Edit::Entry(letter, place, entry)]);
        }
        for last in [511, 512] {
            let mut order = self.order(number);
            order[511] = last;
            self.ask(number, &Which::Order(&order), &[]);
        }
        let number = self.full_particle();
        let at = |place: usize, float: f32| Edit::Entry('f', 65535 * PARTICLE_FLOATS + place, u64::from(float.to_bits()));
        let flag = Edit::Entry('w', 65536 * PARTICLE_WORDS - 1, 2);
        for edit in [flag, at(25, f32::INFINITY), at(0, 0.0), at(0, 9.0), at(1, 1e9)] {
            self.ask_all(number, &[Edit::Copies(65536), edit]);
        }
    }
}

/// Orders with an entry out of range, named again or exchanged with the next at each place, and orders of another length.
fn bad_orders(order: &[u64], regions: u64) -> Vec<Vec<u64>> {
    let mut found = vec![];
    for place in 0..order.len() {
        let with = |entry: u64| {
            let mut other = order.to_vec();
            other[place] = entry;
            other
        };
        found.extend([with(regions + place as u64), with(u64::MAX), with(order[(place + 1) % order.len()]), with(order[0])]);
        let mut exchanged = order.to_vec();
        exchanged.swap(place, (place + 1) % order.len());
        found.push(exchanged);
    }
    let mut reversed = order.to_vec();
    reversed.reverse();
    found.extend([reversed, vec![], order[1..].to_vec(), [order, &[0]].concat(), [order, order].concat()]);
    found
}

#[cfg(test)]
mod tests {
    use super::*;
    use crate::rng::SEED;
    use crate::vectors::format::{answered, rows};

    #[test]
    fn every_call_answers_every_number_often() {
        let found = answered(&make(), "foq");
        for operation in ["f", "o", "q"] {
            let numbers = found.keys().filter(|(asked, _)| asked == operation).map(|(_, number)| *number);
            assert!(numbers.eq(0..=10), "{}", operation);
        }
        for ((operation, number), (count, indices)) in &found {
            assert!(*count >= 5, "{} {}", operation, number);
            assert!(*number < 4 || indices.len() >= 5, "{} {} {:?}", operation, number, indices);
            assert!(![4, 5, 8, 9].contains(number) || indices.contains(&65535), "{} {}", operation, number);
        }
        assert!(found[&("f".to_string(), 0)].0 >= 240);
    }

    #[test]
    fn every_call_is_read_again_and_every_node_is_answered() {
        let sheet = make();
        let mut nodes = vec![];
        for (question, answer) in rows(&sheet) {
            if question[0] == "b" {
                let call = Call::from_fields(&question[2..]);
                assert!(call.fields().iter().eq(&question[2..]));
                assert_eq!(answer, [call.node_words.len().to_string()]);
                nodes.push(call.node_words.len());
            } else {
                let count: usize = nodes[question[1].parse::<usize>().unwrap()];
                assert_eq!(answer.len(), if answer[0] == "0" { 2 + count } else { 2 }, "{:?}", &question[..2]);
            }
        }
    }

    /// Nodes no particle reaches kept every bit, or they would be written out.
    #[test]
    fn only_nodes_that_are_hit_are_written() {
        let sheet = make();
        let done = rows(&sheet).filter(|(question, answer)| question[0] == "f" && question.len() == 2 && answer[0] == "0");
        let calls: Vec<Call> = rows(&sheet)
            .filter(|(question, _)| question[0] == "b")
            .map(|(question, _)| Call::from_fields(&question[2..]))
            .collect();
        for (question, answer) in done {
            let hits = calls[question[1].parse::<usize>().unwrap()].hits(None);
            assert!(answer[2..].iter().zip(&hits).all(|(node, hit)| *hit == (*node != "=")), "{:?}", question);
        }
    }

    #[test]
    fn document_01s_listing() {
        let node = |mass: &str| [mass, mass, "00000000", "3F800000", "00000000", "00000000", "00000000", "00000000"].concat();
        let (corner, side, middle, none) = (node("3F800000"), node("40C00000"), node("42100000"), "=".to_string());
        let row = |one: &String, two: &String| [one.clone(), two.clone(), one.clone(), none.clone()];
        let rows = [row(&corner, &side), row(&side, &middle), row(&corner, &side)].concat();
        assert_eq!(nodes(&Which::All, &listing())[..12], rows);
        assert!(nodes(&Which::All, &listing())[12..].iter().all(|node| *node == none));
    }

    /// At x = 0 the Rust's first cell is the last one of the axis; it scatters there, and to the cells that come next, at 0 and 1.
    #[test]
    fn the_rust_goes_on_where_the_table_refuses() {
        let call = listing().edited(&[Edit::Entry('f', 0, 0)]);
        assert_eq!(reading::scatter(&Which::All, &call).map(|refusal| (refusal.number, refusal.index)), Some((8, 0)));
        let mut scene = Scene::new(&call, MmapMut::sparse());
        scene.scatter();
        let (floats, _) = scene.nodes();
        let masses = [0, 1, 2].map(|cell| f32::from_bits(floats[cell * samples::NODE_FLOATS]));
        assert_eq!(masses, [6.0, 1.0, 0.0]);
    }

    /// Region by region, colour by colour, the Rust leaves what its scatter of all leaves: so a call in such an order has to.
    #[test]
    fn an_order_by_colours_leaves_the_same_nodes() {
        let mut rng = Rng::new(SEED);
        for _ in 0..300 {
            let call = Style::any(&mut rng).sample(&mut rng);
            let mut one_by_one = call.clone();
            for place in samples::random::order(&call, &mut rng) {
                let mut scene = Scene::new(&one_by_one, MmapMut::sparse());
                scene.only(place as usize);
                scene.scatter();
                (one_by_one.node_floats, one_by_one.node_words) = scene.nodes();
            }
            let answered = call.answered((&one_by_one.node_floats, &one_by_one.node_words), &call.hits(None));
            assert_eq!(answered, nodes(&Which::All, &call));
        }
    }

    #[test]
    fn samples_are_accepted_and_hit_what_the_rust_hits() {
        let mut rng = Rng::new(SEED);
        for _ in 0..1000 {
            let call = Style::any(&mut rng).sample(&mut rng);
            assert_eq!(reading::scatter(&Which::All, &call), None);
            let mut scene = Scene::new(&call, MmapMut::sparse());
            assert_eq!(scene.hits(), call.hits(None));
            let place = rng.below(call.regions) as usize;
            scene.only(place);
            assert_eq!(scene.hits(), call.hits(Some(place)));
        }
    }
}
