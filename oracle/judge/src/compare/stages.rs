//! Calls of the stages: what they are given, what the archive leaves, what has to be left, and in what these differ.

use crate::archive;
use crate::guarded;
use oracle::reading::{self, Refusal};
use samples::lines::Edit;
use samples::particle::PSI;
use samples::random::order;
use samples::substeps::Stage;
use samples::{Boundary, Call, Gather, Records, Rng, GIVEN_FLOATS, NODE_FLOATS, PARTICLE_FLOATS};
use sparkl2d::scene::Scene;
use sparkl2d::MmapMut;

/// The functions that a call's lists are lent to.
#[derive(Clone, Copy, Debug, PartialEq)]
pub enum Kind {
    Clear,
    All,
    Region,
    Order,
    Update,
    Sequence,
    FirstHalf,
    SecondHalf,
    Fluids,
}

pub const KINDS: [Kind; 9] = [
    Kind::Clear,
    Kind::All,
    Kind::Region,
    Kind::Order,
    Kind::Update,
    Kind::Sequence,
    Kind::FirstHalf,
    Kind::SecondHalf,
    Kind::Fluids,
];

/// Of a kind: the function, the file of vectors with such questions and their letter there, and the letters of what it is given. Clear has
/// the letter of its own questions and a scatter's call.
struct About {
    name: &'static str,
    file: &'static str,
    letter: &'static str,
    given: &'static str,
}

impl Kind {
    fn about(self) -> About {
        let (name, file, letter, given) = match self {
            Kind::Clear => ("mk_clear2", "scatter", "z", "rimk"),
            Kind::All => ("mk_particle_to_grid_scatter2", "scatter", "f", "htxyrpisfwmk"),
            Kind::Region => ("mk_particle_to_grid_scatter_region2", "scatter", "o", "htxyrpisfwmk"),
            Kind::Order => ("mk_scatter_in_order2", "scatter", "q", "htxyrpisfwmk"),
            Kind::Update => ("mk_grid_update2", "update", "u", "htbdrcinjqmk"),
            Kind::Sequence => ("mk_clear_scatter_update2", "update", "a", "htxybdrpcisfwnjqmk"),
            Kind::FirstHalf => ("mk_grid_to_particle_first_half2", "gather", "g", "hterpisfwmk"),
            Kind::SecondHalf => ("mk_grid_to_particle_second_half2", "gather", "s", "pfwgv"),
            Kind::Fluids => ("mk_recompute_fluids_volumes2", "fluids", "f", "hrpisfwmk"),
        };
        About { name, file, letter, given }
    }

    pub fn name(self) -> &'static str {
        self.about().name
    }

    /// The archive's call of that kind; the place is one region's, and the order all regions'.
    pub fn which(self, place: u64, order: &[u64]) -> archive::Which<'_> {
        match self {
            Kind::Clear => archive::Which::Clear,
            Kind::All => archive::Which::All,
            Kind::Region => archive::Which::Region(place as usize),
            Kind::Order => archive::Which::Order(order),
            Kind::Update => archive::Which::Update,
            Kind::Sequence => archive::Which::Sequence,
            Kind::FirstHalf => archive::Which::FirstHalf,
            Kind::SecondHalf => archive::Which::SecondHalf,
            Kind::Fluids => archive::Which::Fluids,
        }
    }

    /// The letters of settings, counts and lists that such a call is given.
    pub fn given(self) -> &'static str {
        self.about().given
    }
}

impl From<Stage> for Kind {
    fn from(stage: Stage) -> Self {
        match stage {
            Stage::Clear => Kind::Clear,
            Stage::Fluids => Kind::Fluids,
            Stage::Sequence => Kind::Sequence,
            Stage::FirstHalf => Kind::FirstHalf,
            Stage::SecondHalf => Kind::SecondHalf,
        }
    }
}

/// A call of one of them; the place is one region's, and the order all regions'.
#[derive(Clone, Debug, PartialEq)]
pub struct Asked {
    pub kind: Kind,
    pub place: u64,
    pub order: Vec<u64>,
    pub call: Call,
}

/// What a call leaves: number and index, the particles and the nodes, and whether all else is as it was.
#[derive(Debug, PartialEq)]
pub struct Left {
    pub refusal: (u32, usize),
    pub particles: Records,
    pub nodes: Records,
    pub is_kept: bool,
    /// Of each node, whether it is computed anew, whatever comes out. Nothing says which pattern a computed NaN has.
    computed: Vec<bool>,
}

impl Asked {
    pub fn new(kind: Kind, call: Call) -> Asked {
        Asked { kind, place: 0, order: vec![], call: only_given(kind, call) }
    }

    /// A call of that kind that no rule refuses where none refuses a call of another.
    pub fn any(kind: Kind, call: &Call, rng: &mut Rng) -> Asked {
        let mut asked = Asked::new(kind, call.clone());
        match kind {
            Kind::Region => asked.place = rng.below(call.ids.len().max(1) as u64),
            Kind::Order => asked.order = order(call, rng),
            _ => {}
        }
        asked
    }

    /// What the archive leaves.
    pub fn ports(&self) -> Left {
        let which = self.kind.which(self.place, &self.order);
        let (refusal, [particles, nodes], is_kept) = guarded::ask_and_look(&which, &self.call);
        Left { refusal: (refusal.number, refusal.index), particles, nodes, is_kept, computed: vec![] }
    }

    /// What `reading` refuses it for.
    pub fn refused(&self) -> Option<Refusal> {
        let call = &self.call;
        match self.kind {
            Kind::Clear => reading::clear(call.regions, &call.ids, call.node_floats.len() as u64, call.node_words.len() as u64),
            Kind::All => reading::scatter(&reading::Which::All, call),
            Kind::Region => reading::scatter(&reading::Which::Region(self.place), call),
            Kind::Order => reading::scatter(&reading::Which::Order(&self.order), call),
            Kind::Update => reading::update(call),
            Kind::Sequence => reading::clear_scatter_update(call),
            Kind::FirstHalf => reading::first_half(call),
            Kind::SecondHalf => reading::second_half(call),
            Kind::Fluids => reading::fluids(call),
        }
    }

    /// What has to be left: where it is refused all that was lent, and else what the Rust makes of it.
    pub fn judged(&self) -> Left {
        match self.refused() {
            Some(Refusal { number, index }) => Left { refusal: (number, index), ..self.untouched() },
            None => self.rusts(),
        }
    }

    /// What a call leaves that does nothing.
    fn untouched(&self) -> Left {
        let call = &self.call;
        Left {
            refusal: (0, 0),
            particles: (call.particle_floats.clone(), call.particle_words.clone()),
            nodes: (call.node_floats.clone(), call.node_words.clone()),
            is_kept: true,
            computed: vec![],
        }
    }

    /// What a stage of a substep has to leave whose answer is this; the recomputation of fluids leaves nodes as they were that have no mass.
    pub fn answered(&self, answer: &samples::substeps::Answer, leaves_particles: bool) -> Left {
        match answer {
            Err(refusal) => Left { refusal: *refusal, ..self.untouched() },
            Ok(records) if leaves_particles => Left { particles: records.clone(), ..self.untouched() },
            Ok(records) => Left { nodes: records.clone(), ..self.untouched() },
        }
    }

    /// The Rust has no order of its own to be given: the nodes of any order by colours have to be those of its scatter.
    fn rusts(&self) -> Left {
        let call = &self.call;
        match self.kind {
            Kind::FirstHalf => return Left { particles: Scene::first_half(call), ..self.untouched() },
            Kind::SecondHalf => return Left { particles: Scene::second_half(&with_plain_zeros(call)), ..self.untouched() },
            Kind::Fluids => {
                let [particles, nodes] = Scene::recomputed(call);
                return Left { particles, nodes, ..self.untouched() };
            }
            _ => {}
        }
        let mut scene = Scene::new(call, MmapMut::sparse());
        let mut computed = vec![];
        match self.kind {
            Kind::Clear => scene.clear(),
            Kind::Update => scene.update(),
            Kind::Sequence => {
                scene.clear();
                scene.scatter();
                scene.update();
            }
            _ => {
                if self.kind == Kind::Region {
                    scene.only(self.place as usize);
                }
                scene.scatter();
                computed = scene.hits();
            }
        }
        Left { nodes: scene.nodes(), computed, ..self.untouched() }
    }

    /// Whether docs/DIFFERENCES.md has it that the Rust's answer is another: an energy that is given and a psi that are both zeros, but not
    /// both +0. Document 01 has +0 of them.
    pub fn is_listed(&self) -> bool {
        self.kind == Kind::SecondHalf && self.refused().is_none() && with_plain_zeros(&self.call) != self.call
    }

    /// In what one differs from the other; None where in nothing.
    pub fn difference(&self, port: &Left, judge: &Left) -> Option<String> {
        if port.refusal != judge.refusal {
            return Some(format!("the archive answers {:?} and not {:?}", port.refusal, judge.refusal));
        }
        if !port.is_kept {
            return Some("the archive wrote where it may not".to_string());
        }
        let call = &self.call;
        let lists = [
            ('f', &call.particle_floats, &port.particles.0, &judge.particles.0),
            ('m', &call.node_floats, &port.nodes.0, &judge.nodes.0),
            ('w', &call.particle_words, &port.particles.1, &judge.particles.1),
            ('k', &call.node_words, &port.nodes.1, &judge.nodes.1),
        ];
        lists.iter().find_map(|(letter, before, port, right)| {
            if port == right {
                return None;
            }
            let computed = |place: usize| *letter == 'm' && judge.computed.get(place / NODE_FLOATS) == Some(&true);
            let is_same = |place: usize| match letter {
                'f' | 'm' => is_same_float(port[place], right[place], before[place], computed(place)),
                _ => port[place] == right[place],
            };
            let place = (0..port.len()).find(|place| !is_same(*place))?;
            Some(format!("{}{} is {:08X} and not {:08X}", letter, place, port[place], right[place]))
        })
    }

    /// The question in the vectors' fields: a call, and what is changed about it so that it is this one.
    pub fn written(&self) -> Vec<String> {
        let (base, edits) = self.call.parted();
        let About { file, letter, given, .. } = self.kind.about();
        let fields = match file {
            "update" => base.bounded_fields(),
            "gather" => base.gather_fields(),
            _ => base.fields(),
        };
        let more = match self.kind {
            Kind::Region => vec![self.place],
            Kind::Order => [&[self.order.len() as u64], &self.order[..]].concat(),
            _ => vec![],
        };
        let more = more.iter().map(u64::to_string);
        let edits = edits.iter().filter(|edit| given.contains(edit.letter()));
        let question: Vec<String> = more.chain(edits.map(Edit::to_string)).collect();
        vec![
            format!("as in host/vectors/{}.questions:", file),
            format!("b\t0\t{}", fields.join("\t")),
            [&[letter.to_string(), "0".to_string()], &question[..]].concat().join("\t"),
        ]
    }
}

impl Asked {
    /// A call from such lines; None where they are others.
    pub fn read<'a>(lines: impl Iterator<Item = &'a str>) -> Option<Asked> {
        let lines: Vec<&str> = lines.take(3).collect();
        let [about, call, question] = <[&str; 3]>::try_from(lines).ok()?;
        let file = about.split_once("host/vectors/")?.1.strip_suffix(".questions:")?;
        let call: Vec<&str> = call.strip_prefix("b\t0\t")?.split('\t').collect();
        let call = match file {
            "update" => Call::from_bounded_fields(&call),
            "gather" => Call::from_gather_fields(&call),
            _ => Call::from_fields(&call),
        };
        let (letter, more) = question.split_once("\t0").map(|(letter, more)| (letter, more.split('\t').skip(1)))?;
        let kind = KINDS.into_iter().find(|kind| (kind.about().file, kind.about().letter) == (file, letter))?;
        let mut more: Vec<&str> = more.collect();
        let places = match kind {
            Kind::Region => 1,
            Kind::Order => 1 + more.first()?.parse::<usize>().ok()?,
            _ => 0,
        };
        let edits = more.split_off(places.min(more.len())).into_iter().map(str::parse).collect::<Result<Vec<Edit>, ()>>().ok()?;
        let places = more.into_iter().map(str::parse).collect::<Result<Vec<u64>, _>>().ok()?;
        let mut asked = Asked::new(kind, call.edited(&edits));
        match kind {
            Kind::Region => asked.place = *places.first()?,
            Kind::Order => asked.order = places[1..].to_vec(),
            _ => {}
        }
        Some(asked)
    }
}

/// The same bits, or two NaNs where one is computed: nothing says which of its patterns comes out. What is not computed keeps its bits.
fn is_same_float(port: u32, right: u32, before: u32, is_computed: bool) -> bool {
    let are_nans = f32::from_bits(port).is_nan() && f32::from_bits(right).is_nan();
    port == right || are_nans && (is_computed || right != before)
}

/// The call with nothing but what this kind is given, so that the others' lists are not looked at.
fn only_given(kind: Kind, call: Call) -> Call {
    let given = kind.given();
    let none = Call::on(vec![]);
    let mut call = call;
    if !given.contains('c') {
        call.boundary = Boundary::default();
    }
    match (given.contains('e'), given.contains('g')) {
        (true, _) => call.gather = Gather { eigenerosion: call.gather.eigenerosion, ..Gather::default() },
        (_, true) => {}
        _ => call.gather = Gather::default(),
    }
    if !given.contains('p') {
        let ranges = vec![0; 2 * call.ids.len()];
        call = Call { particles: 0, particle_floats: vec![], particle_words: vec![], ranges, ..call };
    }
    if !given.contains('r') {
        let Call { particles, particle_floats, particle_words, gather, .. } = call;
        call = Call { particles, particle_floats, particle_words, gather, ..none };
    }
    if !given.contains('t') {
        call.dt = 1.0;
    }
    if !given.contains('x') {
        call.gravity = [0.0; 2];
    }
    call
}

/// The call with +0 for an energy and a psi that are both zeros.
fn with_plain_zeros(call: &Call) -> Call {
    let mut call = call.clone();
    let is_zero = |bits: u32| bits << 1 == 0;
    let particles = call.particle_floats.chunks_exact_mut(PARTICLE_FLOATS);
    for (floats, given) in particles.zip(call.gather.given_floats.chunks_exact_mut(GIVEN_FLOATS)) {
        if is_zero(floats[PSI]) && is_zero(given[1]) {
            (floats[PSI], given[1]) = (0, 0);
        }
    }
    call
}

#[cfg(test)]
mod tests {
    use super::super::damage::Faults;
    use super::*;
    use samples::particle::{FLUID, MASS, VOLUME};
    use samples::random::{bounded, gathered, Old, Style};

    fn sample(rng: &mut Rng) -> Call {
        let style = Style { old: Old::Numbers, ..Style::plain(1.0, [0, 0], [3, 3], 9) };
        let call = style.sample(rng);
        gathered(bounded(call, 3, rng), rng)
    }

    /// Whether this is what has to be left of the call of that kind, by the archive too.
    fn same(kind: Kind, call: &Call, other: &Call) -> bool {
        let busy = call.ranges.chunks_exact(2).position(|range| range[1] > 0).expect("a particle") as u64;
        let [one, other] = [call, other].map(|call| Asked { place: busy, ..Asked::any(kind, call, &mut Rng::new(1)) });
        assert_eq!(one.difference(&one.ports(), &one.judged()), None);
        assert_eq!(other.difference(&other.ports(), &other.judged()), None);
        one.judged() == other.judged()
    }

    #[test]
    fn what_is_compared_is_told_apart() {
        let call = sample(&mut Rng::new(1));
        let edited = |edits: &[&str]| call.edited(&edits.iter().map(|edit| edit.parse().unwrap()).collect::<Vec<_>>());
        let heavier = edited(&[&format!("f{}=40E00000", MASS)]);
        let slower = edited(&["t=3C000000", "x=3F800000"]);
        let stuck = edited(&["b=1", "d=1"]);
        let fluid = edited(&[&format!("f{}=40E00000", VOLUME), &format!("w{}=1", FLUID)]);
        for kind in KINDS {
            let given = kind.given();
            assert_eq!(same(kind, &call, &heavier), !given.contains('f'), "{:?}", kind);
            assert_eq!(same(kind, &call, &slower), !given.contains('t'), "{:?}", kind);
            assert_eq!(same(kind, &call, &stuck), !given.contains('b'), "{:?}", kind);
        }
        assert!(!same(Kind::Fluids, &call, &fluid));
        assert!(same(Kind::All, &call, &edited(&["b=1", "d=9", "c=7", "e=2", "v#0"])));
        assert!(!same(Kind::SecondHalf, &call, &edited(&["g0=0", "v0=1", "v1=1", "v2=1"])));
    }

    #[test]
    fn what_is_refused_is_left_as_it_was() {
        let call = sample(&mut Rng::new(1));
        for (kind, edit, refusal) in [
            (Kind::Clear, "i1=1", (6, 1)),
            (Kind::Update, "b=4", (4, 0)),
            (Kind::FirstHalf, "e=2", (4, 0)),
            (Kind::SecondHalf, "g3=7F800000", (5, 1)),
            (Kind::Fluids, "h=0", (3, 0)),
        ] {
            let asked = Asked::any(kind, &call.edited(&[edit.parse().unwrap()]), &mut Rng::new(1));
            assert_eq!(asked.judged(), Left { refusal, ..asked.untouched() });
            assert_eq!(asked.difference(&asked.ports(), &asked.judged()), None);
        }
        let region = Asked { place: 9, ..Asked::new(Kind::Region, call) };
        assert_eq!((region.judged().refusal, region.ports().refusal), ((4, 0), (4, 0)));
    }

    #[test]
    fn a_computed_nan_may_be_any_and_a_kept_one_not() {
        let (quiet, other, one) = (0x7fc0_0000, 0xffc0_0001, 0x3f80_0000);
        assert!(is_same_float(quiet, quiet, quiet, false) && is_same_float(quiet, other, one, false));
        assert!(!is_same_float(other, quiet, quiet, false) && is_same_float(other, quiet, quiet, true));
        assert!(!is_same_float(one, quiet, one, true) && !is_same_float(0, 0x8000_0000, 0, true));
        let mut call = Call::of_one(&[(0, 1.0), (1, 1.0), (MASS, 4.0)], &[]);
        call.node_floats.fill(quiet);
        let asked = Asked::new(Kind::All, call);
        let (mut left, right) = (asked.ports(), asked.judged());
        assert_eq!(asked.difference(&left, &right), None);
        left.nodes.0[0] = other;
        assert_eq!(asked.difference(&left, &right), None);
        let unreached = 3 * NODE_FLOATS;
        left.nodes.0[unreached] = other;
        assert_eq!(asked.difference(&left, &right), Some(format!("m{} is FFC00001 and not 7FC00000", unreached)));
    }

    #[test]
    fn two_zeros_are_document_01s() {
        let mut call = gathered(Call::of_one(&[(0, 1.0), (1, 1.0), (MASS, 4.0)], &[]), &mut Rng::new(1));
        (call.particle_floats[PSI], call.gather.given_floats[1]) = (0x8000_0000, 0x8000_0000);
        let asked = Asked::new(Kind::SecondHalf, call.clone());
        assert!(asked.is_listed());
        assert_eq!((asked.judged().particles.0[PSI], asked.difference(&asked.ports(), &asked.judged())), (0, None));
        call.gather.given_floats[1] = 0x3f80_0000;
        assert!(!Asked::new(Kind::SecondHalf, call).is_listed());
    }

    /// What is written of a call is the call, whatever is damaged about it.
    #[test]
    fn what_is_written_is_read_again() {
        let mut rng = Rng::new(5);
        for _ in 0..10 {
            let call = sample(&mut rng);
            let faults = Faults::of(&call);
            for kind in KINDS.iter().flat_map(|kind| [*kind; 20]) {
                let asked = faults.damaged(&Asked::any(kind, &call, &mut rng), &mut rng);
                let read = Asked::read(asked.written().iter().map(String::as_str)).expect("a call");
                assert_eq!((read.written(), read.judged().refusal), (asked.written(), asked.judged().refusal));
                assert_eq!(read.ports().nodes, asked.ports().nodes);
            }
        }
        assert!(Asked::read(["as in host/vectors/scatter.questions:", "b\t0\t0", "nothing"].into_iter().take(2)).is_none());
    }
}
