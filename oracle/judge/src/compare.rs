//! Random and adversarial calls of every function of the archive, whole substeps in chains, and what has to be answered: what is refused is
//! `reading`'s, all else the handed-over Rust's, or Rust's own.

mod damage;
pub mod hostile;
mod leaves;
mod shrink;
mod stages;
mod table;

use crate::time::full_call;
use crate::watch::Watch;
use damage::Faults;
use leaves::Leaf;
use oracle::vectors::gather::stages as rusts_stages;
use samples::lines::Edit;
use samples::random::{bounded, gathered, order, Numbers, Style};
use samples::substeps::{Answer, Chain, Stage};
use samples::{Call, Rng, NODE_FLOATS, PARTICLE_FLOATS, PARTICLE_WORDS};
use stages::{Asked, Kind, Left, KINDS};
use std::rc::Rc;
use table::Table;

/// What a round has: each function of numbers so often, and once where it is given none; so many steps that no rule refuses; so many calls of
/// the stages, and of each and by each function so many that are damaged.
const OF_NUMBERS: usize = 3;
const STEPS: usize = 6;
const CALLS: usize = 8;
const DAMAGED: usize = 4;

/// How many substeps are made in a row, if none is refused and no particle leaves the grid.
const SUBSTEPS: u64 = 3;
const MANY_SUBSTEPS: u64 = 20;

/// A round in so many has calls at the limits, which are large.
const ROUNDS_TO_LIMITS: u64 = 400;

/// Compares rounds of calls until there are so many, and says whether nothing differs and nothing was left out. A round covers all
/// functions.
pub fn run(seed: u64, count: u64) -> bool {
    let watch = Rc::new(Watch::start());
    let clock = Rc::clone(&watch);
    let mut judge = Judge::new(Box::new(move |asked| {
        clock.again();
        asked.ports()
    }));
    for round in 0.. {
        watch.on(format_args!(
            "ended in round {} of seed {}: `judge round {1} {0}` prints each of its calls before it is asked",
            round, seed
        ));
        judge.round(seed, round);
        if judge.table.calls >= count {
            break;
        }
    }
    println!("{}", judge.table.told(seed, &crate::machine()));
    judge.table.differ == 0 && judge.table.left_out().is_empty()
}

/// A round by itself, with each call printed before it is asked, so that the last is one that does not come back; says whether nothing
/// differs.
pub fn round(seed: u64, round: u64) -> bool {
    let mut judge = Judge { prints: true, ..Judge::new(Box::new(Asked::ports)) };
    judge.round(seed, round);
    println!("calls: {}, differences: {}", judge.table.calls, judge.table.differ);
    judge.table.differ == 0
}

/// Asks a call again that was printed; says whether nothing differs, or nothing where it cannot be read.
pub fn replay(told: &str) -> Option<bool> {
    let name = told.split_whitespace().next()?;
    if let Some(leaf) = leaves::all().into_iter().find(|leaf| leaf.name == name) {
        let asked = leaf.read(told)?;
        let (answer, right) = ((leaf.port)(&asked), leaf.judged(&asked));
        return Some(replayed(name, format!("{:X?}", answer), (answer != right).then(|| format!("and not {:X?}", right))));
    }
    let asked = Asked::read(told.lines())?;
    let (left, right) = (asked.ports(), asked.judged());
    Some(replayed(asked.kind.name(), format!("{:?}", left.refusal), asked.difference(&left, &right)))
}

fn replayed(name: &str, answer: String, difference: Option<String>) -> bool {
    println!("{} answers {}, {}", name, answer, difference.as_deref().unwrap_or("and nothing differs"));
    difference.is_none()
}

/// What is asked, who answers of the stages, and what came of it.
struct Judge {
    leaves: Vec<Leaf>,
    ports: Box<dyn Fn(&Asked) -> Left>,
    table: Table,
    /// What is said of the first difference.
    first: Option<String>,
    /// Whether each call is printed before it is asked.
    prints: bool,
}

impl Judge {
    fn new(ports: Box<dyn Fn(&Asked) -> Left>) -> Judge {
        Judge { leaves: leaves::all(), ports, table: Table::default(), first: None, prints: false }
    }

    /// A round by itself, so that it can be had again without those before it.
    fn round(&mut self, seed: u64, round: u64) {
        let mut rng = Rng::new(Rng::new(seed).number() ^ Rng::new(round).number());
        for place in 0..self.leaves.len() {
            for _ in 0..if self.leaves[place].is_constant() { 1 } else { OF_NUMBERS } {
                let asked = (self.leaves[place].make)(&mut rng);
                let right = self.leaves[place].judged(&asked);
                self.take_numbers(place, asked, right);
            }
        }
        (0..STEPS).for_each(|_| self.take_step(&mut rng));
        (0..CALLS).for_each(|_| self.take_call(&mut rng));
        for recomputes in [false, true] {
            let (call, count) = beginning(&mut rng);
            self.take_chain(&call, recomputes, rng.number(), count);
        }
        if round % ROUNDS_TO_LIMITS == 1 {
            self.take_limits(&mut rng);
        }
    }

    /// A function of numbers.
    fn take_numbers(&mut self, place: usize, asked: Vec<u64>, right: Vec<u64>) {
        let leaf = &self.leaves[place];
        self.table.count(leaf.name, leaf.number(&right));
        self.table.listed += u64::from(leaf.is_listed(&asked));
        if self.prints {
            println!("{} is asked:\n{}", leaf.name, leaf.written(&asked));
        }
        let answer = (leaf.port)(&asked);
        if answer != right {
            self.table.differ += 1;
            self.first.get_or_insert_with(|| said(told_numbers(leaf, asked, [answer, right])));
        }
    }

    /// A step of the Rust's, its least length, and each of its substeps by itself.
    fn take_step(&mut self, rng: &mut Rng) {
        let step = leaves::good_step(rng);
        let place = |name: &str| self.leaves.iter().position(|leaf| leaf.name == name).expect("a function");
        let (whole, least, single) = (place("mk_step_lengths"), place("mk_min_dt"), place("mk_substep"));
        for (place, asked) in [(whole, leaves::numbers(&step)), (least, leaves::least_of(&step))] {
            let right = self.leaves[place].judged(&asked);
            self.take_numbers(place, asked, right);
        }
        for (given, became) in leaves::substeps_of(&step) {
            self.take_numbers(single, given, became);
        }
    }

    /// A call that no rule refuses by every function, and damaged ones.
    fn take_call(&mut self, rng: &mut Rng) {
        let call = Style::any(rng).sample(rng);
        let colliders = rng.one_of(&[0, 1, 1, 2, 4, 16]);
        let call = gathered(bounded(call, colliders, rng), rng);
        let faults = Faults::of(&call);
        for kind in KINDS {
            self.take(Asked::any(kind, &call, rng));
            for _ in 0..DAMAGED {
                let good = Asked::any(kind, &call, rng);
                self.take(faults.damaged(&good, rng));
            }
        }
    }

    /// As many particles, regions and colliders as there may be, and one more; and many particles over many regions, no two alike, as they
    /// are and with late faults.
    fn take_limits(&mut self, rng: &mut Rng) {
        let one = gathered(bounded(Style::plain(0.5, [9, 9], [1, 1], 1).sample(rng), 1, rng), rng);
        let mut calls: Vec<Call> = [65_536, 65_537].map(|count| one.edited(&[Edit::Copies(count)])).to_vec();
        for regions in [512, 513] {
            let mut ids = one.ids.clone();
            ids.extend((0..).map(|place| (1 << 20 | place) << 12).take(regions - one.ids.len()));
            calls.push(gathered(bounded(one.on_list(&ids), 1, rng), rng));
        }
        calls.extend([16, 17].map(|colliders| bounded(one.clone(), colliders, rng)));
        for call in calls {
            self.take_by_all(&call, rng);
        }
        for (particles, regions, most) in [(8_192, [8, 8], KINDS.len()), (65_536, [32, 16], 1)] {
            let call = full(particles, regions, rng);
            self.take_by_all(&call, rng);
            self.take_late_faults(&call, most, rng);
        }
    }

    fn take_by_all(&mut self, call: &Call, rng: &mut Rng) {
        KINDS.iter().for_each(|kind| self.take(Asked::any(*kind, call, rng)));
    }

    /// Faults of the call's last records, each by so many functions at the most that refuse it.
    fn take_late_faults(&mut self, call: &Call, most: usize, rng: &mut Rng) {
        for (needed, edit) in damage::late_faults(call, rng) {
            let mut kinds: Vec<Kind> = KINDS.into_iter().filter(|kind| kind.given().contains(needed)).collect();
            rng.shuffle(&mut kinds);
            for kind in kinds.into_iter().take(most) {
                let good = Asked::any(kind, call, rng);
                self.take(Asked { call: good.call.edited(&[edit.clone()]), ..good });
            }
        }
    }

    /// A call of a stage.
    fn take(&mut self, asked: Asked) {
        let right = asked.judged();
        self.table.listed += u64::from(asked.is_listed());
        self.hold(asked, &right);
    }

    /// Holds what the archive leaves against what has to be left.
    fn hold(&mut self, asked: Asked, right: &Left) -> Left {
        if self.prints {
            println!("{} is asked, {}", asked.kind.name(), asked.written().join("\n"));
        }
        let left = (self.ports)(&asked);
        self.table.count(asked.kind.name(), right.refusal.0);
        if right.refusal.0 == 0 {
            let call = &asked.call;
            self.table.particles.take(
                (&call.particle_floats, &call.particle_words),
                &right.particles,
                PARTICLE_FLOATS,
                PARTICLE_WORDS,
            );
            self.table.nodes.take((&call.node_floats, &call.node_words), &right.nodes, NODE_FLOATS, 1);
        }
        if let Some(difference) = asked.difference(&left, right) {
            self.table.differ += 1;
            let ports = &self.ports;
            self.first.get_or_insert_with(|| said(told_call(ports, asked, difference)));
        }
        left
    }

    /// Substeps in a row on both sides, each from what it left itself; the Rust's gather is one call.
    fn take_chain(&mut self, call: &Call, recomputes: bool, seed: u64, count: u64) {
        let [mut port, mut rust] = [0; 2].map(|_| Chain::new(call, recomputes, seed));
        let (mut rng, mut length) = (Rng::new(!seed), 0);
        while length < count {
            let (ports, rusts) = match (port.substep(), rust.substep()) {
                (Some(ports), Some(rusts)) => (ports, rusts),
                _ => break,
            };
            let answers = rusts_stages(&rusts);
            let mut right = answers.iter();
            let left = ports.in_turn(|stage, call| self.take_stage(stage, call, right.next(), &mut rng));
            port.go_on(&ports, &left);
            rust.go_on(&rusts, &answers);
            length += 1;
        }
        self.table.chains += 1;
        self.table.substeps += length;
        self.table.longest = self.table.longest.max(length);
    }

    /// A stage of the archive's, in one call or in several: the last has to leave what the Rust's own stage left, and the others what the
    /// Rust makes of them by themselves. Nothing more is asked where the Rust went no further.
    fn take_stage(&mut self, stage: Stage, call: &Call, answer: Option<&Answer>, rng: &mut Rng) -> Answer {
        let answer = answer.ok_or((0, 0))?;
        let mut call = call.clone();
        let mut calls = in_calls(stage, &call, rng).into_iter().peekable();
        while let Some(Asked { kind, place, order, .. }) = calls.next() {
            let asked = Asked { place, order, ..Asked::new(kind, call.clone()) };
            let right = match calls.peek() {
                Some(_) => asked.judged(),
                None => asked.answered(answer, stage.leaves_particles()),
            };
            let Left { refusal, particles, nodes, .. } = self.hold(asked, &right);
            match refusal {
                (0, _) if stage.leaves_particles() => return Ok(particles),
                (0, _) => (call.node_floats, call.node_words) = nodes,
                refusal => return Err(refusal),
            }
        }
        Ok((call.node_floats, call.node_words))
    }
}

/// So many particles over these regions, on nodes that have something, with as many colliders as there may be.
fn full(particles: usize, regions: [u32; 2], rng: &mut Rng) -> Call {
    let mut call = gathered(bounded(full_call(particles, regions), 16, rng), rng);
    call.node_floats.iter_mut().for_each(|float| *float = rng.between(-1.0, 1.0).to_bits());
    call
}

/// The calls that a stage is made of. Clear, scatter and update are one, or one after the other, and then the scatter is of all regions,
/// in an order, or region by region.
fn in_calls(stage: Stage, call: &Call, rng: &mut Rng) -> Vec<Asked> {
    let of = |kind: Kind| Asked::new(kind, Call::on(vec![]));
    let way = rng.below(4);
    if stage != Stage::Sequence || way == 0 {
        return vec![of(Kind::from(stage))];
    }
    let order = order(call, rng);
    let scatters = match way {
        1 => vec![of(Kind::All)],
        2 => vec![Asked { order, ..of(Kind::Order) }],
        _ => order.into_iter().map(|place| Asked { place, ..of(Kind::Region) }).collect(),
    };
    [vec![of(Kind::Clear)], scatters, vec![of(Kind::Update)]].concat()
}

/// Where a chain begins, and how long it is at the most: slow everyday particles for a long one.
fn beginning(rng: &mut Rng) -> (Call, u64) {
    let style = Style::any(rng);
    if rng.below(4) > 0 {
        return (style.sample(rng), SUBSTEPS);
    }
    let width = rng.one_of(&[1.0, 0.5, 0.3, 2.0]);
    let corner = [0; 2].map(|_| 20 + rng.below(60_000) as u32);
    let slow = Style { numbers: Numbers::Everyday, cell_width: width, corner, particles: style.particles.min(12), ..style };
    (Call { dt: rng.one_of(&[0.001, 0.003, 0.01]), ..slow.sample(rng) }, MANY_SUBSTEPS)
}

fn said(told: String) -> String {
    println!("{}", told);
    told
}

/// A question of numbers that differs, the smallest that still does, and what both answer to that.
fn told_numbers(leaf: &Leaf, asked: Vec<u64>, answers: [Vec<u64>; 2]) -> String {
    let both = |asked: &[u64]| [(leaf.port)(asked), leaf.judged(asked)];
    let differs = |asked: &[u64]| {
        let [port, right] = both(asked);
        port != right
    };
    let first = leaf.written(&asked);
    let (smallest, [port, right]) = match differs(&asked) {
        true => {
            let smallest = shrink::numbers(leaf, asked, differs);
            let answers = both(&smallest);
            (leaf.written(&smallest), answers)
        }
        false => (first.clone(), answers),
    };
    format!(
        "{} differs; first:\n{}\nsmallest:\n{}\nthe archive answers {:X?} and not {:X?}",
        leaf.name, first, smallest, port, right
    )
}

/// A call that differs, as small as it still does, and in what. What differs in a chain and not by itself is left as it is.
fn told_call(ports: &dyn Fn(&Asked) -> Left, asked: Asked, difference: String) -> String {
    let by_itself = |asked: &Asked| asked.difference(&ports(asked), &asked.judged());
    let name = asked.kind.name();
    let (smallest, how, difference) = match by_itself(&asked) {
        Some(_) => {
            let smallest = shrink::call(asked, |asked| by_itself(asked).is_some());
            let difference = by_itself(&smallest).expect("a difference");
            (smallest, "smallest", difference)
        }
        None => (asked, "in a chain, not by itself", difference),
    };
    format!("{} differs; {}, {}\n{}", name, how, smallest.written().join("\n"), difference)
}

#[cfg(test)]
mod tests {
    use super::*;
    use samples::particle::{MASS, PHASE};
    use samples::REGION_NODES;
    use std::cell::Cell;

    #[test]
    fn a_round_asks_every_function_and_nothing_differs() {
        let of = |seed: u64| {
            let mut judge = Judge::new(Box::new(Asked::ports));
            judge.round(seed, 0);
            judge.round(seed, 2);
            assert_eq!((judge.first, judge.table.differ, judge.table.left_out()), (None, 0, vec![]));
            assert!(judge.table.substeps >= judge.table.chains && judge.table.chains == 4);
            judge.table.told(0, "")
        };
        assert_eq!(of(5), of(5));
        assert_ne!(of(5), of(6));
        assert!(round(5, 0));
    }

    /// What is said of the calls of a round and of the next, where the archive's answers are changed by this.
    fn with(wrong: impl Fn(&Asked, &mut Left) + 'static) -> Judge {
        let mut judge = Judge::new(Box::new(move |asked| {
            let mut left = asked.ports();
            wrong(asked, &mut left);
            left
        }));
        (2..4).for_each(|round| judge.round(9, round));
        judge
    }

    /// The call that is said to be the smallest.
    fn smallest(judge: &Judge) -> Asked {
        let told = judge.first.as_ref().expect("a difference");
        assert!(told.contains("smallest"), "{}", told);
        // The archive itself is right about it.
        assert_eq!(replay(told), Some(true));
        Asked::read(told.lines()).expect("a call")
    }

    /// A mass that is much too large, wherever a node is hit.
    #[test]
    fn a_wrong_scatter_is_told_with_one_particle() {
        let judge = with(|asked, left| {
            if asked.kind == Kind::All && left.refusal.0 == 0 {
                let moved = (0..left.nodes.1.len())
                    .find(|node| left.nodes.0[node * NODE_FLOATS] != asked.call.node_floats[node * NODE_FLOATS]);
                moved.into_iter().for_each(|node| left.nodes.0[node * NODE_FLOATS] = 0x7f7f_ffff);
            }
        });
        assert!(judge.table.differ > 5);
        let Asked { kind, call, .. } = smallest(&judge);
        assert_eq!((kind, call.particles, call.particle_words.len()), (Kind::All, 1, PARTICLE_WORDS));
        assert!((1..=4).contains(&call.ids.len()) && call.node_words.len() == REGION_NODES * call.ids.len());
        let zeros = call.particle_floats.iter().chain(&call.node_floats).filter(|bits| **bits == 0).count();
        assert!(zeros > 20 + call.node_floats.len() - 1 && call.particle_floats[MASS] != 0, "{}", judge.first.unwrap());
    }

    #[test]
    fn a_wrong_number_is_told_with_what_it_takes() {
        let judge = with(|_, left| {
            if left.refusal.0 == 9 {
                left.refusal.0 = 8;
            }
        });
        let told = judge.first.as_ref().expect("a difference");
        assert!(told.ends_with("the archive answers (8, 0) and not (9, 0)"), "{}", told);
        let Asked { call, .. } = smallest(&judge);
        assert_eq!((call.particles, call.regions, call.boundary.colliders), (1, 1, 0));
    }

    #[test]
    fn a_wrong_index_of_damaged_lists_is_told() {
        let judge = with(|asked, left| {
            if asked.kind == Kind::SecondHalf && left.refusal.0 == 1 {
                left.refusal.1 = 1;
            }
        });
        let asked = smallest(&judge);
        assert_eq!((asked.kind, asked.judged().refusal), (Kind::SecondHalf, (1, 0)));
        assert!(asked.call.particle_floats.len() + asked.call.gather.given_words.len() < 30, "{}", judge.first.unwrap());
    }

    #[test]
    fn what_is_written_where_it_may_not_is_told() {
        let judge = with(|asked, left| left.is_kept &= !(asked.kind == Kind::Update && left.refusal.0 == 6));
        let told = judge.first.as_ref().expect("a difference");
        assert!(told.starts_with("mk_grid_update2 differs; smallest") && told.ends_with("wrote where it may not"), "{}", told);
        assert_eq!(smallest(&judge).judged().refusal.0, 6);
    }

    /// A word that is changed although the call is refused, and one that a call does not write.
    #[test]
    fn what_is_changed_is_told() {
        let refused = with(|_, left| {
            if left.refusal.0 == 4 {
                left.nodes.1.first_mut().into_iter().for_each(|word| *word ^= 1);
            }
        });
        assert!(refused.first.expect("a difference").contains("\nk0 is 00000001 and not 00000000"));
        let beside = with(|asked, left| {
            if asked.kind == Kind::FirstHalf && left.refusal.0 == 0 {
                left.nodes.0.first_mut().into_iter().for_each(|float| *float ^= 1);
            }
        });
        assert!(beside.first.expect("a difference").contains("\nm0 is 00000001 and not 00000000"));
    }

    /// Slow particles on the grid, from which a chain can go on.
    fn slow(rng: &mut Rng) -> Call {
        Call { dt: 0.001, ..Style::plain(1.0, [9, 9], [3, 3], 4).sample(rng) }
    }

    /// A judge whose archive is wrong the first time that such a call is asked, and never again.
    fn wrong_once(is_such: fn(&Asked) -> bool, wrong: fn(&mut Left)) -> Judge {
        let was_asked = Cell::new(false);
        Judge::new(Box::new(move |asked| {
            let mut left = asked.ports();
            if is_such(asked) && !was_asked.replace(true) {
                wrong(&mut left);
            }
            left
        }))
    }

    #[test]
    fn what_differs_once_is_told_as_it_is() {
        let mut judge = wrong_once(|_| true, |left| left.is_kept = false);
        judge.take_chain(&slow(&mut Rng::new(1)), false, 7, 2);
        assert_eq!((judge.table.differ, judge.table.substeps), (1, 2));
        assert!(judge.first.expect("a difference").starts_with("mk_clear2 differs; in a chain, not by itself"));
    }

    /// What is left wrong once is wrong in the next substep too.
    #[test]
    fn the_archive_goes_on_with_what_it_left() {
        let mut judge = wrong_once(|asked| asked.kind == Kind::SecondHalf, |left| left.particles.0[MASS] ^= 1);
        judge.take_chain(&slow(&mut Rng::new(1)), false, 7, 2);
        assert!(judge.table.differ > 1 && judge.table.substeps == 2, "{}", judge.table.differ);
        assert!(judge.first.expect("a difference").contains(&format!("\nf{} is ", MASS)));
    }

    /// A first half that overflows ends a substep on both sides, with the second half's number.
    #[test]
    fn chains_are_refused_alike() {
        let mut rng = Rng::new(1);
        let mut judge = Judge::new(Box::new(Asked::ports));
        let huge = Style { numbers: Numbers::Huge, ..Style::plain(1.0, [9, 9], [3, 3], 4) };
        let call = Call { dt: 1.0, ..huge.sample(&mut rng) };
        judge.take_chain(&call, false, 7, 5);
        assert_eq!((judge.table.differ, judge.table.substeps), (0, 1));
        assert!(judge.table.told(0, "").contains(" are done and 1 refused"));
        judge.take_chain(&slow(&mut rng), true, 7, 5);
        assert_eq!((judge.table.differ, judge.table.longest), (0, 5));
    }

    #[test]
    fn chains_go_every_way() {
        let mut judge = Judge::new(Box::new(Asked::ports));
        judge.take_chain(&slow(&mut Rng::new(1)), true, 7, 20);
        assert_eq!((judge.table.differ, judge.table.substeps), (0, 20));
        let left_out = judge.table.left_out();
        assert!(KINDS.iter().all(|kind| !left_out.contains(&kind.name())), "{:?}", left_out);
    }

    /// An answer that one stage leaves wrong goes into the next, as it would with a host.
    #[test]
    fn a_wrong_stage_is_told_where_it_is_wrong() {
        let mut judge = Judge::new(Box::new(|asked| {
            let mut left = asked.ports();
            if asked.kind == Kind::FirstHalf {
                left.particles.0.get_mut(PHASE).into_iter().for_each(|phase| *phase = 0x7fc0_0000);
            }
            left
        }));
        judge.take_chain(&slow(&mut Rng::new(1)), false, 7, 1);
        assert_eq!((judge.table.differ, judge.table.substeps), (2, 1));
        assert!(judge.first.expect("a difference").starts_with("mk_grid_to_particle_first_half2 differs; smallest"));
    }

    #[test]
    fn a_wrong_function_of_numbers_is_told_with_a_small_one() {
        let mut judge = Judge::new(Box::new(Asked::ports));
        let root = judge.leaves.iter_mut().find(|leaf| leaf.name == "mk_root").expect("a function");
        root.port = |asked| vec![if asked[0] & 8 == 8 { 7 } else { u64::from(f32::from_bits(asked[0] as u32).sqrt().to_bits()) }];
        (0..20).for_each(|round| judge.round(1, round));
        let told = judge.first.expect("a difference");
        assert!(told.starts_with("mk_root differs; first:\nq\t"), "{}", told);
        assert!(told.contains("\nsmallest:\nq\t00000008\nthe archive answers [7] and not "), "{}", told);
        assert_eq!([replay(&told), replay("mk_root differs"), replay("")], [Some(true), None, None]);
    }

    #[test]
    fn limits_are_asked_on_both_sides() {
        let mut judge = Judge::new(Box::new(Asked::ports));
        judge.take_limits(&mut Rng::new(1));
        let told = judge.table.told(0, "");
        let sums: Vec<&str> = told.lines().find(|line| line.starts_with("in all")).unwrap().split_whitespace().skip(2).collect();
        // Of six calls two are too many for all but those that are given nothing of it, and 17 colliders for two. The large ones are done,
        // and refused for late flags and floats, and for places by all that have regions for particles, and then by one each.
        assert_eq!(sums, ["55", "-", "17", "-", "13", "13", "-", "-", "7", "7", "7"], "{}", told);
        assert_eq!(judge.table.differ, 0);
    }
}
