//! Lists far beyond every limit: what refuses them is a look at lengths and counts, so that no call may take long, whatever they hold.

use super::stages::{Asked, Kind, KINDS};
use crate::archive;
use crate::watch::Watch;
use samples::lengths::Step;
use samples::{Boundary, Call, Gather, GIVEN_FLOATS, NONE, PARTICLE_FLOATS, PARTICLE_WORDS, PROJECTION_FLOATS, REGION_NODES};
use std::time::{Duration, Instant};

/// How many entries the lists have, and by when each call has to be answered.
const ENTRIES: usize = 1_000_000;
const AT_ONCE: Duration = Duration::from_millis(10);

/// Of so many calls the fastest counts: the machine may do something else at any time.
const TRIES: usize = 3;

const ALONE: &str = "an order's entries alone";

/// A call, and in what it is too large.
struct Hostile {
    asked: Asked,
    what: &'static str,
}

/// As many regions and one collider, or as many colliders and one region, each with all that the counts ask, and all of it zeros. Zeros
/// that nobody reads or writes take no memory.
fn on(regions: usize, colliders: usize) -> Call {
    let projections = regions * colliders * REGION_NODES;
    let boundary = Boundary {
        handling: NONE,
        locks: 0,
        colliders: colliders as u64,
        frictions: vec![0; colliders],
        points: vec![0; projections * PROJECTION_FLOATS],
        insides: vec![0; projections],
    };
    Call { boundary, ..Call::on(vec![0; regions]) }
}

/// The same with particles, which no region has.
fn with_particles(call: Call, particles: usize) -> Call {
    Call {
        particles: particles as u64,
        particle_floats: vec![0; particles * PARTICLE_FLOATS],
        particle_words: vec![0; particles * PARTICLE_WORDS],
        gather: Gather { eigenerosion: 0, given_floats: vec![0; particles * GIVEN_FLOATS], given_words: vec![0; particles] },
        ..call
    }
}

/// The same with a word too few of each list that a call writes to.
fn cut(call: Call) -> Call {
    let mut call = call;
    call.node_words.pop();
    call.particle_words.pop();
    call
}

/// Every call that is given such a list, made one after the other.
fn hostile(entries: usize) -> impl Iterator<Item = Hostile> {
    KINDS.into_iter().flat_map(move |kind| {
        let is_given = move |letter: char| kind.given().contains(letter);
        let in_order = kind == Kind::Order;
        let ways: [(&str, bool, fn(usize) -> Call); 6] = [
            ("regions", is_given('r'), |entries| on(entries, 1)),
            ("regions, and a word too few", is_given('r'), |entries| cut(with_particles(on(entries, 1), 1))),
            ("particles", is_given('p'), |entries| with_particles(on(1, 1), entries)),
            ("particles, and a word too few", is_given('p'), |entries| cut(with_particles(on(1, 1), entries))),
            ("colliders", is_given('c'), |entries| on(1, entries)),
            (ALONE, in_order, |_| on(1, 0)),
        ];
        ways.into_iter().filter(|way| way.1).map(move |(what, _, call)| {
            let mut asked = Asked::new(kind, call(entries));
            if in_order {
                // No entry stands there twice, and all are of one colour, so that none ends a search.
                asked.order = (0..if what == ALONE { entries as u64 } else { asked.call.regions }).collect();
            }
            Hostile { asked, what }
        })
    })
}

/// A step of as many proposals, which ends before any is looked at.
fn step(entries: usize) -> Step {
    Step {
        total: f32::NAN,
        max_substep_dt: 1.0,
        max_num_substeps: 1,
        stop_after_one_substep: 0,
        proposals: entries as u64,
        dts: vec![0; entries],
    }
}

/// The shortest time of some tries, and what was answered each time, which is the same.
fn fastest<A: PartialEq + std::fmt::Debug>(mut ask: impl FnMut() -> A) -> (A, Duration) {
    let mut tries = (0..TRIES).map(|_| {
        let began = Instant::now();
        let answer = ask();
        (answer, began.elapsed())
    });
    let first = tries.next().expect("a try");
    tries.fold(first, |(answer, least), (again, took)| {
        assert_eq!(answer, again, "another answer to the same call");
        (answer, least.min(took))
    })
}

/// Asks every call and prints what it answers and how long that takes; says whether each is right, in time, and leaves what it was lent.
pub fn run() -> bool {
    run_of(ENTRIES, AT_ONCE)
}

fn run_of(entries: usize, limit: Duration) -> bool {
    println!(
        "{} entries, each call answered in {} ms at the most; {} tries each, the fastest",
        entries,
        limit.as_millis(),
        TRIES
    );
    let watch = Watch::start();
    let mut is_good = true;
    let mut tell = |name: &str, what: &str, answer: (u32, usize), right: (u32, usize), took: Duration, is_kept: bool| {
        let fault = match (answer == right, took <= limit, is_kept) {
            (false, _, _) => format!(", and not {:?}", right),
            (_, false, _) => ", TOO LATE".to_string(),
            (_, _, false) => ", and it WROTE".to_string(),
            _ => String::new(),
        };
        is_good &= fault.is_empty();
        println!("{:<36}{:<32}{:?} in {:.3} ms{}", name, what, answer, took.as_secs_f64() * 1e3, fault);
    };
    for Hostile { asked, what } in hostile(entries) {
        let right = asked.refused().map_or((0, 0), |refusal| (refusal.number, refusal.index));
        let Asked { kind, place, order, mut call } = asked;
        let which = kind.which(place, &order);
        watch.on(format_args!("ended in {} on {} of {}", kind.name(), entries, what));
        let (answer, took) = fastest(|| archive::answer_in_place(&which, &mut call));
        let written = [&call.particle_floats, &call.particle_words, &call.node_floats, &call.node_words];
        let is_kept = written.into_iter().all(|list| list.iter().all(|word| *word == 0));
        tell(kind.name(), what, (answer.number, answer.index), right, took, is_kept);
    }
    let step = step(entries);
    let (answer, took) = fastest(|| archive::lengths(&step, &step.dts));
    tell("mk_step_lengths", "proposals", (answer.number, answer.index), (3, 0), took, true);
    let (answer, took) = fastest(|| archive::lengths(&step, &step.dts[1..]));
    tell("mk_step_lengths", "proposals, and one too few", (answer.number, answer.index), (1, 0), took, true);
    let ids = vec![0; entries];
    let (found, took) = fastest(|| unsafe { mangerknot_sys::mk_lookup(ids.as_ptr(), ids.len(), 0) }.place);
    tell("mk_lookup", "ids", (0, found), (0, entries - 1), took, true);
    is_good
}

#[cfg(test)]
mod tests {
    use super::*;

    #[test]
    fn every_call_is_asked_and_refused_for_its_lengths_or_counts() {
        let mut kinds = vec![];
        for Hostile { asked, what } in hostile(70_000) {
            let refusal = asked.refused().expect("a refusal");
            let number = if what.ends_with("few") || what == ALONE { 1 } else { 2 };
            assert_eq!((refusal.number, refusal.index), (number, 0), "{:?}: {}", asked.kind, what);
            kinds.push(asked.kind);
        }
        assert!(KINDS.iter().all(|kind| kinds.contains(kind)));
    }

    #[test]
    fn what_is_late_is_told() {
        assert!(run_of(70_000, Duration::from_secs(5)));
        assert!(!run_of(70_000, Duration::ZERO));
    }
}
