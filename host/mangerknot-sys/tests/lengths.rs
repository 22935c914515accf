//! A step's lengths through the archive: the lengths vectors, documents' rules by hand, and a host's own loop of single substeps.

mod archive;
mod lent;
mod pattern;
mod replay;

use lent::Lent;
use mangerknot_sys::*;
use pattern::bits;
use replay::{decimal, replay};
use samples::lengths::{proposal, Step, FINISHED, NONE_LEFT, ONE_DONE};
use samples::Rng;
use std::ptr;

const SEED: u64 = 0x4C65_6E67_7468_7321;

/// The archive's answer to a step; its proposals are as they were afterwards.
fn lengths(step: &Step) -> Lengths {
    let mut dts = Lent::of(&step.dts, [0x3e80_0000, 0x3e00_0000]);
    let answer = archive::lengths(step, dts.lent());
    assert!(dts.is_kept());
    answer
}

fn lengths_fields(answer: &Lengths) -> String {
    let Lengths { number, index, count, remaining, end } = answer;
    format!("{}\t{}\t{}\t{:08X}\t{}", number, index, count, bits(*remaining), end)
}

fn float(field: &str) -> f32 {
    f32::from_bits(u32::from_str_radix(field, 16).expect("a field of 8 hex digits"))
}

/// Asks every question of the vectors; `of_step` answers those about whole steps.
fn replay_with(of_step: fn(&Step) -> Lengths) {
    let asked = replay("host/vectors/lengths.questions", "host/vectors/lengths.answers", |question| match *question {
        ["t", ref fields @ ..] => lengths_fields(&of_step(&Step::from_fields(fields))),
        ["s", remaining, min, limit, dt] => {
            let Substep { number, index, length, remaining } =
                unsafe { mk_substep(float(remaining), float(min), float(limit), float(dt)) };
            format!("{}\t{}\t{:08X}\t{:08X}", number, index, bits(length), bits(remaining))
        }
        ["m", total, count] => {
            let LeastLength { number, index, length } = unsafe { mk_min_dt(float(total), decimal(count)) };
            format!("{}\t{}\t{:08X}", number, index, bits(length))
        }
        _ => panic!("no such question: {:?}", question),
    });
    assert!(asked.keys().eq(["m", "s", "t"]));
}

#[test]
fn lengths_vectors() {
    replay_with(lengths);
}

/// A host who asks for the least length once, and then takes his proposals one by one.
fn by_substeps(step: &Step) -> Lengths {
    let Step { total, max_substep_dt, max_num_substeps, stop_after_one_substep, proposals, ref dts } = *step;
    let is_good = dts.len() as u64 == proposals && max_substep_dt.is_finite() && stop_after_one_substep <= 1;
    let least = unsafe { mk_min_dt(total, max_num_substeps) };
    if !is_good || least.number != 0 {
        // No substep is refused for what belongs to the whole step.
        let answer = lengths(step);
        assert_ne!(answer.number, 0);
        return answer;
    }
    let (mut remaining, mut dts) = (total, dts.iter().map(|dt| f32::from_bits(*dt)));
    for count in 0.. {
        let ended = |end: u32| Lengths { number: 0, index: 0, count, remaining, end };
        let dt = match dts.next() {
            _ if remaining <= 0.0 => return ended(FINISHED),
            _ if stop_after_one_substep == 1 && count == 1 => return ended(ONE_DONE),
            None => return ended(NONE_LEFT),
            Some(dt) => dt,
        };
        let taken = unsafe { mk_substep(remaining, least.length, max_substep_dt, dt) };
        if taken.number != 0 {
            return Lengths { number: taken.number, index: count, count: 0, remaining: 0.0, end: 0 };
        }
        assert_eq!(taken.remaining, remaining - taken.length);
        remaining = taken.remaining;
    }
    unreachable!("proposals end")
}

#[test]
fn a_hosts_own_loop_answers_every_question_alike() {
    replay_with(by_substeps);
}

/// Random settings; proposals that a host finds one by one, and now and then one that breaks its rule.
#[test]
fn random_steps_by_substeps_and_at_once() {
    let mut rng = Rng::new(SEED);
    let mut ends = [0; 3];
    let mut refused = 0;
    for sample in 0..50_000 {
        let step = Step::any(&mut rng);
        let dts = proposals(&step, 1 + rng.below(20) as usize, &mut rng);
        let step = step.with(&dts);
        let answer = lengths(&step);
        assert_eq!(lengths_fields(&answer), lengths_fields(&by_substeps(&step)), "sample {}: {:?}", sample, step);
        match answer.number {
            0 => ends[answer.end as usize] += 1,
            _ => refused += 1,
        }
    }
    assert!(ends.iter().chain([&refused]).all(|count| *count > 1000), "{:?}, {} refused", ends, refused);
}

fn proposals(step: &Step, most: usize, rng: &mut Rng) -> Vec<f32> {
    let min = unsafe { mk_min_dt(step.total, step.max_num_substeps) }.length;
    let (mut remaining, mut found) = (step.total, vec![]);
    while found.len() < most && remaining > 0.0 {
        let limit = remaining.min(step.max_substep_dt);
        let good = proposal(limit, rng).unwrap_or(1.0);
        let bad = rng.one_of(&[f32::NAN, 0.0, -good, f32::INFINITY, 2.0 * limit]);
        let dt = if rng.below(60) == 0 { bad } else { good };
        found.push(dt);
        remaining = unsafe { mk_substep(remaining, min, step.max_substep_dt, dt) }.remaining;
    }
    found
}

fn step(total: f32, max_num_substeps: u32, dts: &[f32]) -> Step {
    let settings = Step { total, max_substep_dt: 0.5, max_num_substeps, stop_after_one_substep: 0, proposals: 0, dts: vec![] };
    settings.with(dts)
}

#[test]
fn lengths_by_hand() {
    let taken = |count: usize, remaining: f32, end: u32| Lengths { number: 0, index: 0, count, remaining, end };
    let refused = |number: u32, index: usize| Lengths { number, index, count: 0, remaining: 0.0, end: 0 };
    assert_eq!(lengths(&step(1.0, 4, &[0.5, 0.25, 0.25])), taken(3, 0.0, FINISHED));
    assert_eq!(lengths(&step(1.0, 4, &[0.5, 0.25])), taken(2, 0.25, NONE_LEFT));
    // Raised to a fourth, as long as more remains than that.
    assert_eq!(lengths(&step(1.0, 4, &[0.125; 4])), taken(4, 0.125, NONE_LEFT));
    assert_eq!(lengths(&step(1.0, 4, &[0.125; 5])), taken(5, 0.0, FINISHED));
    assert_eq!(lengths(&step(1.0, 1, &[1.0 / 64.0; 64])), taken(64, 0.0, FINISHED));
    // What is asked for is one substep; that it finishes comes first.
    let one = |step: Step| Step { stop_after_one_substep: 1, ..step };
    assert_eq!(lengths(&one(step(1.0, 4, &[0.5, f32::NAN]))), taken(1, 0.5, ONE_DONE));
    assert_eq!(lengths(&one(step(0.5, 4, &[0.5, f32::NAN]))), taken(1, 0.0, FINISHED));
    assert_eq!(lengths(&one(step(0.5, 4, &[]))), taken(0, 0.5, NONE_LEFT));
    // A proposal that breaks its rule, where it is taken.
    for bad in [0.0, -0.0, -0.25, 0.50000006, f32::NAN, f32::INFINITY] {
        assert_eq!(lengths(&step(1.0, 4, &[0.25, bad])), refused(4, 1));
        assert_eq!(lengths(&step(0.5, 4, &[0.25, 0.25, bad])), taken(2, 0.0, FINISHED));
    }
    assert_eq!(lengths(&step(0.5, 4, &[0.25, 0.25000003])), refused(4, 1));
    assert_eq!(lengths(&Step { max_substep_dt: 0.0, ..step(1.0, 1, &[1e-45]) }), refused(4, 0));
    assert_eq!(lengths(&Step { max_substep_dt: -1.0, ..step(1.0, 1, &[]) }), taken(0, 1.0, NONE_LEFT));
    // 1 before 3, 3 before 4.
    let worst = Step { total: f32::NAN, max_num_substeps: 0, ..step(1.0, 1, &[f32::NAN]) };
    assert_eq!(lengths(&Step { proposals: 2, ..worst.clone() }), refused(1, 0));
    assert_eq!(lengths(&worst), refused(3, 0));
    assert_eq!(lengths(&Step { max_substep_dt: f32::INFINITY, total: 1.0, ..worst.clone() }), refused(3, 0));
    assert_eq!(lengths(&Step { total: -1.0, ..worst }), refused(4, 0));
    assert_eq!(lengths(&Step { stop_after_one_substep: 2, ..step(0.0, 1, &[]) }), refused(4, 0));
    for total in [0.0, -0.0, -1.5] {
        let answer = lengths(&step(total, 1, &[f32::NAN]));
        assert_eq!((answer, answer.remaining.to_bits()), (taken(0, total, FINISHED), total.to_bits()));
    }
}

#[test]
fn substeps_by_hand() {
    let taken = |length: f32, remaining: f32| Substep { number: 0, index: 0, length, remaining };
    let refused = |number: u32| Substep { number, index: 0, length: 0.0, remaining: 0.0 };
    let substep = |remaining: f32, min: f32, limit: f32, dt: f32| unsafe { mk_substep(remaining, min, limit, dt) };
    assert_eq!(substep(1.0, 0.25, 1.0, 0.5), taken(0.5, 0.5));
    assert_eq!(substep(1.0, 0.25, 1.0, 0.125), taken(0.25, 0.75));
    assert_eq!(substep(0.25, 0.25, 1.0, 0.125), taken(0.125, 0.125));
    assert_eq!(substep(1.0, 0.25, 0.125, 0.125), taken(0.25, 0.75));
    assert_eq!(substep(1.0, 0.25, 1.0, 1.0), taken(1.0, 0.0));
    for bad in [0.0, -0.0, -1.0, 1.0000001, f32::NAN, f32::INFINITY] {
        assert_eq!(substep(1.0, 0.25, 2.0, bad), refused(4));
        assert_eq!(substep(2.0, 0.25, 1.0, bad), refused(4));
    }
    assert_eq!([substep(0.0, 0.25, 1.0, 0.5), substep(-1.0, 0.25, 1.0, 0.5)], [refused(4); 2]);
    for bad in [f32::NAN, f32::INFINITY, f32::NEG_INFINITY] {
        for dt in [0.5, f32::NAN] {
            assert_eq!([substep(bad, 0.25, 1.0, dt), substep(1.0, bad, 1.0, dt), substep(1.0, 0.25, bad, dt)], [refused(3); 3]);
        }
    }
}

#[test]
fn least_lengths_by_hand() {
    let least = |total: f32, count: u32| unsafe { mk_min_dt(total, count) };
    let answer = |number: u32, length: f32| LeastLength { number, index: 0, length };
    assert_eq!([least(1.0, 4), least(-3.0, 2), least(f32::MAX, 1)], [0.25, -1.5, f32::MAX].map(|length| answer(0, length)));
    assert_eq!(least(1.0, 16_777_217), least(1.0, 16_777_216));
    assert_eq!(least(1.0, u32::MAX), answer(0, 1.0 / 4294967296.0));
    let bits = |total: f32, count: u32| least(total, count).length.to_bits();
    assert_eq!([bits(0.0, 3), bits(-0.0, 3), bits(1e-45, u32::MAX)], [0, 0x8000_0000, 0]);
    for total in [f32::NAN, f32::INFINITY, f32::NEG_INFINITY] {
        assert_eq!([0, 1, u32::MAX].map(|count| least(total, count)), [answer(3, 0.0); 3]);
    }
    assert_eq!([0.0, -0.0, 1.0, -1.0, f32::MAX].map(|total| least(total, 0)), [answer(4, 0.0); 5]);
}

/// Nothing is behind a pointer with a count of 0, and NULL is as good as any.
#[test]
fn no_proposals_may_be_null() {
    let answer = |proposals: usize| unsafe { mk_step_lengths(1.0, 1.0, 1, 0, proposals, ptr::null(), 0) };
    assert_eq!(answer(0), Lengths { number: 0, index: 0, count: 0, remaining: 1.0, end: NONE_LEFT });
    for proposals in [1, 1 << 62, 1 << 63, usize::MAX] {
        assert_eq!(answer(proposals), Lengths { number: 1, index: 0, count: 0, remaining: 0.0, end: 0 });
    }
}
