//! Questions to the lengths of a step: to all of them, to one substep, and to the least length. What is refused is `reading`'s answer. Of a
//! step that is not refused the lengths are those of the loop in the handed-over `MlsSolver::step`, whose stages run on one particle that
//! stands still, and whose proposals come from a host who has the question's (`sparkl/lengths.rs`). It keeps what remains to itself:
//! that is worked out of its lengths, and is what it tells the host before each substep. Of single substeps those that a step took are the
//! Rust's, and of least lengths those that its loop shows; the others are `reading`'s.

use super::floats::{near, written, WILD};
use super::{decimal, word, Sheet, OF_BOTH};
use crate::reading::{self, Refusal, Substep};
use crate::rng::{Rng, SEED};
use samples::lengths::{proposal, Step, Taken};
use sparkl2d::lengths::{course_of, random_course, Course};

const LEGEND: [&str; 14] = [
    "Fields, between tabs: W an f32's bits in 8 hex digits, D a decimal.",
    "t the lengths of a step W W D D D W.. = D D D W D: total, max_substep_dt; max_num_substeps, stop_after_one_substep; how many",
    "  proposals there are said to be, and these, W*D for so many in a row that are the same. Number and index; how many substeps were",
    "  done, what remains, and which end it came to: 0 nothing remains, 1 one substep was done and no more asked for, 2 no proposal is",
    "  left. Where the number is not 0, these three are 0",
    "s one substep W W W W = D D W W: what remains, the least length, max_substep_dt, the proposal. Number and index; the length, and",
    "  what remains after it. Where the number is not 0, these two are +0",
    "m the least length W D = D D W: total, max_num_substeps. Number and index; the length, which is +0 where the number is not 0",
    "A NaN of an answer is 7FC00000.",
    "Numbers are `reading`'s. Of a step that is done, count and end are the Rust's, and what remains is what it tells before each",
    "substep and, after the last, the one before less the last length. Of single substeps those of such steps are the Rust's, and of",
    "least lengths those that are above the least f32 and below the total, to which its loop raises a proposal of the least f32; the",
    "others are `reading`'s.",
    "End of the header.",
];

pub fn make() -> Sheet {
    let sources = ["src/dynamics/solver/mls_solver.rs", "src/dynamics/solver/mpm_hooks.rs"];
    let mut book = Steps { sheet: Sheet::titled("Lengths", OF_BOTH, &sources, &LEGEND), rng: Rng::new(SEED) };
    book.by_hand();
    book.totals();
    book.about_the_least();
    book.proposals_about_their_rule();
    book.not_looked_at();
    book.refused_settings();
    book.at_random();
    book.damaged();
    book.single_substeps();
    book.least_lengths();
    book.sheet
}

/// The sheet, and what its random questions come from.
struct Steps {
    sheet: Sheet,
    rng: Rng,
}

/// A step of this total and these proposals, with no other limit.
fn step(total: f32, max_num_substeps: u32, dts: &[f32]) -> Step {
    let settings =
        Step { total, max_substep_dt: f32::MAX, max_num_substeps, stop_after_one_substep: 0, proposals: 0, dts: vec![] };
    settings.with(dts)
}

/// The step that asks for one substep.
fn stopping(step: &Step) -> Step {
    Step { stop_after_one_substep: 1, ..step.clone() }
}

fn taken_fields(answer: &Result<Taken, Refusal>) -> Vec<String> {
    let (refusal, taken) = match answer {
        Ok(taken) => (&Refusal { number: 0, index: 0 }, *taken),
        Err(refusal) => (refusal, Taken { count: 0, remaining: 0.0, end: 0 }),
    };
    let Taken { count, remaining, end } = taken;
    let refusal = [decimal(refusal.number), decimal(refusal.index as u64)];
    [&refusal[..], &[decimal(count as u64), word(written(remaining)), decimal(end)]].concat()
}

fn substep_fields(answer: &Result<Substep, Refusal>) -> Vec<String> {
    let (number, index, length, remaining) = match answer {
        Ok(substep) => (0, 0, substep.length, substep.remaining),
        Err(refusal) => (refusal.number, refusal.index, 0.0, 0.0),
    };
    vec![decimal(number), decimal(index as u64), word(written(length)), word(written(remaining))]
}

fn least_fields(answer: &Result<f32, Refusal>) -> Vec<String> {
    let (number, index, length) = match answer {
        Ok(length) => (0, 0, *length),
        Err(refusal) => (refusal.number, refusal.index, 0.0),
    };
    vec![decimal(number), decimal(index as u64), word(written(length))]
}

/// The least length where the Rust's loop shows it, which raises the least proposal that there is to it.
pub fn shown_least(total: f32, max_num_substeps: u32) -> Option<f32> {
    let proposed = f32::from_bits(1);
    let course = course_of(&step(total, max_num_substeps, &[proposed]));
    course.lengths.first().copied().filter(|length| *length != proposed)
}

/// Each substep of a course: what it was given, and what became of it.
fn substeps(step: &Step, course: &Course) -> Vec<([f32; 4], Substep)> {
    let (min, mut before) = (reading::least_length(step.total, step.max_num_substeps), step.total);
    let pairs = course.proposals.iter().zip(&course.lengths);
    let substep = |(proposal, length): (&f32, &f32)| {
        let given = [before, min, step.max_substep_dt, *proposal];
        before -= length;
        (given, Substep { length: *length, remaining: before })
    };
    pairs.map(substep).collect()
}

impl Steps {
    /// Asks about a step; of one that is done, its first substeps, and as one that asks for one substep too.
    fn ask(&mut self, step: &Step) {
        for step in [step.clone(), stopping(step)] {
            let answer = reading::step_lengths(&step).map(|_| self.rusts(&step));
            self.sheet.row("t", step.fields(), taken_fields(&answer));
        }
    }

    /// What the Rust makes of a step that is not refused, and questions of its substeps.
    fn rusts(&mut self, step: &Step) -> Taken {
        let course = course_of(step);
        for (given, substep) in substeps(step, &course).into_iter().take(4) {
            self.row_of_substep(given, &Ok(substep));
        }
        course.taken(step)
    }

    fn ask_substep(&mut self, [remaining, min, max_substep_dt, dt]: [f32; 4]) {
        self.row_of_substep([remaining, min, max_substep_dt, dt], &reading::substep(remaining, min, max_substep_dt, dt));
    }

    fn row_of_substep(&mut self, given: [f32; 4], answer: &Result<Substep, Refusal>) {
        self.sheet.row("s", given.iter().map(|number| word(number.to_bits())).collect(), substep_fields(answer));
    }

    fn ask_least(&mut self, total: f32, max_num_substeps: u32) {
        let answer = reading::min_dt(total, max_num_substeps);
        let answer = answer.map(|least| shown_least(total, max_num_substeps).unwrap_or(least));
        self.sheet.row("m", vec![word(total.to_bits()), decimal(max_num_substeps)], least_fields(&answer));
    }

    /// The cases that document 01 and docs/DECISIONS.md name, one by one.
    fn by_hand(&mut self) {
        for (total, count, dts) in HAND {
            self.ask(&step(*total, *count, dts));
            self.ask(&Step { max_substep_dt: 0.5, ..step(*total, *count, dts) });
        }
        // Many more substeps than max_num_substeps, which bounds nothing.
        for count in [1, 2, 4] {
            self.ask(&step(1.0, count, &[1.0 / 1024.0; 1024]));
            self.ask(&step(1.0, count, &[1.0 / 1024.0; 1000]));
        }
        // So little that nothing is taken off.
        self.ask(&step(1.0, 1, &[1e-30; 5000]));
        self.ask(&step(f32::MAX, 1, &[1.0; 300]));
    }

    /// Totals of every size, each taken at once, by halves, and by what is raised.
    fn totals(&mut self) {
        for total in TOTALS {
            for count in COUNTS {
                self.ask(&step(total, count, &[]));
                self.ask(&step(total, count, &[total]));
                self.ask(&step(total, count, &[total * 0.5, total * 0.5]));
                self.ask(&step(total, count, &[1e-45; 4]));
                self.ask(&step(total, count, &[total * 0.25, 1e-45, total * 0.5, total]));
                self.ask(&Step { max_substep_dt: total * 0.25, ..step(total, count, &[total * 0.25; 5]) });
            }
        }
    }

    /// Proposals and what remains about the least length: below it, it itself and above it.
    fn about_the_least(&mut self) {
        let few = [(1.0, 2), (1.0, 3), (1.0, 10), (0.1, 7), (1e-44, 3), (f32::MAX, 2), (3.0, 1)];
        // Counts that an f32 has no place for, and totals of which so little remains that the least length shows in it.
        let many = [(1.0, 16_777_217), (1.0, 16_777_219), (0.3, 16_777_219), (1.0, 33_554_435), (1.0, u32::MAX)];
        for (total, count) in few.into_iter().chain(many) {
            let min = reading::least_length(total, count);
            for dt in near(min, 2) {
                self.ask(&step(total, count, &[dt, dt, dt]));
            }
            // What remains after the first is about the least length, and the second is below it.
            for rest in near(min, 2) {
                let first = total - rest;
                self.ask(&step(total, count, &[first, rest * 0.5]));
                self.ask(&step(total, count, &[first, rest * 0.5, rest]));
                self.ask(&step(total, count, &[first, total - first]));
            }
        }
    }

    /// Proposals at what remains and at max_substep_dt, next to them, and what is no length.
    fn proposals_about_their_rule(&mut self) {
        for (total, count) in [(1.0, 1), (1.0, 4), (1e-45, 1), (f32::MAX, 3), (0.1, 1000)] {
            let quarter = reading::least_length(total, 4).max(1e-45);
            for first in [vec![], vec![quarter], vec![quarter; 2]] {
                let remaining = first.iter().fold(total, |rest, dt| rest - dt);
                let about = near(remaining, 1).into_iter().chain(near(total, 1)).chain(NO_LENGTHS);
                for dt in about.chain(WILD) {
                    self.ask(&step(total, count, &[&first[..], &[dt]].concat()));
                }
            }
            for limit in near(quarter, 1).into_iter().chain([0.0, -0.0, -1.0, 1e-45, f32::MAX, f32::MIN]) {
                for dt in near(limit, 1).into_iter().chain([quarter, 1e-45]) {
                    self.ask(&Step { max_substep_dt: limit, ..step(total, count, &[dt, dt]) });
                }
                self.ask(&Step { max_substep_dt: limit, ..step(total, count, &[]) });
            }
        }
    }

    /// What stands behind an end is not looked at, whatever it is; in front of it, it is.
    fn not_looked_at(&mut self) {
        for bad in NO_LENGTHS.into_iter().chain([f32::MAX]) {
            for total in [1.0, 0.0, -0.0, -1.0] {
                self.ask(&step(total, 2, &[1.0, bad]));
                self.ask(&step(total, 2, &[0.5, 0.5, bad, bad]));
                self.ask(&step(total, 2, &[0.5, bad, 0.5]));
                self.ask(&step(total, 2, &[bad]));
                self.ask(&step(total, 2, &[bad, bad]));
            }
        }
    }

    /// What is refused of settings, with good proposals and with bad ones, and more than one at a time.
    fn refused_settings(&mut self) {
        let good = step(1.0, 2, &[0.5, 0.5]);
        let bad = step(1.0, 2, &[f32::NAN]);
        for base in [&good, &bad, &step(-1.0, 2, &[]), &step(0.0, 1, &[0.5])] {
            let length = base.dts.len() as u64;
            for proposals in [0, 1, 2, 3, length + 1, 1 << 32, length + (1 << 32), 1 << 62, length + (1 << 63), u64::MAX] {
                self.ask(&Step { proposals, ..base.clone() });
                self.ask(&Step { proposals, total: f32::NAN, max_num_substeps: 0, ..base.clone() });
            }
            for bits in NOT_FINITE.map(f32::from_bits) {
                for other in [base.clone(), Step { max_num_substeps: 0, ..base.clone() }] {
                    self.ask(&Step { total: bits, ..other.clone() });
                    self.ask(&Step { max_substep_dt: bits, ..other.clone() });
                    self.ask(&Step { total: bits, max_substep_dt: bits, ..other });
                }
            }
            self.ask(&Step { max_num_substeps: 0, ..base.clone() });
            for stop_after_one_substep in [2, 3, 256, 1 << 31, u32::MAX] {
                for max_num_substeps in [0, 1, 2] {
                    let step = Step { stop_after_one_substep, max_num_substeps, ..base.clone() };
                    self.sheet.row("t", step.fields(), taken_fields(&reading::step_lengths(&step)));
                }
            }
        }
    }

    /// Settings of any kind, and a host who proposes at random.
    fn at_random(&mut self) {
        for place in 0..600 {
            let settings = Step::any(&mut self.rng);
            let dts = random_course(&settings, [3, 8, 30][place % 3], &mut self.rng).proposals;
            self.ask(&settings.with(&dts));
            let behind = [&dts[..], &[f32::NAN, -1.0]].concat();
            self.ask(&settings.with(&behind));
        }
    }

    /// Good proposals with one that is not, at each place.
    fn damaged(&mut self) {
        for place in 0..60 {
            let settings = Step { stop_after_one_substep: 0, ..Step::any(&mut self.rng) };
            let dts = random_course(&settings, 12, &mut self.rng).proposals;
            for at in 0..dts.len() {
                let mut other = dts.clone();
                other[at] = NO_LENGTHS[(place + at) % NO_LENGTHS.len()];
                self.ask(&settings.with(&other));
            }
        }
    }

    /// Substeps that no step takes, and numbers of every kind at each place.
    fn single_substeps(&mut self) {
        let base = [1.0, 0.25, 0.5, 0.125];
        for place in 0..4 {
            for number in WILD.into_iter().chain(NO_LENGTHS).chain(NOT_FINITE.map(f32::from_bits)) {
                let mut given = base;
                given[place] = number;
                self.ask_substep(given);
                // With a proposal that breaks its rule.
                given[3] = if place == 3 { number } else { f32::NAN };
                self.ask_substep(given);
            }
        }
        let near = |number: f32| near(number, 1);
        for remaining in near(0.5) {
            for min in near(0.25).into_iter().chain(near(0.5)).chain([0.0, -0.0, -1.0, f32::MAX, f32::MIN]) {
                for dt in near(0.25).into_iter().chain(near(0.5)).chain([1e-45]) {
                    self.ask_substep([remaining, min, f32::MAX, dt]);
                    self.ask_substep([remaining, min, 0.25, dt]);
                }
            }
        }
        for _ in 0..600 {
            let numbers: Vec<f32> = (0..3).map(|_| proposal(f32::MAX, &mut self.rng).expect("above 0")).collect();
            let limit = numbers[0].min(numbers[2]);
            let dt = proposal(limit, &mut self.rng).expect("above 0");
            let beyond = self.rng.one_of(&[dt, dt, dt, limit * 1.5, f32::from_bits(limit.to_bits() + 1), -dt]);
            self.ask_substep([numbers[0], numbers[1], numbers[2], beyond]);
        }
    }

    fn least_lengths(&mut self) {
        for total in TOTALS.into_iter().chain(WILD).chain(NOT_FINITE.map(f32::from_bits)) {
            for count in COUNTS.into_iter().chain([0]) {
                self.ask_least(total, count);
            }
        }
        // Counts about those that an f32 has no place for.
        for exponent in 24..32 {
            let half = 1u32 << (exponent - 24);
            for count in (0..8).map(|more| (1u32 << exponent) + more * half) {
                (count - 1..=count + 1).for_each(|count| self.ask_least(1.0, count));
                self.ask_least(0.1, count);
            }
        }
        for _ in 0..300 {
            let (total, count) = (f32::from_bits(self.rng.word()), self.rng.word() >> self.rng.below(32));
            self.ask_least(total, count);
        }
        // No substeps, a total that is not finite, and both.
        for _ in 0..60 {
            let (total, other) = (f32::from_bits(self.rng.word()), f32::from_bits(self.rng.word() | 0x7F80_0000));
            let count = self.rng.word() >> self.rng.below(32);
            [(total, 0), (other, count), (other, 0)].iter().for_each(|(total, count)| self.ask_least(*total, *count));
        }
    }
}

/// Total, max_num_substeps and proposals.
const HAND: &[(f32, u32, &[f32])] = &[
    // Taken as proposed, to the end and not to it.
    (1.0, 4, &[0.25, 0.25, 0.25, 0.25]),
    (1.0, 4, &[0.5, 0.25, 0.25]),
    (1.0, 4, &[0.5, 0.25]),
    (1.0, 4, &[]),
    (1.0, 1, &[1.0]),
    // Raised to the least length, where more than that remains.
    (1.0, 4, &[0.125, 0.125, 0.125, 0.125]),
    (1.0, 4, &[0.125, 0.25, 0.5]),
    (1.0, 2, &[0.125, 0.5]),
    // Just the least length remains, or less: nothing is raised.
    (1.0, 2, &[0.5, 0.125, 0.375]),
    (1.0, 2, &[0.75, 0.125, 0.125]),
    (1.0, 1, &[0.5, 0.25, 0.125, 0.125]),
    // A proposal of more than remains, after one that was raised.
    (1.0, 4, &[0.125, 0.875]),
    (1.0, 4, &[0.125, 0.75]),
    (-1.0, 1, &[0.5]),
    (0.0, 1, &[0.5]),
    (-0.0, 1, &[]),
];

/// Nothing, less, little and much.
const TOTALS: [f32; 14] =
    [0.0, -0.0, -1e-45, -1.0, f32::MIN, 1e-45, 3e-45, f32::MIN_POSITIVE, 1e-20, 1.0, 0.1, 1.0 / 60.0, 1e20, f32::MAX];

/// One, few, many, and counts that an f32 has no place for.
const COUNTS: [u32; 10] = [1, 2, 3, 10, 1000, 16_777_215, 16_777_217, 16_777_219, 1 << 31, u32::MAX];

/// What no proposal may be, whatever remains.
const NO_LENGTHS: [f32; 8] = [0.0, -0.0, -1e-45, -0.25, f32::MIN, f32::NAN, f32::INFINITY, f32::NEG_INFINITY];

const NOT_FINITE: [u32; 5] = [0x7F80_0000, 0xFF80_0000, 0x7FC0_0000, 0x7F80_0001, 0xFFFF_FFFF];

#[cfg(test)]
mod tests {
    use super::*;
    use crate::vectors::format::{answered, counts, rows};
    use samples::lengths::{FINISHED, NONE_LEFT, ONE_DONE};
    use std::collections::BTreeMap;

    /// The steps of a sheet, with their answers.
    fn steps(sheet: &Sheet) -> Vec<(Step, Vec<String>)> {
        let of_steps = rows(sheet).filter(|(question, _)| question[0] == "t");
        of_steps
            .map(|(question, answer)| (Step::from_fields(&question[1..]), answer.into_iter().map(String::from).collect()))
            .collect()
    }

    #[test]
    fn every_line_has_its_fields_and_every_step_is_read_again() {
        let sheet = make();
        let found = counts(&sheet, |question| match question[0] {
            "t" => ("WWDDD".to_string() + &"*".repeat(question.len() - 6), "DDDFD".to_string()),
            "s" => ("WWWW".to_string(), "DDFF".to_string()),
            _ => ("WD".to_string(), "DDF".to_string()),
        });
        assert!(found.iter().map(|(letter, _)| letter.as_str()).eq(["m", "s", "t"]));
        assert!(found["t"] > 5000 && found["s"] > 2000 && found["m"] > 500);
        for (question, _) in rows(&sheet).filter(|(question, _)| question[0] == "t") {
            assert!(Step::from_fields(&question[1..]).fields().iter().eq(&question[1..]));
        }
    }

    #[test]
    fn every_number_and_every_end_is_answered_often() {
        let sheet = make();
        let found = answered(&sheet, "tsm");
        let of = |letter: &str, number: u32| &found[&(letter.to_string(), number)];
        assert!(found.keys().map(|(letter, number)| (letter.as_str(), *number)).eq([
            ("m", 0),
            ("m", 3),
            ("m", 4),
            ("s", 0),
            ("s", 3),
            ("s", 4),
            ("t", 0),
            ("t", 1),
            ("t", 3),
            ("t", 4)
        ]));
        assert!(found.values().all(|(count, _)| *count >= 30));
        let others = [of("t", 1), of("t", 3), of("s", 4), of("m", 3), of("m", 4)];
        assert!(of("t", 4).1.len() > 8 && others.iter().all(|(_, indices)| indices.len() == 1));
        let mut ends: BTreeMap<String, usize> = BTreeMap::new();
        for (_, answer) in steps(&sheet).into_iter().filter(|(_, answer)| answer[0] == "0") {
            *ends.entry(answer[4].clone()).or_default() += 1;
        }
        assert!([FINISHED, ONE_DONE, NONE_LEFT].iter().all(|end| ends[&end.to_string()] > 500), "{:?}", ends);
    }

    /// Some steps take more substeps than max_num_substeps, some have proposals left, and where something remains it is above 0.
    #[test]
    fn what_the_steps_are_like() {
        let (mut beyond, mut left_over, mut raised) = (0, 0, 0);
        for (step, answer) in steps(&make()).into_iter().filter(|(_, answer)| answer[0] == "0") {
            let (course, count) = (course_of(&step), answer[2].parse::<usize>().unwrap());
            beyond += usize::from(count > step.max_num_substeps as usize);
            left_over += usize::from(count < step.dts.len());
            raised += usize::from(course.lengths != course.proposals);
            let remaining = f32::from_bits(u32::from_str_radix(&answer[3], 16).unwrap());
            assert!(remaining > 0.0 || answer[4] == "0");
            assert!(step.total <= 0.0 || remaining >= 0.0);
        }
        assert!([beyond, left_over, raised].iter().all(|count| *count > 200), "{:?}", [beyond, left_over, raised]);
    }

    /// total/max_num_substeps, with one thing wrong about it.
    fn quotient(total: f32, count: u32, wrong: &str) -> f32 {
        let nearest = count as f32;
        match wrong {
            "count cut to an f32" => total / f32::from_bits(nearest.to_bits() - u32::from(nearest as u64 > u64::from(count))),
            "least length in f64" => (f64::from(total) / f64::from(count)) as f32,
            "least length by an inverse" => total * (1.0 / nearest),
            _ => total / nearest,
        }
    }

    /// Document 01 and docs/DECISIONS.md on lengths once more, with one thing wrong about them.
    fn by_hand(step: &Step, wrong: &str) -> Result<Taken, Refusal> {
        let Step { total, max_substep_dt, max_num_substeps, stop_after_one_substep, proposals, dts } = step;
        let dts: Vec<f32> = dts.iter().map(|dt| f32::from_bits(*dt)).collect();
        let refused = |number: u32, index: usize| Err(Refusal { number, index });
        let settings = [
            (1, dts.len() as u64 == *proposals || wrong == "lengths not compared"),
            (3, total.is_finite() || wrong == "total not looked at"),
            (3, max_substep_dt.is_finite() || wrong == "max_substep_dt not looked at"),
            (4, *max_num_substeps != 0 || wrong == "max_num_substeps not looked at"),
            (4, *stop_after_one_substep < 2 || wrong == "stop flag not looked at"),
        ];
        let mut failing: Vec<u32> = settings.iter().filter(|(_, good)| !good).map(|(number, _)| *number).collect();
        if wrong == "settings backwards" {
            failing.reverse();
        }
        if let Some(number) = failing.first() {
            return refused(*number, 0);
        }
        if wrong == "a total of 0 or less refused" && *total <= 0.0 {
            return refused(3, 0);
        }
        if wrong == "a limit of 0 or less refused" && *max_substep_dt <= 0.0 {
            return refused(3, 0);
        }
        let in_order = |dt: f32, limit: f32| match wrong {
            "limit itself refused" => dt > 0.0 && dt < limit,
            "0 accepted" => dt >= 0.0 && dt <= limit,
            "NaN accepted" => !(dt <= 0.0 || dt > limit),
            "less than 0 accepted" => dt <= limit,
            "proposals cut to the limit" => dt > 0.0,
            _ => dt > 0.0 && dt <= limit,
        };
        if let (true, Some(index)) = (wrong == "every proposal looked at", dts.iter().position(|dt| !in_order(*dt, f32::MAX))) {
            return refused(4, index);
        }
        let mut min = match wrong {
            "least length of the limit" => quotient(*max_substep_dt, *max_num_substeps, wrong),
            "no least length" => 0.0,
            _ => quotient(*total, *max_num_substeps, wrong),
        };
        let (mut remaining, mut count) = (*total, 0);
        loop {
            let finished = if wrong == "finished below 0 alone" { remaining < 0.0 } else { !(remaining > 0.0) };
            let one_done = *stop_after_one_substep == 1 && count == 1;
            let none_left = count >= dts.len() || wrong == "count bounded" && count >= *max_num_substeps as usize;
            let mut ends = [(finished, FINISHED), (one_done, ONE_DONE), (none_left, NONE_LEFT)];
            match wrong {
                "one done before finished" => ends.swap(0, 1),
                "none left before one done" => ends.swap(1, 2),
                "none left first" => ends.rotate_right(1),
                "stop not heard" => ends[1].0 = false,
                _ => {}
            }
            if let Some((_, end)) = ends.iter().find(|(holds, _)| *holds) {
                let answered = match wrong {
                    "what remains is what was asked for" => total - remaining,
                    "nothing remains of nothing" if count == 0 && remaining <= 0.0 => 0.0,
                    _ => remaining,
                };
                return Ok(Taken { count, remaining: answered, end: *end });
            }
            let limit = match wrong {
                "limit of max_substep_dt alone" => *max_substep_dt,
                "limit of what remains alone" => remaining,
                "limit of the total" => total.min(*max_substep_dt),
                _ => remaining.min(*max_substep_dt),
            };
            if count >= dts.len() || !in_order(dts[count], limit) {
                return refused(4, if wrong == "index of settings" { 0 } else { count });
            }
            let dt = if wrong == "proposals cut to the limit" { dts[count].min(limit) } else { dts[count] };
            if wrong == "least length of what remains" {
                min = quotient(remaining, *max_num_substeps, wrong);
            }
            let raised = match wrong {
                "raised where the least remains" => dt < min && remaining >= min,
                "raised whatever remains" => dt < min,
                "raised where twice as much remains" => dt < min && remaining > 2.0 * min,
                "raised by what is left then" => dt < min && remaining - dt > min,
                "raised to the limit at the most" => dt < min && remaining > min && min <= *max_substep_dt,
                _ => dt < min && remaining > min,
            };
            let length = if raised { min } else { dt };
            remaining = match wrong {
                "proposals taken off" => remaining - dt,
                "taken off in f64" => (f64::from(*total) - f64::from(*total - remaining) - f64::from(length)) as f32,
                _ => remaining - length,
            };
            count += 1;
            // What a wrong rule keeps from ending.
            if count > 10_000 {
                return refused(99, count);
            }
        }
    }

    const WRONG: [&str; 39] = [
        "lengths not compared",
        "total not looked at",
        "max_substep_dt not looked at",
        "max_num_substeps not looked at",
        "stop flag not looked at",
        "settings backwards",
        "a total of 0 or less refused",
        "a limit of 0 or less refused",
        "limit itself refused",
        "0 accepted",
        "NaN accepted",
        "less than 0 accepted",
        "proposals cut to the limit",
        "every proposal looked at",
        "count cut to an f32",
        "least length in f64",
        "least length by an inverse",
        "least length of the limit",
        "no least length",
        "finished below 0 alone",
        "count bounded",
        "one done before finished",
        "none left before one done",
        "none left first",
        "stop not heard",
        "what remains is what was asked for",
        "nothing remains of nothing",
        "limit of max_substep_dt alone",
        "limit of what remains alone",
        "limit of the total",
        "index of settings",
        "least length of what remains",
        "raised where the least remains",
        "raised whatever remains",
        "raised where twice as much remains",
        "raised by what is left then",
        "raised to the limit at the most",
        "proposals taken off",
        "taken off in f64",
    ];

    /// What the Rust answers is what document 01 and docs/DECISIONS.md say, and every wrong rule is told from it by some questions.
    #[test]
    fn the_rust_is_document_01s_lengths_and_no_other() {
        let all = steps(&make());
        for (step, answer) in &all {
            assert_eq!(&taken_fields(&reading::step_lengths(step)), answer, "{:?}", step);
        }
        let told = |wrong: &str| all.iter().filter(|(step, answer)| taken_fields(&by_hand(step, wrong)) != *answer).count();
        assert_eq!(told(""), 0);
        for wrong in WRONG {
            assert!(told(wrong) > 0, "{}", wrong);
        }
    }

    /// The Rust, on hosts who propose at random: the reading says the same of the step, and of each of its substeps.
    #[test]
    fn random_steps_are_document_01s() {
        let mut rng = Rng::new(SEED);
        let mut taken = 0;
        for place in 0..60_000 {
            let settings = Step::any(&mut rng);
            let course = random_course(&settings, [2, 8, 40][place % 3], &mut rng);
            let step = settings.with(&course.proposals);
            assert_eq!(reading::step_lengths(&step), Ok(course.taken(&step)), "{:?}", step);
            for ([remaining, min, limit, dt], substep) in substeps(&step, &course) {
                assert_eq!(reading::substep(remaining, min, limit, dt), Ok(substep));
                taken += 1;
            }
        }
        assert!(taken > 100_000, "{}", taken);
    }

    /// What a call of the least length is refused for, and what it answers, with one thing wrong about it.
    fn least_by_hand(total: f32, count: u32, wrong: &str) -> Result<f32, Refusal> {
        let mut rules = [
            (3, !total.is_nan() || wrong == "NaN accepted"),
            (3, total != f32::INFINITY || wrong == "infinity accepted"),
            (3, total != f32::NEG_INFINITY || wrong == "minus infinity accepted"),
            (3, total != 0.0 || wrong != "a total of 0 refused"),
            (3, !(total < 0.0) || wrong != "a total below 0 refused"),
            (4, count != 0 || wrong == "no substeps accepted"),
            (4, count != 1 || wrong != "one substep refused"),
        ];
        if wrong == "count before total" {
            rules.reverse();
        }
        match rules.iter().find(|(_, holds)| !holds) {
            Some(_) if wrong == "refused with 4 throughout" => Err(Refusal { number: 4, index: 0 }),
            Some((number, _)) => Err(Refusal { number: *number, index: 0 }),
            None => Ok(quotient(total, count, wrong)),
        }
    }

    const WRONG_LEAST: [&str; 12] = [
        "NaN accepted",
        "infinity accepted",
        "minus infinity accepted",
        "a total of 0 refused",
        "a total below 0 refused",
        "no substeps accepted",
        "one substep refused",
        "count before total",
        "refused with 4 throughout",
        "count cut to an f32",
        "least length in f64",
        "least length by an inverse",
    ];

    /// The least length is the reading's, which is the Rust's wherever its loop shows it, and every wrong rule is told from it.
    #[test]
    fn the_least_length_is_the_rusts_and_document_01s() {
        let sheet = make();
        let all: Vec<(f32, u32, Vec<&str>)> = rows(&sheet)
            .filter(|(question, _)| question[0] == "m")
            .map(|(question, answer)| {
                let total = f32::from_bits(u32::from_str_radix(question[1], 16).unwrap());
                (total, question[2].parse().unwrap(), answer)
            })
            .collect();
        let done = all.iter().filter(|(_, _, answer)| answer[0] == "0");
        let shown = done.filter(|(total, count, _)| shown_least(*total, *count).is_some()).count();
        assert!(shown > 200, "{}", shown);
        assert!(all.iter().all(|(total, count, answer)| least_fields(&reading::min_dt(*total, *count)) == *answer));
        let told = |wrong: &str| {
            all.iter().filter(|(total, count, answer)| least_fields(&least_by_hand(*total, *count, wrong)) != *answer).count()
        };
        assert_eq!(told(""), 0);
        for wrong in WRONG_LEAST {
            assert!(told(wrong) > 0, "{}", wrong);
        }
    }

    /// What the Rust makes of steps that the table refuses.
    fn goes_on(step: &Step, number: u32, index: usize) -> Course {
        assert_eq!(reading::step_lengths(step), Err(Refusal { number, index }));
        course_of(step)
    }

    #[test]
    fn the_rust_goes_on_where_the_table_refuses() {
        // More than remains: it goes below 0.
        let course = goes_on(&step(1.0, 1, &[1.5]), 4, 0);
        assert_eq!((course.lengths, course.answered), (vec![1.5], Some(1.0)));
        // Less than nothing is raised, and without a least length what remains grows.
        assert_eq!(goes_on(&step(1.0, 2, &[-1.0, 0.5]), 4, 0).lengths, [0.5, 0.5]);
        assert_eq!(goes_on(&step(1.0, 1, &[-1.0]), 4, 0).limits, [1.0, 2.0]);
        // Nothing, so often as it is proposed.
        assert_eq!(goes_on(&step(1.0, 1, &[0.0; 50]), 4, 0).limits, [1.0; 51]);
        // A NaN ends it.
        let course = goes_on(&step(1.0, 4, &[f32::NAN, 0.5]), 4, 0);
        assert_eq!((course.lengths.len(), course.answered), (1, Some(1.0)));
        // The least length is infinite, so that nothing is raised.
        let course = goes_on(&Step { max_num_substeps: 0, ..step(1.0, 1, &[0.25, 0.75]) }, 4, 0);
        assert_eq!((course.lengths, course.answered), (vec![0.25, 0.75], Some(1.0)));
        // An infinite total stays so.
        assert_eq!(goes_on(&step(f32::INFINITY, 4, &[1.0, 2.0]), 3, 0).limits, [f32::MAX; 3]);
    }

    /// The Rust answers the length of one substep that was asked for, and else the total, whatever came of it.
    #[test]
    fn what_the_rust_answers() {
        let halves = step(1.0, 2, &[0.5, 0.5]);
        assert_eq!([course_of(&halves).answered, course_of(&stopping(&halves)).answered], [Some(1.0), Some(0.5)]);
        assert_eq!(course_of(&step(1.0, 2, &[0.5])).answered, None);
        for total in [0.0, -0.0, -2.5] {
            let course = course_of(&step(total, 2, &[0.5]));
            assert_eq!((course.lengths.len(), course.answered), (0, Some(total)));
        }
    }
}
