//! Steps whose lengths are asked for, written in lines and read again; and settings and proposals that no rule refuses.

use crate::lines::{bits, decimal, folded, unfolded, word};
use crate::random::with_exponent;
use crate::Rng;

/// All that a step's lengths are given. Proposals are kept as bits, so that no NaN loses its pattern.
#[derive(Clone, Debug, PartialEq)]
pub struct Step {
    pub total: f32,
    pub max_substep_dt: f32,
    pub max_num_substeps: u32,
    pub stop_after_one_substep: u32,
    pub proposals: u64,
    pub dts: Vec<u32>,
}

/// What is answered of a step that no rule refuses: how many substeps it took, what remains, and which end it came to.
#[derive(Clone, Copy, Debug, PartialEq)]
pub struct Taken {
    pub count: usize,
    pub remaining: f32,
    pub end: u32,
}

/// The ends of a step: nothing remains, one substep was done and no more was asked for, no proposal is left.
pub const FINISHED: u32 = 0;
pub const ONE_DONE: u32 = 1;
pub const NONE_LEFT: u32 = 2;

impl Step {
    /// The step with these proposals, as many as there are.
    pub fn with(&self, dts: &[f32]) -> Step {
        Step { proposals: dts.len() as u64, dts: dts.iter().map(|dt| dt.to_bits()).collect(), ..self.clone() }
    }

    /// The step's fields: settings, how many proposals there are said to be, and these, of which many in a row can be one.
    pub fn fields(&self) -> Vec<String> {
        let dts: Vec<String> = self.dts.iter().map(|dt| word(*dt)).collect();
        let counts = [self.max_num_substeps, self.stop_after_one_substep].map(|count| count.to_string());
        let settings = [self.total, self.max_substep_dt].map(|setting| word(setting.to_bits()));
        [&settings[..], &counts, &[self.proposals.to_string()], &folded(&dts)].concat()
    }

    /// A step from its fields; anything else is a fault of the file.
    pub fn from_fields(fields: &[&str]) -> Step {
        match *fields {
            [total, max_substep_dt, max_num_substeps, stop_after_one_substep, proposals, ref dts @ ..] => Step {
                total: f32::from_bits(bits(total)),
                max_substep_dt: f32::from_bits(bits(max_substep_dt)),
                max_num_substeps: decimal(max_num_substeps),
                stop_after_one_substep: decimal(stop_after_one_substep),
                proposals: decimal(proposals),
                dts: unfolded(dts).map(bits).collect(),
            },
            _ => panic!("no step: {:?}", fields),
        }
    }

    /// Settings that are accepted, with no proposals yet.
    pub fn any(rng: &mut Rng) -> Step {
        let total = any_total(rng);
        let count = rng.word() >> rng.below(32);
        Step {
            total,
            max_substep_dt: any_limit(total, rng),
            max_num_substeps: rng.one_of(&[1, 1, 2, 3, 7, 10, 100, 1000, 16_777_217, u32::MAX, count.max(1)]),
            stop_after_one_substep: rng.one_of(&[0, 0, 0, 1]),
            proposals: 0,
            dts: vec![],
        }
    }
}

/// Mostly everyday, now and then nothing, less, very little or very much.
fn any_total(rng: &mut Rng) -> f32 {
    let (everyday, any) = (rng.between(0.001, 2.0), with_exponent(0, 254, rng));
    let special = rng.one_of(&[1.0, 1.0 / 60.0, 0.1, 1e-45, 3e-45, f32::MIN_POSITIVE, f32::MAX, 0.0, -0.0, -1.0]);
    rng.one_of(&[everyday, everyday, everyday, any.abs(), any.abs(), any, special, special])
}

/// Above the total, a part of it, or anything.
fn any_limit(total: f32, rng: &mut Rng) -> f32 {
    let (part, any) = (total * rng.between(0.01, 1.0), with_exponent(0, 254, rng));
    rng.one_of(&[f32::MAX, f32::MAX, total, part, part, any.abs(), any])
}

/// A proposal of at most this: all of it, the next below it, a part, very little, or anything; none where there can be none.
pub fn proposal(limit: f32, rng: &mut Rng) -> Option<f32> {
    let below = f32::from_bits(limit.to_bits().saturating_sub(1));
    let (part, half, any) = (limit * rng.between(0.0, 1.0), limit * 0.5, with_exponent(0, 254, rng).abs());
    let proposed = rng.one_of(&[limit, limit, below, part, part, half, 1e-45, any.min(limit), limit * 0.01]);
    (limit > 0.0).then(|| if proposed > 0.0 { proposed } else { limit })
}

#[cfg(test)]
mod tests {
    use super::*;

    #[test]
    fn proposals_keep_their_rule() {
        let mut rng = Rng::new(12);
        let mut at_the_limit = 0;
        for _ in 0..10_000 {
            let limit = any_limit(any_total(&mut rng), &mut rng);
            match proposal(limit, &mut rng) {
                Some(dt) => assert!(dt > 0.0 && dt <= limit, "{} of {}", dt, limit),
                None => assert!(limit <= 0.0),
            }
            at_the_limit += usize::from(proposal(limit, &mut rng) == Some(limit));
        }
        assert!((1000..5000).contains(&at_the_limit));
    }

    #[test]
    fn what_is_written_is_read_again() {
        let mut rng = Rng::new(11);
        for count in 0..200 {
            let step = Step::any(&mut rng);
            let dts: Vec<f32> = (0..count).map(|place| if place % 7 < 4 { 0.5 } else { rng.between(0.0, 1.0) }).collect();
            let step = Step { proposals: rng.number(), ..step.with(&dts) };
            let fields = step.fields();
            assert_eq!(Step::from_fields(&fields.iter().map(String::as_str).collect::<Vec<_>>()), step);
            assert!(count < 4 || fields.len() < 5 + count);
        }
    }
}
