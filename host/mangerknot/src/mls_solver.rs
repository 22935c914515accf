//! Lengths: how a step is cut into substeps by what a host proposes for each.

use crate::refused::Refused;
use mangerknot_sys as sys;

/// The settings of a step.
#[derive(Clone, Copy, Debug, PartialEq)]
pub struct Step {
    /// How long the step is.
    pub total: f32,
    /// The largest that may be proposed; a proposal that is raised to the least length may come out longer.
    pub max_substep_dt: f32,
    /// Makes the least length, [`min_dt`], and bounds no count.
    pub max_num_substeps: u32,
    /// Whether to end after one substep.
    pub stop_after_one_substep: bool,
}

/// The end that a step came to.
#[derive(Clone, Copy, Debug, PartialEq, Eq)]
pub enum End {
    /// Nothing remains.
    Finished,
    /// One substep was done and no more asked for.
    OneDone,
    /// No proposal is left.
    NoneLeft,
}

/// What became of a step.
#[derive(Clone, Copy, Debug, PartialEq)]
pub struct Lengths {
    /// How many substeps it took.
    pub count: usize,
    /// What remains of its total.
    pub remaining: f32,
    /// The end that it came to.
    pub end: End,
}

/// One substep.
#[derive(Clone, Copy, Debug, PartialEq)]
pub struct Substep {
    /// Its length.
    pub length: f32,
    /// What remains after it.
    pub remaining: f32,
}

/// The least length: total over the float nearest to `max_num_substeps`. Refuses 3, where the total is not finite (it may be 0 or less),
/// and 4, where `max_num_substeps` is 0.
///
/// ```
/// use mangerknot::mls_solver::min_dt;
/// assert_eq!(min_dt(1.0, 4)?, 0.25);
/// assert_eq!(min_dt(1.0, 0).unwrap_err().to_string(), "max_num_substeps is 0 (number 4, index 0)");
/// # Ok::<(), mangerknot::Refused>(())
/// ```
pub fn min_dt(total: f32, max_num_substeps: u32) -> Result<f32, Refused> {
    let sys::LeastLength { number, index, length } = archive!(mk_min_dt: total max_num_substeps);
    let sentence = match number {
        0 => return Ok(length),
        3 => not_finite(&[("the total", total)]),
        _ => no_substeps(),
    };
    Err(Refused { number, index, sentence })
}

/// The lengths of a step from what a host proposes for each substep. As long as more than 0 remains, the next proposal is taken. It has to
/// be above 0, and at most what remains and at most `max_substep_dt`; where it is below the least length, [`min_dt`], and more than that
/// remains, the substep is that long instead, even beyond `max_substep_dt`. Before each substep the ends are looked at, in their order; so
/// a single substep that finishes is [`End::Finished`], and proposals behind an end are not looked at. A total of 0 or less remains as it
/// is, with a count of 0.
///
/// Refuses 3, where the total or `max_substep_dt` is not finite (either may be 0 or less); and 4: where `max_num_substeps` is 0, and after
/// that with a proposal's index where it is not as it has to be, as a NaN is. There are as many proposals as are lent, so that a length is
/// never wrong (number 1).
///
/// ```
/// use mangerknot::mls_solver::{step_lengths, End, Step};
/// let step = Step { total: 1.0, max_substep_dt: 0.5, max_num_substeps: 4, stop_after_one_substep: false };
/// let lengths = step_lengths(&step, &[0.125; 5])?;
/// assert_eq!((lengths.count, lengths.remaining, lengths.end), (5, 0.0, End::Finished));
/// let refused = step_lengths(&step, &[0.5, 0.75]).unwrap_err();
/// assert_eq!(refused.to_string(), "proposal 1 is above what it may be at most, 0.5 (number 4, index 1)");
/// # Ok::<(), mangerknot::Refused>(())
/// ```
pub fn step_lengths(step: &Step, proposals: &[f32]) -> Result<Lengths, Refused> {
    let Step { total, max_substep_dt, max_num_substeps, stop_after_one_substep } = *step;
    let stop = u32::from(stop_after_one_substep);
    let sys::Lengths { number, index, count, remaining, end } = archive!(
        mk_step_lengths: total max_substep_dt max_num_substeps stop (proposals.len()) [proposals]
    );
    match (number, end) {
        (0, 0) => Ok(Lengths { count, remaining, end: End::Finished }),
        (0, 1) => Ok(Lengths { count, remaining, end: End::OneDone }),
        (0, _) => Ok(Lengths { count, remaining, end: End::NoneLeft }),
        _ => Err(Refused { number, index, sentence: step.sentence(number, index, proposals) }),
    }
}

/// One such substep, for a host who proposes one at a time: of what remains, the least length, `max_substep_dt` and the proposal. A loop of
/// these over what is left each time, as long as that is above 0, leaves what [`step_lengths`] answers. Refuses 3, where one of the first
/// three is not finite, and 4, where the proposal is not as it has to be; so it is 4 where nothing remains.
///
/// ```
/// use mangerknot::mls_solver::{min_dt, substep};
/// let (mut remaining, least) = (1.0, min_dt(1.0, 4)?);
/// let mut lengths = vec![];
/// while remaining > 0.0 {
///     let taken = substep(remaining, least, 0.5, 0.125)?;
///     lengths.push(taken.length);
///     remaining = taken.remaining;
/// }
/// assert_eq!(lengths, [0.25, 0.25, 0.25, 0.125, 0.125]);
/// # Ok::<(), mangerknot::Refused>(())
/// ```
pub fn substep(remaining_time: f32, min_dt: f32, max_substep_dt: f32, dt: f32) -> Result<Substep, Refused> {
    let answer = archive!(mk_substep: remaining_time min_dt max_substep_dt dt);
    let settings = [("what remains", remaining_time), ("the least length", min_dt), ("max_substep_dt", max_substep_dt)];
    let sentence = |number: u32| match number {
        3 => not_finite(&settings),
        _ => proposal_fault("the proposal", dt, remaining_time.min(max_substep_dt)),
    };
    match answer.number {
        0 => Ok(Substep { length: answer.length, remaining: answer.remaining }),
        number => Err(Refused { number, index: answer.index, sentence: sentence(number) }),
    }
}

fn not_finite(settings: &[(&str, f32)]) -> String {
    let names = settings.iter().filter(|(_, setting)| !setting.is_finite()).map(|(name, _)| *name);
    format!("{} is not finite", names.take(1).collect::<String>())
}

fn no_substeps() -> String {
    "max_num_substeps is 0".to_string()
}

fn proposal_fault(proposal: &str, dt: f32, limit: f32) -> String {
    match dt > limit {
        true => format!("{} is above what it may be at most, {}", proposal, limit),
        false => format!("{} is not above 0", proposal),
    }
}

impl Step {
    fn sentence(&self, number: u32, index: usize, proposals: &[f32]) -> String {
        match number {
            3 => not_finite(&[("the total", self.total), ("max_substep_dt", self.max_substep_dt)]),
            _ if self.max_num_substeps == 0 => no_substeps(),
            _ => {
                let limit = self.remaining_before(index, proposals).min(self.max_substep_dt);
                proposal_fault(&format!("proposal {}", index), proposals.get(index).copied().unwrap_or(f32::NAN), limit)
            }
        }
    }

    /// What remains when a proposal is taken, if those before it were.
    fn remaining_before(&self, index: usize, proposals: &[f32]) -> f32 {
        let least = min_dt(self.total, self.max_num_substeps).unwrap_or(f32::NAN);
        let taken = |remaining, dt: &f32| substep(remaining, least, self.max_substep_dt, *dt).map(|substep| substep.remaining);
        proposals.iter().take(index).try_fold(self.total, taken).unwrap_or(f32::NAN)
    }
}
