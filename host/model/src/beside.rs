//! Steps that look the same to one row (§3.10).

use crate::steps::Step;
use crate::types::Constraint;

/// Do the two steps stand beside each other for the row? One event of its kinds in both; or others, with the clocks at
/// the same time after them; or the close in both.
pub fn steps_beside(row: &Constraint, one: Step, other: Step) -> bool {
    if one == Step::Close || other == Step::Close || is_own(row, one) || is_own(row, other) {
        one == other
    } else {
        time_of(one) == time_of(other)
    }
}

/// Do the two lists have one length, and stand beside each other at each place?
pub fn beside(row: &Constraint, one: &[Step], other: &[Step]) -> bool {
    one.len() == other.len() && one.iter().zip(other).all(|(&one, &other)| steps_beside(row, one, other))
}

/// Is the step an event of one of the row's kinds?
pub fn is_own(row: &Constraint, step: Step) -> bool {
    step.kind().is_some_and(|kind| row.kinds().contains(&kind))
}

/// The time that the step leaves the clock at, but for the close, which leaves it where it was.
pub fn time_of(step: Step) -> Option<u64> {
    match step {
        Step::Event { time, .. } | Step::Coloured { time, .. } | Step::Tick { time } => Some(time),
        Step::Close => None,
    }
}
