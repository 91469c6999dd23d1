//! Whether what a row asks is true of all events together, some of the clock too (section 5), and what several types ask.

use crate::limits::NO_LIMIT;
use crate::steps::Events;
use crate::types::Constraint;

/// Is the row's definition true of all these events together, at the clock that they close at?
pub fn meets(constraint: &Constraint, events: &impl Events) -> bool {
    constraint.as_type().meets(events)
}

/// Is t lower to upper after s?
pub fn between(lower: u64, upper: u64, s: u64, t: u64) -> bool {
    s <= t && lower <= t - s && t - s <= upper
}

/// Is t at most upper after s, or however late where upper is the mark for no limit (§4.7)?
pub fn not_later(upper: u64, s: u64, t: u64) -> bool {
    upper == NO_LIMIT || t <= s.saturating_add(upper)
}

/// Is t lower to upper after s, where upper may be the mark?
pub fn apart(lower: u64, upper: u64, s: u64, t: u64) -> bool {
    s <= t && lower <= t - s && not_later(upper, s, t)
}

/// Are events span places apart lower to upper apart, where upper may be the mark?
pub fn spans_apart(span: u8, lower: u64, upper: u64, events: &[u64]) -> bool {
    let span = usize::from(span);
    events.windows(span + 1).all(|consecutive| apart(lower, upper, consecutive[0], consecutive[span]))
}

/// Are the events that have none span places after them at most upper before the clock, where upper may be the mark?
pub fn not_silent(span: u8, upper: u64, events: &[u64], clock: u64) -> bool {
    let last = events.len().saturating_sub(usize::from(span));
    events[last..].iter().all(|event| not_later(upper, *event, clock))
}

/// Are neighbours at least minimum apart?
pub fn at_least_apart(minimum: u64, events: &[u64]) -> bool {
    spans_apart(1, minimum, NO_LIMIT, events)
}
