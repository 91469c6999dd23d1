//! Open, straight from its definition (§2.4), by trying every continuation up to a last time. For small numbers only.

use crate::continuation::{Event, Together};
use crate::steps::{Events, History};
use crate::types::{Constraint, Demand};

/// Does some continuation make the row's definition true of all events together? Tries all up to [`reach`].
pub fn open_by_search(constraint: &Constraint, recorded: &History) -> bool {
    open_within(constraint, recorded, reach(constraint, recorded))
}

/// The same, of the continuations whose events are at most at the time `last`.
///
/// Events of other streams than the row's are not tried: its definition speaks of them only through the clock, which
/// they make later, and a continuation without them is one still. A list of times for each stream, put together by
/// time, is a continuation, in whatever order events of one time stand; and every continuation gives such lists. For
/// the same reason what a definition asks of different streams is tried part by part.
pub fn open_within(constraint: &Constraint, recorded: &History, last: u64) -> bool {
    constraint.as_type().demands().iter().all(|Demand { streams, met }| {
        let tried: &[u8] = if recorded.closed() { &[] } else { streams };
        some_lists_meet(met, tried, last, &mut Together::of(recorded, &[]))
    })
}

/// A time so late that a continuation which meets the row can be chosen with no event after it.
pub fn reach(constraint: &Constraint, recorded: &History) -> u64 {
    constraint.as_type().reach(recorded)
}

/// Is there, for each of these streams, a rising list of further times up to `last` so that the row is met? For the
/// first stream: no more events of it, or one at any free place and then again.
fn some_lists_meet(met: &dyn Fn(&dyn Events) -> bool, streams: &[u8], last: u64, together: &mut Together) -> bool {
    let Some((&stream, later)) = streams.split_first() else {
        return met(together);
    };
    some_lists_meet(met, later, last, together)
        || (together.first_free(stream)..=last).any(|time| {
            together.push(Event { stream, time });
            let found = some_lists_meet(met, streams, last, together);
            together.pop(stream);
            found
        })
}
