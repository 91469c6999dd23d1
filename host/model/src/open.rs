//! When a row is open (§2.4): some continuation is left with which all events together do what it asks.
//!
//! [`open`] tries one continuation, the earliest that the row can use, against the definition. So where it says yes,
//! it has shown the continuation. Where it says no, none does: each type gives the reason where it says which that is, and
//! the tests compare it with [`crate::search::open_by_search`], which tries them all.
//!
//! Both are for rows that pass questions 4 to 7 and 18.

use crate::continuation::{Event, Together};
use crate::meets::meets;
use crate::steps::{Events, History};
use crate::types::Constraint;

/// Does some continuation make the row's definition true of all events together?
pub fn open(constraint: &Constraint, recorded: &History) -> bool {
    meets(constraint, &Together::of(recorded, &earliest_continuation(constraint, recorded)))
}

/// The earliest continuation that the row can use: if any continuation meets the row, this one does. After the close it is the
/// empty one (§2.3).
pub fn earliest_continuation(constraint: &Constraint, recorded: &History) -> Vec<Event> {
    if recorded.closed() { Vec::new() } else { constraint.as_type().earliest_continuation(recorded) }
}

/// Further events of one stream, one for each bound: each as early as its bound, the clock and the event before allow.
/// In any list of events not before these bounds, none is earlier than here.
pub fn earliest(recorded: &History, stream: u8, bounds: impl Iterator<Item = u64>) -> Vec<Event> {
    let mut free = Together::of(recorded, &[]).first_free(stream);
    let at_bound = |bound: u64| {
        let time = bound.max(free);
        free = time + 1;
        Event { stream, time }
    };
    bounds.map(at_bound).collect()
}

/// The missing partners of recorded events in pairs by index: targets at least lower after their source, or sources. Of a
/// pair beyond the larger recorded number both members would be further events: without them the rest still fits.
///
/// The other members are recorded, so a missing target has a first and a last place, whatever else comes; the earliest
/// list that keeps the first places keeps the last ones if any list does. A missing source is not before the clock and
/// so not before its target: it can only be too late.
pub fn partners(recorded: &History, source: u8, target: u8, lower: u64) -> Vec<Event> {
    let (sources, targets) = (recorded.times(source), recorded.times(target));
    let source_surplus = sources.iter().skip(targets.len());
    let target_surplus = targets.iter().skip(sources.len());
    let mut further = earliest(recorded, target, source_surplus.map(|time| time + lower));
    further.extend(earliest(recorded, source, target_surplus.map(|_| 0)));
    further
}
