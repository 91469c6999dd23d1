//! Random lists of events over one Repetition: such as keep it open for many spans, and such as break it, early and late.

use super::Random;
use crate::hidden_points::Spacing;
use crate::limits::REPETITION_SPAN_LIMIT;
use crate::steps::{Events, History, Step};
use crate::types::Repetition;
use std::collections::BTreeMap;

/// Why an event leaves a Repetition no points (§5.10.1 to §5.10.3).
#[derive(Clone, Copy, Debug, PartialEq, Eq, PartialOrd, Ord)]
pub enum Way {
    /// Upper is below the span: no point span places later can rise far enough.
    NoRoom,
    /// A chain, every span-th event, has no points even taken singly: the event is too early, or too late.
    TooEarly,
    TooLate,
    /// Each chain taken singly has its points; they cannot rise as well.
    Rise,
}

/// What became of a row of a span: open with more than this many spans of events, or broken by the event at this place.
#[derive(Clone, Copy, Debug, PartialEq, Eq, PartialOrd, Ord)]
pub enum Outcome {
    OpenBeyondTheSecondSpan,
    BrokenAfterTheFirstSpan(Way),
    BrokenBeyondTheSecondSpan(Way),
}

/// Every outcome that a row of this span can have. With a span of 1 the rise asks nothing more once upper is 1.
pub fn outcomes(span: u8) -> Vec<Outcome> {
    let ways = [Way::TooEarly, Way::TooLate, Way::Rise];
    let possible = |way: &Way| span > 1 || *way != Way::Rise;
    let early = ways.into_iter().filter(possible).map(Outcome::BrokenAfterTheFirstSpan);
    let late = ways.into_iter().filter(possible).map(Outcome::BrokenBeyondTheSecondSpan);
    let first = [Outcome::OpenBeyondTheSecondSpan, Outcome::BrokenAfterTheFirstSpan(Way::NoRoom)];
    first.into_iter().chain(early).chain(late).collect()
}

/// An accepted row of a span: mostly with room for its points, at times with none.
pub fn row(random: &mut Random, span: u8) -> Repetition {
    assert!((1..=REPETITION_SPAN_LIMIT).contains(&span));
    let least = u64::from(span);
    let (lower, upper) = match random.below(16) {
        0 => (0, random.below(least)),
        1..=4 => {
            let length = least * random.from_to(2, 9);
            (length, length)
        }
        _ => {
            let lower = random.below(3 * least + 1);
            (lower, lower.max(least) + random.below(3 * least + 4))
        }
    };
    Repetition { event: random.below(10) as u8, span, lower, upper, jitter: random.below(2 * least + 12) }
}

/// Why a row has no points for the events, of which it had for all but the last.
fn way(spacing: &Spacing, events: &[u64]) -> Way {
    let span = spacing.span;
    let last = events.len() - 1;
    let later = |by: u64| [&events[..last], &[events[last] + by]].concat();
    match () {
        () if spacing.upper < span as u64 => Way::NoRoom,
        () if spacing.each_chain_has_points(events) => Way::Rise,
        // a later time would do, as far as the chains are concerned
        () if (1..=spacing.lower).any(|by| spacing.each_chain_has_points(&later(by))) => Way::TooEarly,
        () => Way::TooLate,
    }
}

/// What became of a row with these events, if it is one of the outcomes: it is open, or broken by the last of them.
pub fn outcome(row: &Repetition, recorded: &History) -> Option<Outcome> {
    let (kind, spacing) = (row.event, row.spacing());
    let events = recorded.times(kind);
    let beyond = events.len() > 2 * spacing.span;
    match (spacing.has_points(events), beyond) {
        (true, true) => Some(Outcome::OpenBeyondTheSecondSpan),
        (true, false) => None,
        (false, true) => Some(Outcome::BrokenBeyondTheSecondSpan(way(&spacing, events))),
        (false, false) => Some(Outcome::BrokenAfterTheFirstSpan(way(&spacing, events))),
    }
}

/// A next step over the row that can be accepted: mostly an event that keeps it open, often the first or the last such
/// one; where there are `wrong_at` events the one right before or behind these. Now and then a tick or an event of
/// another kind.
pub fn next_step(random: &mut Random, row: &Repetition, recorded: &History, wrong_at: usize) -> Step {
    let (kind, spacing) = (row.event, row.spacing());
    let clock = recorded.clock();
    if random.chance(5) {
        return Step::Tick { time: clock + 1 };
    }
    if random.chance(5) && recorded.event_in_order(kind + 20, clock) {
        return Step::Event { kind: kind + 20, time: clock };
    }
    let events = recorded.times(kind);
    let first = events.last().map_or(0, |last| last + 1).max(clock);
    let times = open_times(&spacing, events, first);
    let (Some(&soonest), Some(&latest)) = (times.first(), times.last()) else {
        return Step::Event { kind, time: first };
    };
    let time = match random.below(9) {
        _ if events.len() == wrong_at && soonest > first && random.chance(60) => soonest - 1,
        _ if events.len() == wrong_at => latest + 1,
        0..=2 => soonest,
        3..=5 => latest,
        _ => *random.pick(&times),
    };
    Step::Event { kind, time }
}

/// The times from the first on at which an event leaves the row open; among the first span events, which all do, such as
/// leave a time for those to come.
fn open_times(spacing: &Spacing, events: &[u64], first: u64) -> Vec<u64> {
    let reach = spacing.upper + spacing.jitter;
    let to_come = spacing.span.saturating_sub(events.len()) as u64;
    let last = match events.first() {
        None => first + 9,
        Some(start) if to_come > 0 => (start + reach).saturating_sub(to_come),
        Some(_) => first + reach,
    };
    let open = |time: &u64| spacing.has_points(&[events, &[*time]].concat());
    (first..=last).filter(open).collect()
}

/// How often each outcome was seen, by span.
#[derive(Clone, Debug, Default)]
pub struct SeenOutcomes {
    outcomes: BTreeMap<(u8, Outcome), u64>,
}

impl SeenOutcomes {
    /// Counts an outcome.
    pub fn outcome(&mut self, span: u8, outcome: Outcome) {
        *self.outcomes.entry((span, outcome)).or_default() += 1;
    }

    /// Fails the test if one was not seen of some span.
    ///
    /// # Panics
    /// With the outcomes that are missing.
    pub fn demand_all(&self) {
        let all = (1..=REPETITION_SPAN_LIMIT).flat_map(|span| outcomes(span).into_iter().map(move |one| (span, one)));
        let missing: Vec<(u8, Outcome)> = all.filter(|one| !self.outcomes.contains_key(one)).collect();
        assert!(missing.is_empty(), "never seen: {missing:?}, of {:?}", self.outcomes);
    }
}
