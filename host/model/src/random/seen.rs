//! What a random test has come across, so that a test which never saw a case fails.

use crate::meets::meets;
use crate::monitor::{Monitor, Verdict};
use crate::steps::Step;
use crate::types::{Constraint, TYPES};
use std::collections::BTreeMap;

/// How often each refusal number, and each verdict of each row type, was seen.
#[derive(Clone, Debug, Default, PartialEq, Eq)]
pub struct Seen {
    refusals: BTreeMap<u8, u64>,
    /// By type byte: open, kept, broken.
    verdicts: BTreeMap<u8, [u64; 3]>,
    /// By type byte: broken by silence at a tick, at an event of another kind; kept with the clock at the last moment.
    silences: BTreeMap<u8, [u64; 3]>,
}

impl Seen {
    /// Counts a refusal number.
    pub fn refusal(&mut self, number: u8) {
        *self.refusals.entry(number).or_default() += 1;
    }

    /// Counts the refusal in an answer, if it is one, and hands the answer on.
    pub fn answer<T>(&mut self, answer: Result<T, u8>) -> Result<T, u8> {
        answer.inspect_err(|number| self.refusal(*number))
    }

    /// Counts what a row reads.
    pub fn verdict(&mut self, row: &Constraint, verdict: Verdict) {
        let column = match verdict {
            Verdict::Open => 0,
            Verdict::Kept => 1,
            Verdict::Broken(_) => 2,
        };
        self.verdicts.entry(row.type_byte()).or_default()[column] += 1;
    }

    /// Counts what silence did, at the step just taken, to rows that have their events again and again.
    pub fn silence(&mut self, monitor: &Monitor) {
        let recorded = monitor.recorded();
        let Some(step) = monitor.steps().last() else { return };
        for (row, verdict) in monitor.rows().iter().zip(monitor.verdicts()) {
            let broken_now = verdict == Verdict::Broken(recorded.count());
            let last_moment = || !meets(row, &recorded.after(Step::Tick { time: recorded.clock() + 1 }));
            let column = match step {
                Step::Tick { .. } if broken_now => 0,
                Step::Event { kind, .. } if broken_now && !row.kinds().contains(kind) => 1,
                Step::Close if verdict == Verdict::Kept && last_moment() => 2,
                _ => continue,
            };
            self.silences.entry(row.type_byte()).or_default()[column] += 1;
        }
    }

    /// How often this refusal number was seen.
    pub fn refusals(&self, number: u8) -> u64 {
        self.refusals.get(&number).copied().unwrap_or_default()
    }

    /// Fails the test if one of these refusal numbers was not seen.
    ///
    /// # Panics
    /// With the numbers that are missing.
    pub fn demand_refusals(&self, numbers: impl IntoIterator<Item = u8>) {
        let missing: Vec<u8> = numbers.into_iter().filter(|number| self.refusals(*number) == 0).collect();
        assert!(missing.is_empty(), "refusals never seen: {missing:?}, of {:?}", self.refusals);
    }

    /// Fails the test if a row type was never open, never kept or never broken; but a Comparison is never broken.
    ///
    /// # Panics
    /// With the counts by type.
    pub fn demand_verdicts(&self) {
        self.demand_verdicts_of(TYPES);
    }

    /// Fails the test if one of these row types was never open, never kept or never broken.
    ///
    /// # Panics
    /// With the counts by type.
    pub fn demand_verdicts_of(&self, types: impl IntoIterator<Item = u8>) {
        // a Comparison is true before any step
        let all = |kind| if kind == 17 { 0..2 } else { 0..3 };
        let seen =
            |kind| self.verdicts.get(&kind).is_some_and(|counts| counts[all(kind)].iter().all(|count| *count > 0));
        assert!(types.into_iter().all(seen), "open, kept, broken by type: {:?}", self.verdicts);
    }

    /// Fails the test if silence never broke a Repeat, a Sporadic, a Pattern or an Arbitrary, at a tick and at an event of another
    /// kind, or never left one kept at the last moment; or if it ever did that to a Burst, a Repetition or a Comparison.
    ///
    /// # Panics
    /// With the counts by type.
    pub fn demand_silences(&self) {
        let seen = |kind: &u8| self.silences.get(kind).is_some_and(|counts| counts.iter().all(|count| *count > 0));
        let never = |kind: &u8| !self.silences.contains_key(kind);
        assert!([3, 4, 15, 16].iter().all(seen) && [5, 10, 17].iter().all(never), "by silence: {:?}", self.silences);
    }
}
