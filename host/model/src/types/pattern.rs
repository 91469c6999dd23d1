//! Pattern (§5.15): groups of events, each group at the same offsets after its point, the points a period apart.

use super::{Constraint, RowType, row_type};
use crate::meets::at_least_apart;
use crate::random::Random;
use crate::random::tables::{Draw, odd_kind, odd_time};
use crate::steps::Events;
use std::ops::RangeInclusive;

row_type! {
    /// A row of type 15. The n is the number of offsets.
    Pattern { event: Kind, period: Time, jitter: Time, minimum: Time, offsets: Offsets }
}

impl Pattern {
    /// How long after the start the event of this number is expected, counted from 0: its group's point, and its offset there.
    pub fn place(&self, number: usize) -> i128 {
        let n = self.offsets.len();
        i128::from(self.period) * (number / n) as i128 + i128::from(self.offsets[number % n])
    }

    /// The starts with which each event is 0 to jitter after its place. Each event allows the starts of a range, the first
    /// such as are not below 0.
    pub fn starts(&self, events: &[u64]) -> RangeInclusive<i128> {
        let range = |(number, event): (usize, &u64)| {
            let latest = i128::from(*event) - self.place(number);
            latest - i128::from(self.jitter)..=latest
        };
        let narrowed = |one: RangeInclusive<i128>, other: RangeInclusive<i128>| {
            *one.start().max(other.start())..=*one.end().min(other.end())
        };
        events.iter().enumerate().map(range).fold(0..=i128::MAX, narrowed)
    }

    /// Is one start, by which the events are right, also such that the next event is not overdue at the clock? A later start
    /// only helps there.
    fn has_start(&self, events: &[u64], clock: u64) -> bool {
        let starts = self.starts(events);
        let last_moment = starts.end().saturating_add(self.place(events.len()) + i128::from(self.jitter));
        !starts.is_empty() && (events.is_empty() || i128::from(clock) <= last_moment)
    }

    /// Has a second group its own point? With a period of 0 there is none.
    fn points_rise(&self, events: &[u64]) -> bool {
        events.len() <= self.offsets.len() || self.period > 0
    }
}

impl RowType for Pattern {
    fn meets(&self, events: &dyn Events) -> bool {
        let (times, clock) = (events.times(self.event), events.clock());
        self.has_start(times, clock) && at_least_apart(self.minimum, times) && self.points_rise(times)
    }

    /// Do the offsets rise?
    fn in_order(&self) -> bool {
        self.offsets.windows(2).all(|pair| pair[0] < pair[1])
    }

    /// Mostly with offsets within a period that is longer than all of them.
    fn random(draw: &mut Draw) -> Pattern {
        let number = if draw.random.chance(70) { 1 + draw.random.place(3) } else { 1 + draw.random.place(8) };
        let mut offsets: Vec<u64> = (0..number).map(|_| draw.time()).collect();
        offsets.sort_unstable();
        offsets.dedup();
        let last = offsets[offsets.len() - 1];
        let period = if draw.random.chance(70) { (last + draw.time()).min(crate::LAST_TIME) } else { draw.time() };
        let minimum = draw.time_mostly_0();
        Pattern { event: draw.kinds[0], period, jitter: draw.time(), minimum, offsets }
    }

    fn damage(&mut self, random: &mut Random) {
        let place = random.place(self.offsets.len().max(1));
        match random.below(8) {
            _ if self.offsets.is_empty() => {}
            0 => self.event = odd_kind(random),
            1 => *[&mut self.period, &mut self.jitter, &mut self.minimum][random.place(3)] = odd_time(random),
            2 => self.offsets[place] = odd_time(random),
            3 => self.offsets.push(self.offsets[place]),
            4 => self.offsets.reverse(),
            5 => self.offsets.clear(),
            6 => self.offsets = (0..8 + random.below(3)).collect(),
            _ => self.offsets.insert(0, 0),
        }
    }
}

/// For tests: the events of kind 0.
pub fn pattern(period: u64, jitter: u64, minimum: u64, offsets: &[u64]) -> Constraint {
    Pattern { event: 0, period, jitter, minimum, offsets: offsets.to_vec() }.into()
}
