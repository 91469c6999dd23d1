//! Delay (§5.1): after each source a target.

use super::{Constraint, RowType, row_type};
use crate::continuation::Event;
use crate::limits::NO_LIMIT;
use crate::meets::apart;
use crate::open::earliest;
use crate::random::Random;
use crate::random::tables::{Draw, odd_kind, odd_time};
use crate::steps::{Events, History};

row_type! {
    /// A row of type 1.
    Delay { source: Kind, target: Kind, lower: Time, upper: Limit }
    lower <= upper
}

impl Delay {
    /// The sources with no target in their interval, which without an upper limit has no end.
    ///
    /// Both lists rise. So targets too early for one source are too early for all later ones, and of those not too early
    /// the first is in the interval if any is.
    fn without_target(&self, events: &dyn Events) -> Vec<u64> {
        let mut left = events.times(self.target).iter().peekable();
        let lacks = |source: &u64| {
            while left.next_if(|&target| target < source || target - source < self.lower).is_some() {}
            !left.peek().is_some_and(|&&target| apart(self.lower, self.upper, *source, target))
        };
        events.times(self.source).iter().copied().filter(lacks).collect()
    }
}

impl RowType for Delay {
    /// Each source has a target in its interval.
    fn meets(&self, events: &dyn Events) -> bool {
        self.without_target(events).is_empty()
    }

    /// The sources that have no target in their interval so far (§6.1).
    fn waiting(&self, recorded: &History) -> usize {
        self.without_target(recorded).len()
    }

    /// The first of these sources.
    fn oldest(&self, recorded: &History) -> Option<(u64, u8)> {
        self.without_target(recorded).first().map(|&time| (time, self.source))
    }

    fn crowding_kind(&self) -> Option<u8> {
        Some(self.source)
    }

    /// Adds one target for each source that has none yet. Sources in the continuation would only ask for more targets.
    /// The first of these sources has its target as early as any continuation can give it one. Sources rise by 1 or
    /// more, so where one has its target in time, the next has it too, at its own source + lower or 1 later than that
    /// one.
    fn earliest_continuation(&self, recorded: &History) -> Vec<Event> {
        let waiting = self.without_target(recorded).into_iter();
        earliest(recorded, self.target, waiting.map(|time| time + self.lower))
    }

    /// Of a continuation that meets the row keep the targets up to the newest recorded source + upper. Each recorded source
    /// still has its target, and no other source is left. Without an upper limit one target will do for all of them: at the
    /// newest source + lower, or right after the clock if that is later.
    fn reach(&self, recorded: &History) -> u64 {
        match recorded.times(self.source).last() {
            None => recorded.clock(),
            Some(last) if self.upper == NO_LIMIT => (recorded.clock() + 1).max(last + self.lower),
            Some(last) => last + self.upper,
        }
    }

    fn random(draw: &mut Draw) -> Delay {
        let ([source, target], (lower, upper)) = (draw.kinds, draw.lower_and_limit());
        Delay { source, target, lower, upper }
    }

    fn damage(&mut self, random: &mut Random) {
        match random.below(5) {
            0 => self.source = odd_kind(random),
            1 => self.target = self.source,
            2 => self.lower = odd_time(random),
            3 => self.upper = odd_time(random),
            _ => (self.lower, self.upper) = (self.upper, self.lower),
        }
    }
}

/// For tests: the source of kind 0, the target of kind 1.
pub fn delay(lower: u64, upper: u64) -> Constraint {
    Delay { source: 0, target: 1, lower, upper }.into()
}
