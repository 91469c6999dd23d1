//! StrongDelay (§5.2): after each source its own target.

use super::{Constraint, RowType, row_type};
use crate::continuation::Event;
use crate::meets::between;
use crate::open::partners;
use crate::random::Random;
use crate::random::tables::{Draw, odd_kind, odd_time};
use crate::steps::{Events, History};

row_type! {
    /// A row of type 2.
    StrongDelay { source: Kind, target: Kind, lower: Time, upper: Time }
    lower <= upper
}

impl RowType for StrongDelay {
    /// Sources and targets pair up, each target lower to upper after its source.
    fn meets(&self, events: &dyn Events) -> bool {
        let (sources, targets) = (events.times(self.source), events.times(self.target));
        let right = |(&source, &target): (&u64, &u64)| between(self.lower, self.upper, source, target);
        targets.len() == sources.len() && sources.iter().zip(targets).all(right)
    }

    /// The sources beyond the number of targets (§6.2).
    fn waiting(&self, recorded: &History) -> usize {
        recorded.times(self.source).len().saturating_sub(recorded.times(self.target).len())
    }

    /// The first of these sources.
    fn oldest(&self, recorded: &History) -> Option<(u64, u8)> {
        recorded.times(self.source).get(recorded.times(self.target).len()).map(|&time| (time, self.source))
    }

    fn crowding_kind(&self) -> Option<u8> {
        Some(self.source)
    }

    fn earliest_continuation(&self, recorded: &History) -> Vec<Event> {
        partners(recorded, self.source, self.target, self.lower)
    }

    /// Drop what is beyond the larger number recorded of a kind. Each pair left has a recorded member, at most at the clock,
    /// and the other is at most upper later.
    fn reach(&self, recorded: &History) -> u64 {
        recorded.clock() + self.upper
    }

    fn random(draw: &mut Draw) -> StrongDelay {
        let ([source, target], (lower, upper)) = (draw.kinds, draw.bounds);
        StrongDelay { source, target, lower, upper }
    }

    fn damage(&mut self, random: &mut Random) {
        match random.below(5) {
            0 => self.source = odd_kind(random),
            1 => self.target = self.source,
            2 => self.lower = odd_time(random),
            3 => self.upper = odd_time(random),
            _ => (self.lower, self.upper) = (self.upper, self.lower),
        }
    }
}

/// For tests: the source of kind 0, the target of kind 1.
pub fn strong_delay(lower: u64, upper: u64) -> Constraint {
    StrongDelay { source: 0, target: 1, lower, upper }.into()
}
