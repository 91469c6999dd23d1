//! Sporadic (§5.4): each event at most jitter after its point, the points so far apart.

use super::{Constraint, RowType, row_type};
use crate::hidden_points::Spacing;
use crate::meets::at_least_apart;
use crate::random::Random;
use crate::random::tables::{Draw, odd_kind, odd_time};
use crate::steps::Events;

row_type! {
    /// A row of type 4.
    Sporadic { event: Kind, lower: Time, upper: Limit, jitter: Time, minimum: Time }
    lower <= upper
}

impl RowType for Sporadic {
    /// The events have hidden points, the last of which is not too long before the clock, and are at least minimum apart.
    fn meets(&self, events: &dyn Events) -> bool {
        let times = events.times(self.event);
        let spacing = Spacing { span: 1, lower: self.lower, upper: self.upper, jitter: self.jitter };
        spacing.has_hidden_points(times, events.clock()) && at_least_apart(self.minimum, times)
    }

    fn random(draw: &mut Draw) -> Sporadic {
        let ([event, _], (lower, upper)) = (draw.kinds, draw.lower_and_limit());
        let minimum = draw.time_mostly_0();
        Sporadic { event, lower, upper, jitter: draw.time(), minimum }
    }

    fn damage(&mut self, random: &mut Random) {
        match random.below(5) {
            0 => self.event = odd_kind(random),
            1 => self.jitter = odd_time(random),
            2 => (self.lower, self.upper) = (self.upper, self.lower),
            3 => self.minimum = odd_time(random),
            _ => self.upper = odd_time(random),
        }
    }
}

/// For tests: the events of kind 0.
pub fn sporadic(lower: u64, upper: u64, jitter: u64, minimum: u64) -> Constraint {
    Sporadic { event: 0, lower, upper, jitter, minimum }.into()
}
