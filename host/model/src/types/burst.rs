//! Burst (§5.5): at most maximum events in each length.

use super::{Constraint, RowType, row_type};
use crate::limits::{NO_LIMIT, SPAN_LIMIT};
use crate::meets::{at_least_apart, spans_apart};
use crate::random::Random;
use crate::random::tables::{Draw, odd_kind, odd_span, odd_time};
use crate::steps::Events;

row_type! {
    /// A row of type 5.
    Burst { event: Kind, maximum: Count(SPAN_LIMIT), length: Time, minimum: Time }
}

impl RowType for Burst {
    /// What a Repeat without an upper limit asks of the events, and a least distance.
    fn meets(&self, events: &dyn Events) -> bool {
        let times = events.times(self.event);
        spans_apart(self.maximum, self.length, NO_LIMIT, times) && at_least_apart(self.minimum, times)
    }

    fn random(draw: &mut Draw) -> Burst {
        let ([event, _], minimum) = (draw.kinds, draw.time_mostly_0());
        Burst { event, maximum: draw.span(), length: draw.time(), minimum }
    }

    fn damage(&mut self, random: &mut Random) {
        match random.below(4) {
            0 => self.event = odd_kind(random),
            1 => self.maximum = odd_span(random),
            2 => self.minimum = odd_time(random),
            _ => self.length = odd_time(random),
        }
    }
}

/// For tests: the events of kind 0.
pub fn burst(maximum: u8, length: u64, minimum: u64) -> Constraint {
    Burst { event: 0, maximum, length, minimum }.into()
}
