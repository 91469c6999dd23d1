//! Repeat (§5.3): from each event to the one span places on.

use super::{Constraint, RowType, row_type};
use crate::limits::SPAN_LIMIT;
use crate::meets::{not_silent, spans_apart};
use crate::random::Random;
use crate::random::tables::{Draw, odd_kind, odd_span, odd_time};
use crate::steps::Events;

row_type! {
    /// A row of type 3.
    Repeat { event: Kind, span: Count(SPAN_LIMIT), lower: Time, upper: Limit }
    lower <= upper
}

impl RowType for Repeat {
    /// Events span places apart are lower to upper apart, and those without such a one are not silent for too long.
    fn meets(&self, events: &dyn Events) -> bool {
        let (times, clock) = (events.times(self.event), events.clock());
        spans_apart(self.span, self.lower, self.upper, times) && not_silent(self.span, self.upper, times, clock)
    }

    fn random(draw: &mut Draw) -> Repeat {
        let ([event, _], (lower, upper)) = (draw.kinds, draw.lower_and_limit());
        Repeat { event, span: draw.span(), lower, upper }
    }

    fn damage(&mut self, random: &mut Random) {
        match random.below(5) {
            0 => self.event = odd_kind(random),
            1 => self.span = odd_span(random),
            2 => (self.lower, self.upper) = (self.upper, self.lower),
            3 => self.lower = odd_time(random),
            _ => self.upper = odd_time(random),
        }
    }
}

/// For tests: the events of kind 0.
pub fn repeat(span: u8, lower: u64, upper: u64) -> Constraint {
    Repeat { event: 0, span, lower, upper }.into()
}
