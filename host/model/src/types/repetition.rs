//! Repetition (§5.10): each event at most jitter after its point, the points span places apart so far apart.

use super::{Constraint, RowType, row_type};
use crate::hidden_points::Spacing;
use crate::limits::{NO_LIMIT, REPETITION_SPAN_LIMIT, SPAN_LIMIT};
use crate::random::Random;
use crate::random::tables::{Draw, odd_kind, odd_time};
use crate::steps::Events;

row_type! {
    /// A row of type 10.
    Repetition { event: Kind, span: Count(REPETITION_SPAN_LIMIT), lower: Time, upper: Time, jitter: Time }
    lower <= upper
}

impl Repetition {
    /// What it says of its hidden points.
    pub fn spacing(&self) -> Spacing {
        Spacing { span: self.span.into(), lower: self.lower, upper: self.upper, jitter: self.jitter }
    }
}

impl RowType for Repetition {
    /// The events have hidden points.
    fn meets(&self, events: &dyn Events) -> bool {
        self.spacing().has_points(events.times(self.event))
    }

    fn random(draw: &mut Draw) -> Repetition {
        let span = draw.random.from_to(1, REPETITION_SPAN_LIMIT.into()) as u8;
        let ([event, _], (lower, upper)) = (draw.kinds, draw.bounds);
        Repetition { event, span, lower, upper, jitter: draw.time() }
    }

    fn damage(&mut self, random: &mut Random) {
        let spans = [0, REPETITION_SPAN_LIMIT, REPETITION_SPAN_LIMIT + 1, SPAN_LIMIT, 255];
        match random.below(5) {
            0 => self.event = odd_kind(random),
            1 => self.span = *random.pick(&spans),
            2 => *[&mut self.lower, &mut self.upper, &mut self.jitter][random.place(3)] = odd_time(random),
            3 => self.upper = NO_LIMIT,
            _ => (self.lower, self.upper) = (self.upper, self.lower),
        }
    }
}

/// For tests: the events of kind 0.
pub fn repetition(span: u8, lower: u64, upper: u64, jitter: u64) -> Constraint {
    Repetition { event: 0, span, lower, upper, jitter }.into()
}
