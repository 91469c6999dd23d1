//! Age (§5.12): before each response the latest stimulus of its colour.

use super::{Constraint, Demand, RowType, row_type};
use crate::continuation::Event;
use crate::limits::{LAST_COLOUR, stream};
use crate::meets::between;
use crate::random::Random;
use crate::random::tables::{Draw, odd_kind, odd_time};
use crate::steps::{Events, History};

row_type! {
    /// A row of type 12.
    Age { stimulus: Coloured, response: Coloured, minimum: Time, maximum: Time }
    minimum <= maximum
}

impl Age {
    /// Of one colour: each response is minimum to maximum after the latest stimulus of all.
    fn meets_in(&self, colour: u8, events: &dyn Events) -> bool {
        let latest = events.times(stream(self.stimulus, colour)).last();
        let suits = |&time: &u64| latest.is_some_and(|&latest| between(self.minimum, self.maximum, latest, time));
        events.times(stream(self.response, colour)).iter().all(suits)
    }

    /// A stimulus at the clock, for a colour whose responses are not all right. A later one would be after a response, and so
    /// would be a second one.
    fn missing(&self, colour: u8, recorded: &History) -> Option<Event> {
        let (stimuli, time) = (stream(self.stimulus, colour), recorded.clock());
        let lacks = !self.meets_in(colour, recorded) && recorded.times(stimuli).last() != Some(&time);
        lacks.then_some(Event { stream: stimuli, time })
    }
}

impl RowType for Age {
    fn meets(&self, events: &dyn Events) -> bool {
        (0..=LAST_COLOUR).all(|colour| self.meets_in(colour, events))
    }

    /// In each colour whose responses are not all right a stimulus at the clock; further responses only ask for more.
    fn earliest_continuation(&self, recorded: &History) -> Vec<Event> {
        (0..=LAST_COLOUR).filter_map(|colour| self.missing(colour, recorded)).collect()
    }

    /// The clock itself will do; two places more are searched to see that they change nothing.
    fn reach(&self, recorded: &History) -> u64 {
        recorded.clock() + 2
    }

    /// What is asked of one colour does not speak of the others.
    fn demands(&self) -> Vec<Demand<'_>> {
        let of_colour = |colour: u8| Demand {
            streams: vec![stream(self.stimulus, colour), stream(self.response, colour)],
            met: Box::new(move |events| self.meets_in(colour, events)),
        };
        (0..=LAST_COLOUR).map(of_colour).collect()
    }

    fn random(draw: &mut Draw) -> Age {
        let kinds = draw.coloured(2);
        let (minimum, maximum) = draw.bounds;
        let minimum = if draw.random.chance(40) { 0 } else { minimum };
        Age { stimulus: kinds[0], response: kinds[1], minimum, maximum }
    }

    fn damage(&mut self, random: &mut Random) {
        match random.below(5) {
            0 => self.stimulus = odd_kind(random),
            1 => self.response = self.stimulus,
            2 => self.minimum = odd_time(random),
            3 => self.maximum = odd_time(random),
            _ => (self.minimum, self.maximum) = (self.maximum, self.minimum),
        }
    }
}

/// For tests: of kinds 48 and 49.
pub fn age(minimum: u64, maximum: u64) -> Constraint {
    Age { stimulus: 48, response: 49, minimum, maximum }.into()
}
