//! Reaction (§5.9): after each stimulus the first response of its colour.

use super::{Constraint, Demand, RowType, row_type};
use crate::continuation::Event;
use crate::limits::{LAST_COLOUR, stream};
use crate::meets::between;
use crate::random::Random;
use crate::random::tables::{Draw, odd_kind, odd_time};
use crate::steps::{Events, History};

row_type! {
    /// A row of type 9.
    Reaction { stimulus: Coloured, response: Coloured, minimum: Time, maximum: Time }
    minimum <= maximum
}

impl Reaction {
    /// Of one colour: the first response of all is minimum to maximum after each stimulus.
    fn meets_in(&self, colour: u8, events: &dyn Events) -> bool {
        let first = events.times(stream(self.response, colour)).first();
        let suits = |&time: &u64| first.is_some_and(|&first| between(self.minimum, self.maximum, time, first));
        events.times(stream(self.stimulus, colour)).iter().all(suits)
    }

    /// The missing first response of a colour: as early as its newest stimulus and the clock allow. A later one could only be
    /// too late for its oldest stimulus.
    fn missing(&self, colour: u8, recorded: &History) -> Option<Event> {
        let (stimuli, responses) = (stream(self.stimulus, colour), stream(self.response, colour));
        let newest = recorded.times(stimuli).last().filter(|_| recorded.times(responses).is_empty())?;
        Some(Event { stream: responses, time: (newest + self.minimum).max(recorded.clock()) })
    }
}

impl RowType for Reaction {
    fn meets(&self, events: &dyn Events) -> bool {
        (0..=LAST_COLOUR).all(|colour| self.meets_in(colour, events))
    }

    /// In each colour that has stimuli and no response yet a response; further stimuli only ask for more.
    fn earliest_continuation(&self, recorded: &History) -> Vec<Event> {
        let mut further: Vec<Event> = (0..=LAST_COLOUR).filter_map(|colour| self.missing(colour, recorded)).collect();
        further.sort_by_key(|event| event.time);
        further
    }

    /// Drop all further events but the first response of each colour with a recorded stimulus, which is at most maximum after
    /// it.
    fn reach(&self, recorded: &History) -> u64 {
        recorded.clock() + self.maximum
    }

    /// What is asked of one colour does not speak of the others.
    fn demands(&self) -> Vec<Demand<'_>> {
        let of_colour = |colour: u8| Demand {
            streams: vec![stream(self.stimulus, colour), stream(self.response, colour)],
            met: Box::new(move |events| self.meets_in(colour, events)),
        };
        (0..=LAST_COLOUR).map(of_colour).collect()
    }

    fn random(draw: &mut Draw) -> Reaction {
        let kinds = draw.coloured(2);
        let (minimum, maximum) = draw.bounds;
        Reaction { stimulus: kinds[0], response: kinds[1], minimum, maximum }
    }

    fn damage(&mut self, random: &mut Random) {
        match random.below(5) {
            0 => self.response = odd_kind(random),
            1 => self.response = self.stimulus,
            2 => self.minimum = odd_time(random),
            3 => self.maximum = odd_time(random),
            _ => (self.minimum, self.maximum) = (self.maximum, self.minimum),
        }
    }
}

/// For tests: of kinds 48 and 49.
pub fn reaction(minimum: u64, maximum: u64) -> Constraint {
    Reaction { stimulus: 48, response: 49, minimum, maximum }.into()
}
