//! OutputSynchronization (§5.13): the first responses to the stimuli of a colour, one of each kind, within tolerance.

use super::{Constraint, Demand, RowType, row_type};
use crate::continuation::Event;
use crate::limits::{LAST_COLOUR, stream};
use crate::random::Random;
use crate::random::tables::{Draw, odd_kind, odd_time};
use crate::steps::{Events, History};

row_type! {
    /// A row of type 13. The n is the number of responses.
    OutputSynchronization { stimulus: Coloured, responses: Coloureds, tolerance: Time }
}

impl OutputSynchronization {
    /// The first response of each kind in a colour, where there is one.
    fn firsts(&self, colour: u8, events: &dyn Events) -> Vec<Option<u64>> {
        self.responses.iter().map(|kind| events.times(stream(*kind, colour)).first().copied()).collect()
    }

    /// Of one colour with stimuli: each kind has a first response, not before the last stimulus, and these are at most
    /// tolerance apart.
    fn meets_in(&self, colour: u8, events: &dyn Events) -> bool {
        let Some(latest) = events.times(stream(self.stimulus, colour)).last() else { return true };
        let firsts: Option<Vec<u64>> = self.firsts(colour, events).into_iter().collect();
        firsts.is_some_and(|firsts| {
            let together = |one: &u64| firsts.iter().all(|other| one.abs_diff(*other) <= self.tolerance);
            firsts.iter().all(|first| latest <= first && together(first))
        })
    }

    /// At the clock a first response of each kind that has none, for a colour with stimuli. A later one would be further from
    /// those that are there.
    fn missing(&self, colour: u8, recorded: &History) -> Vec<Event> {
        if recorded.times(stream(self.stimulus, colour)).is_empty() {
            return Vec::new();
        }
        let lacking = self.responses.iter().map(|kind| stream(*kind, colour));
        let lacking = lacking.filter(|stream| recorded.times(*stream).is_empty());
        lacking.map(|stream| Event { stream, time: recorded.clock() }).collect()
    }
}

impl RowType for OutputSynchronization {
    fn meets(&self, events: &dyn Events) -> bool {
        (0..=LAST_COLOUR).all(|colour| self.meets_in(colour, events))
    }

    fn earliest_continuation(&self, recorded: &History) -> Vec<Event> {
        (0..=LAST_COLOUR).flat_map(|colour| self.missing(colour, recorded)).collect()
    }

    /// The clock itself will do; one place more is searched to see that it changes nothing.
    fn reach(&self, recorded: &History) -> u64 {
        recorded.clock() + 1
    }

    /// What is asked of one colour does not speak of the others.
    fn demands(&self) -> Vec<Demand<'_>> {
        let of_colour = |colour: u8| Demand {
            streams: [&[self.stimulus], &self.responses[..]]
                .concat()
                .iter()
                .map(|kind| stream(*kind, colour))
                .collect(),
            met: Box::new(move |events| self.meets_in(colour, events)),
        };
        (0..=LAST_COLOUR).map(of_colour).collect()
    }

    fn random(draw: &mut Draw) -> OutputSynchronization {
        let number = 2 + draw.random.place(3);
        let kinds = draw.coloured(1 + number);
        OutputSynchronization { stimulus: kinds[0], responses: kinds[1..].to_vec(), tolerance: draw.bounds.1 }
    }

    fn damage(&mut self, random: &mut Random) {
        match random.below(6) {
            _ if self.responses.len() < 2 => {}
            0 => self.responses[0] = odd_kind(random),
            1 => self.stimulus = *random.pick(&self.responses),
            2 => self.responses[1] = self.responses[0],
            3 => self.tolerance = odd_time(random),
            4 => self.responses.truncate(random.place(3)),
            _ => self.responses.extend([61, 62, 63]),
        }
    }
}

/// For tests: from kind 48 to n kinds from 49 on.
pub fn output_synchronization(n: u8, tolerance: u64) -> Constraint {
    OutputSynchronization { stimulus: 48, responses: (49..49 + n).collect(), tolerance }.into()
}
