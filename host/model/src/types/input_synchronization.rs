//! InputSynchronization (§5.14): the latest stimuli before the responses of a colour, one of each kind, within tolerance.

use super::{Constraint, Demand, RowType, row_type};
use crate::continuation::Event;
use crate::limits::{LAST_COLOUR, stream};
use crate::random::Random;
use crate::random::tables::{Draw, odd_kind, odd_time};
use crate::steps::{Events, History};

row_type! {
    /// A row of type 14. The n is the number of stimuli.
    InputSynchronization { stimuli: Coloureds, response: Coloured, tolerance: Time }
}

impl InputSynchronization {
    /// The latest stimulus of each kind in a colour, where there is one.
    fn latest(&self, colour: u8, events: &dyn Events) -> Vec<Option<u64>> {
        self.stimuli.iter().map(|kind| events.times(stream(*kind, colour)).last().copied()).collect()
    }

    /// Of one colour with responses: each kind has a latest stimulus, not after the first response, and these are at most
    /// tolerance apart.
    fn meets_in(&self, colour: u8, events: &dyn Events) -> bool {
        let Some(first) = events.times(stream(self.response, colour)).first() else { return true };
        let latest: Option<Vec<u64>> = self.latest(colour, events).into_iter().collect();
        latest.is_some_and(|latest| {
            let together = |one: &u64| latest.iter().all(|other| one.abs_diff(*other) <= self.tolerance);
            latest.iter().all(|one| one <= first && together(one))
        })
    }

    /// At the clock a stimulus of each kind that has none there, for a colour whose responses lack something. Later ones would
    /// be after a response; with all of them at one time they are together.
    fn missing(&self, colour: u8, recorded: &History) -> Vec<Event> {
        let time = recorded.clock();
        if self.meets_in(colour, recorded) {
            return Vec::new();
        }
        let lacking = self.stimuli.iter().map(|kind| stream(*kind, colour));
        let lacking = lacking.filter(|stream| recorded.times(*stream).last() != Some(&time));
        lacking.map(|stream| Event { stream, time }).collect()
    }
}

impl RowType for InputSynchronization {
    fn meets(&self, events: &dyn Events) -> bool {
        (0..=LAST_COLOUR).all(|colour| self.meets_in(colour, events))
    }

    fn earliest_continuation(&self, recorded: &History) -> Vec<Event> {
        (0..=LAST_COLOUR).flat_map(|colour| self.missing(colour, recorded)).collect()
    }

    /// The clock itself will do; one place more is searched to see that it changes nothing.
    fn reach(&self, recorded: &History) -> u64 {
        recorded.clock() + 1
    }

    /// What is asked of one colour does not speak of the others.
    fn demands(&self) -> Vec<Demand<'_>> {
        let of_colour = |colour: u8| Demand {
            streams: [&self.stimuli[..], &[self.response]].concat().iter().map(|kind| stream(*kind, colour)).collect(),
            met: Box::new(move |events| self.meets_in(colour, events)),
        };
        (0..=LAST_COLOUR).map(of_colour).collect()
    }

    fn random(draw: &mut Draw) -> InputSynchronization {
        let number = 2 + draw.random.place(3);
        let kinds = draw.coloured(1 + number);
        InputSynchronization { stimuli: kinds[1..].to_vec(), response: kinds[0], tolerance: draw.bounds.1 }
    }

    fn damage(&mut self, random: &mut Random) {
        match random.below(6) {
            _ if self.stimuli.len() < 2 => {}
            0 => self.stimuli[0] = odd_kind(random),
            1 => self.response = *random.pick(&self.stimuli),
            2 => self.stimuli[1] = self.stimuli[0],
            3 => self.tolerance = odd_time(random),
            4 => self.stimuli.truncate(random.place(3)),
            _ => self.stimuli.extend([61, 62, 63]),
        }
    }
}

/// For tests: from n kinds from 48 on to the kind after them.
pub fn input_synchronization(n: u8, tolerance: u64) -> Constraint {
    InputSynchronization { stimuli: (48..48 + n).collect(), response: 48 + n, tolerance }.into()
}
