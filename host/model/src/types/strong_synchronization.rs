//! StrongSynchronization (§5.7): the events of all kinds in groups within tolerance.

use super::{Constraint, RowType, row_type};
use crate::continuation::Event;
use crate::open::earliest;
use crate::random::Random;
use crate::random::tables::{Draw, odd_kind, odd_time};
use crate::steps::{Events, History};

row_type! {
    /// A row of type 7. The n is the number of kinds.
    StrongSynchronization { kinds: Kinds, tolerance: Time }
}

impl RowType for StrongSynchronization {
    /// The kinds' events form whole groups, none wider than tolerance.
    fn meets(&self, events: &dyn Events) -> bool {
        let together = |one: &[u64], other: &[u64]| {
            one.len() == other.len() && one.iter().zip(other).all(|(x, y)| x.abs_diff(*y) <= self.tolerance)
        };
        let with_later = |(i, one): (usize, &u8)| {
            self.kinds[i..].iter().all(|other| together(events.times(*one), events.times(*other)))
        };
        self.kinds.iter().enumerate().all(with_later)
    }

    /// The groups that have begun and are not complete (§6.3).
    fn waiting(&self, recorded: &History) -> usize {
        let numbers = || self.kinds.iter().map(|kind| recorded.times(*kind).len());
        let (begun, complete) = (numbers().max(), numbers().min());
        begun.unwrap_or(0) - complete.unwrap_or(0)
    }

    /// The first event of the first of these groups, and the first kind that has an event in it.
    fn oldest(&self, recorded: &History) -> Option<(u64, u8)> {
        let complete = self.kinds.iter().map(|kind| recorded.times(*kind).len()).min()?;
        let group = || self.kinds.iter().filter_map(|&kind| Some((*recorded.times(kind).get(complete)?, kind)));
        Some((group().map(|(time, _)| time).min()?, group().next()?.1))
    }

    fn crowding_kind(&self) -> Option<u8> {
        self.kinds.first().copied()
    }

    /// The missing members of recorded events in groups by index, each kind's in a row from its first free place on. Of a
    /// group beyond the recorded ones all members would be further events: without them the rest still fits.
    ///
    /// Every group has a recorded member, at most at the clock, and no further event is earlier than the clock. So the
    /// earliest members are not too early for that one or for each other, unless one of them is too late for it.
    fn earliest_continuation(&self, recorded: &History) -> Vec<Event> {
        let number = |kind: u8| recorded.times(kind).len();
        let groups = self.kinds.iter().map(|&kind| number(kind)).max().unwrap_or(0);
        let missing = |&kind: &u8| earliest(recorded, kind, (number(kind)..groups).map(|_| 0));
        let mut further: Vec<Event> = self.kinds.iter().flat_map(missing).collect();
        further.sort_by_key(|event| event.time);
        further
    }

    /// Drop what is beyond the larger number recorded of a kind. Each group left has a recorded member, at most at the clock,
    /// and the others are at most tolerance later.
    fn reach(&self, recorded: &History) -> u64 {
        recorded.clock() + self.tolerance
    }

    fn random(draw: &mut Draw) -> StrongSynchronization {
        let number = 2 + draw.random.place(3);
        StrongSynchronization { kinds: draw.different(number), tolerance: draw.bounds.1 }
    }

    fn damage(&mut self, random: &mut Random) {
        match random.below(5) {
            _ if self.kinds.len() < 2 => {}
            0 => self.kinds[0] = odd_kind(random),
            1 => self.kinds[1] = self.kinds[0],
            2 => self.tolerance = odd_time(random),
            3 => self.kinds.truncate(random.place(3)),
            _ => self.kinds.extend([45, 46, 47]),
        }
    }
}

/// For tests: kinds 0 to n − 1.
pub fn strong_synchronization(n: u8, tolerance: u64) -> Constraint {
    StrongSynchronization { kinds: (0..n).collect(), tolerance }.into()
}
