//! Order (§5.6): as many targets as sources, none before its source.

use super::{Constraint, RowType, row_type};
use crate::continuation::Event;
use crate::open::partners;
use crate::random::Random;
use crate::random::tables::{Draw, odd_kind};
use crate::steps::{Events, History};

row_type! {
    /// A row of type 6.
    Order { source: Kind, target: Kind }
}

impl RowType for Order {
    /// Sources and targets pair up, and no target is before its source.
    fn meets(&self, events: &dyn Events) -> bool {
        let (sources, targets) = (events.times(self.source), events.times(self.target));
        targets.len() == sources.len() && sources.iter().zip(targets).all(|(source, target)| source <= target)
    }

    fn earliest_continuation(&self, recorded: &History) -> Vec<Event> {
        partners(recorded, self.source, self.target, 0)
    }

    /// Drop what is beyond the larger number recorded of a kind. Further targets, whose sources are all recorded, may as well
    /// be at clock + 1, clock + 2 and so on; further sources are not after recorded targets.
    fn reach(&self, recorded: &History) -> u64 {
        let missing = recorded.times(self.source).len().saturating_sub(recorded.times(self.target).len());
        recorded.clock() + missing as u64
    }

    fn random(draw: &mut Draw) -> Order {
        let [source, target] = draw.kinds;
        Order { source, target }
    }

    fn damage(&mut self, random: &mut Random) {
        match random.below(5) {
            0..=2 => self.source = odd_kind(random),
            _ => self.target = self.source,
        }
    }
}

/// For tests: the source of kind 0, the target of kind 1.
pub fn order() -> Constraint {
    Order { source: 0, target: 1 }.into()
}
