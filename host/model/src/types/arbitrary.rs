//! Arbitrary (§5.16): of i + 1 consecutive events, for each i, the last so long after the first.

use super::{Constraint, RowType, row_type};
use crate::limits::NO_LIMIT;
use crate::meets::{not_silent, spans_apart};
use crate::random::Random;
use crate::random::tables::{Draw, odd_kind, odd_time};
use crate::steps::Events;

row_type! {
    /// A row of type 16. The n is the number of pairs, each of a minimum and a maximum.
    Arbitrary { event: Kind, pairs: Pairs }
}

impl RowType for Arbitrary {
    /// For each pair what a Repeat of its place asks.
    fn meets(&self, events: &dyn Events) -> bool {
        let (times, clock) = (events.times(self.event), events.clock());
        let repeats = |(span, &(minimum, maximum)): (u8, &(u64, u64))| {
            spans_apart(span, minimum, maximum, times) && not_silent(span, maximum, times, clock)
        };
        (1..).zip(&self.pairs).all(repeats)
    }

    /// Is no minimum above its maximum?
    fn in_order(&self) -> bool {
        self.pairs.iter().all(|(minimum, maximum)| minimum <= maximum)
    }

    /// Mostly such as go together: each pair grows from the one before.
    fn random(draw: &mut Draw) -> Arbitrary {
        let number = if draw.random.chance(70) { 1 + draw.random.place(3) } else { 1 + draw.random.place(8) };
        let mut pairs: Vec<(u64, u64)> = Vec::new();
        for _ in 0..number {
            let (minimum, maximum) = draw.lower_and_limit();
            let grown = pairs.last().filter(|_| draw.random.chance(80)).map(|(lower, upper)| {
                let maximum = maximum.saturating_add(*upper);
                ((minimum + lower).min(crate::LAST_TIME), if maximum > crate::LAST_TIME { NO_LIMIT } else { maximum })
            });
            pairs.push(grown.unwrap_or((minimum, maximum)));
        }
        Arbitrary { event: draw.kinds[0], pairs }
    }

    fn damage(&mut self, random: &mut Random) {
        let place = random.place(self.pairs.len().max(1));
        match random.below(7) {
            _ if self.pairs.is_empty() => {}
            0 => self.event = odd_kind(random),
            1 => self.pairs[place].0 = odd_time(random),
            2 => self.pairs[place].1 = odd_time(random),
            3 => self.pairs[place] = (self.pairs[place].1, self.pairs[place].0),
            4 => self.pairs.clear(),
            5 => self.pairs = vec![(0, 9); 8 + random.place(3)],
            _ => self.pairs[place] = (9, 8),
        }
    }
}

/// For tests: the events of kind 0.
pub fn arbitrary(pairs: &[(u64, u64)]) -> Constraint {
    Arbitrary { event: 0, pairs: pairs.to_vec() }.into()
}
