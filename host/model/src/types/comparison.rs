//! Comparison (§5.17): two numbers of the table, compared.

use super::{Constraint, RowType, row_type};
use crate::random::Random;
use crate::random::tables::{Draw, odd_time};
use crate::steps::Events;

row_type! {
    /// A row of type 17.
    Comparison { operator: Operator, left: Time, right: Time }
}

impl Comparison {
    /// Is what it says true?
    fn is_true(&self) -> bool {
        match self.operator {
            1 => self.left <= self.right,
            2 => self.left < self.right,
            3 => self.left >= self.right,
            4 => self.left > self.right,
            _ => self.left == self.right,
        }
    }
}

impl RowType for Comparison {
    /// It speaks of no event.
    fn meets(&self, _events: &dyn Events) -> bool {
        self.is_true()
    }

    /// A false one is refused.
    fn in_order(&self) -> bool {
        self.is_true()
    }

    fn random(draw: &mut Draw) -> Comparison {
        let (left, right) = draw.bounds;
        let row = Comparison { operator: 1 + draw.random.below(5) as u8, left, right };
        match row.operator {
            3 | 4 => Comparison { left: right, right: left, ..row },
            _ => row,
        }
        .made_true()
    }

    fn damage(&mut self, random: &mut Random) {
        match random.below(5) {
            0 => self.operator = *random.pick(&[0, 6, 255]),
            1 => self.left = odd_time(random),
            2 => self.right = odd_time(random),
            3 => self.operator = 1 + random.below(5) as u8,
            _ => (self.left, self.right) = (self.right, self.left),
        }
    }
}

impl Comparison {
    /// The same, or where that is false another operator, of which it is true.
    fn made_true(self) -> Comparison {
        let others = (1..=5).map(|operator| Comparison { operator, ..self.clone() });
        std::iter::once(self.clone()).chain(others).find(Comparison::is_true).expect("two numbers compare")
    }
}

/// For tests.
pub fn comparison(operator: u8, left: u64, right: u64) -> Constraint {
    Comparison { operator, left, right }.into()
}
