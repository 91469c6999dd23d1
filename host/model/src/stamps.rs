//! Stamps known within a range (section 12): what a Repeat row of span 1 reads where each stamp may be late.

use crate::limits::{LAST_TIME, NEWEST_EDITION, NO_LIMIT};
use crate::meets::{apart, not_later};
use crate::monitor::Monitor;
use crate::questions::{Refusal, ask};
use crate::recording::read_recording;
use crate::steps::Events;
use crate::table::read_table_up_to;
use crate::types::{Constraint, Repeat};

/// The three words (§12.3).
#[derive(Clone, Copy, Debug, PartialEq, Eq, Hash)]
pub enum Stamped {
    Kept,
    Broken,
    Unsure,
}

/// The row's bounds, its stamps, the clock at the close, and by how much a stamp is late at most.
#[derive(Clone, Debug)]
pub struct Stamps {
    pub lower: u64,
    pub upper: u64,
    pub stamps: Vec<u64>,
    pub clock: u64,
    pub late: u64,
}

/// The answer for a row of a table and a recording, with the questions in their order (§12.5).
pub fn stamped(table: &[u8], recording: &[u8], row: u64, late: u64) -> Result<Stamped, Refusal> {
    stamped_up_to(NEWEST_EDITION, table, recording, row, late)
}

/// The same of tables up to an edition (§16.3).
pub fn stamped_up_to(newest: u8, table: &[u8], recording: &[u8], row: u64, late: u64) -> Result<Stamped, Refusal> {
    let rows = read_table_up_to(newest, table)?;
    // over no rows, so that nothing can wait and 12 is never the answer
    let taken = read_recording(Monitor::fresh(&[]).expect("a table of no rows"), recording)?;
    let refused = |number| Refusal { number, place: 0 };
    ask(15, row < rows.len() as u64).map_err(refused)?;
    let Constraint::Repeat(Repeat { event, span: 1, lower, upper }) = rows[row as usize] else {
        return Err(refused(25));
    };
    ask(10, late <= LAST_TIME).map_err(refused)?;
    let stamps = taken.recorded().times(event).to_vec();
    Ok(Stamps { lower, upper, stamps, clock: taken.recorded().clock(), late }.word())
}

impl Stamps {
    /// The word, by difference constraints.
    pub fn word(&self) -> Stamped {
        match (self.some_meets(), self.some_fails()) {
            (true, true) => Stamped::Unsure,
            (true, false) => Stamped::Kept,
            (false, true) => Stamped::Broken,
            (false, false) => panic!("the stamps are a choice"),
        }
    }

    /// The word, by trying every choice (§12.3).
    pub fn word_by_choices(&self) -> Stamped {
        let (mut met, mut failed) = (false, false);
        self.choices(&mut Vec::new(), &mut |chosen| {
            if self.meets(chosen) { met = true } else { failed = true }
        });
        match (met, failed) {
            (true, true) => Stamped::Unsure,
            (true, false) => Stamped::Kept,
            _ => Stamped::Broken,
        }
    }

    /// Does a choice meet the row (§12.2)?
    fn meets(&self, chosen: &[u64]) -> bool {
        let neighbours = chosen.windows(2).all(|pair| apart(self.lower, self.upper, pair[0], pair[1]));
        neighbours && chosen.last().is_none_or(|&last| not_later(self.upper, last, self.clock))
    }

    /// Each choice of true times (§12.1).
    fn choices(&self, chosen: &mut Vec<u64>, visit: &mut dyn FnMut(&[u64])) {
        let Some(&stamp) = self.stamps.get(chosen.len()) else {
            return visit(chosen);
        };
        let first = chosen.last().map_or(0, |last| last + 1).max(stamp.saturating_sub(self.late));
        for time in first..=stamp {
            chosen.push(time);
            self.choices(chosen, visit);
            chosen.pop();
        }
    }

    /// What every choice keeps to: variable 0 is the time 0, variable i + 1 the true time of stamp i.
    fn choice(&self) -> Vec<Difference> {
        let mut all = Vec::new();
        for (i, &stamp) in self.stamps.iter().enumerate() {
            all.push(at_most(i + 1, 0, i128::from(stamp)));
            all.push(at_least(i + 1, 0, i128::from(stamp.saturating_sub(self.late))));
            if i > 0 {
                all.push(at_least(i + 1, i, 1));
            }
        }
        all
    }

    fn limited(&self) -> bool {
        self.upper != NO_LIMIT
    }

    fn some_meets(&self) -> bool {
        let mut all = self.choice();
        for i in 1..self.stamps.len() {
            all.push(at_least(i + 1, i, i128::from(self.lower)));
            if self.limited() {
                all.push(at_most(i + 1, i, i128::from(self.upper)));
            }
        }
        if self.limited() && !self.stamps.is_empty() {
            all.push(at_least(self.stamps.len(), 0, i128::from(self.clock) - i128::from(self.upper)));
        }
        feasible(self.stamps.len() + 1, &all)
    }

    /// Does a choice fail at one of the row's demands?
    fn some_fails(&self) -> bool {
        let n = self.stamps.len();
        let with = |fault: Difference| feasible(n + 1, &[self.choice(), vec![fault]].concat());
        let narrow = (1..n).any(|i| with(at_most(i + 1, i, i128::from(self.lower) - 1)));
        let wide = || (1..n).any(|i| with(at_least(i + 1, i, i128::from(self.upper) + 1)));
        let silent = || n > 0 && with(at_most(n, 0, i128::from(self.clock) - i128::from(self.upper) - 1));
        narrow || (self.limited() && (wide() || silent()))
    }
}

/// x[to] − x[from] is at most so much.
#[derive(Clone, Copy)]
struct Difference {
    to: usize,
    from: usize,
    most: i128,
}

fn at_most(to: usize, from: usize, most: i128) -> Difference {
    Difference { to, from, most }
}

fn at_least(to: usize, from: usize, least: i128) -> Difference {
    Difference { to: from, from: to, most: -least }
}

/// Are there numbers with all these differences? There are unless a cycle of them sums up to less than 0.
fn feasible(variables: usize, differences: &[Difference]) -> bool {
    let mut bound = vec![0_i128; variables];
    for _ in 0..=variables {
        let mut changed = false;
        for Difference { to, from, most } in differences {
            if bound[*from] + most < bound[*to] {
                bound[*to] = bound[*from] + most;
                changed = true;
            }
        }
        if !changed {
            return true;
        }
    }
    false
}
