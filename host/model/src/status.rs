//! What a host asks while it runs (§15): worked out from the definitions, the deadlines by a search for the first tick that
//! leaves a row not open.

use crate::limits::{LAST_TIME, NO_LIMIT, ROW_LIMIT, WAITING_LIMIT};
use crate::monitor::{Monitor, Verdict};
use crate::open::open;
use crate::questions::step_questions;
use crate::steps::Step;
use std::fmt;

/// Why a row broke, with the moment (§15.14, §15.15). It is written as in the contract: "overdue 13".
#[derive(Clone, Copy, Debug, PartialEq, Eq)]
pub enum Cause {
    Overdue(u64),
    Event(u64),
    Close(u64),
}

impl Cause {
    /// The number of the cause and the moment, as the calls answer them (§15.16).
    pub fn numbers(self) -> (u8, u64) {
        match self {
            Cause::Overdue(moment) => (1, moment),
            Cause::Event(moment) => (2, moment),
            Cause::Close(moment) => (3, moment),
        }
    }
}

impl fmt::Display for Cause {
    fn fmt(&self, f: &mut fmt::Formatter) -> fmt::Result {
        let (cause, moment) = self.numbers();
        write!(f, "{} {moment}", ["overdue", "event", "close"][usize::from(cause) - 1])
    }
}

impl Monitor {
    /// The clock (§15.1).
    pub fn clock(&self) -> u64 {
        self.recorded().clock()
    }

    /// How many steps were accepted, the close included (§15.2).
    pub fn count(&self) -> u64 {
        self.recorded().count()
    }

    /// Whether the recording is closed (§15.3).
    pub fn closed(&self) -> bool {
        self.recorded().closed()
    }

    /// Bit i is 1 where row i reads broken (§15.4).
    pub fn broken_rows(&self) -> u32 {
        let broken = |row: &usize| matches!(self.verdict(*row), Ok(Verdict::Broken(_)));
        (0..self.rows().len()).filter(broken).map(|row| 1 << row).sum()
    }

    /// How many wait in a row that reads open; 0 of any other (§15.5).
    pub fn row_waiting(&self, row: usize) -> usize {
        if self.verdict(row) == Ok(Verdict::Open) { self.rows()[row].waiting(self.recorded()) } else { 0 }
    }

    /// The time and the stream of the oldest that waits in a row that reads open; none of any other (§15.18, §15.19).
    pub fn row_oldest(&self, row: usize) -> Option<(u64, u8)> {
        if self.verdict(row) == Ok(Verdict::Open) { self.rows()[row].oldest(self.recorded()) } else { None }
    }

    /// Whether the row is open after a tick to that time.
    fn open_at(&self, row: usize, time: u64) -> bool {
        open(&self.rows()[row], &self.recorded().after(Step::Tick { time }))
    }

    /// The last time to which a tick leaves the row open (§15.6 to §15.8). A row that a tick leaves open is left so by an
    /// earlier one, so the first that does not is found by halving.
    pub fn row_deadline(&self, row: usize) -> u64 {
        if self.verdict(row) != Ok(Verdict::Open) || self.clock() == LAST_TIME || self.open_at(row, LAST_TIME) {
            return NO_LIMIT;
        }
        let (mut still, mut not) = (self.clock(), LAST_TIME);
        while not - still > 1 {
            let middle = still + (not - still) / 2;
            if self.open_at(row, middle) { still = middle } else { not = middle }
        }
        still
    }

    /// Why the row broke and when (§15.14, §15.15): the steps before the one that broke it are taken again.
    pub fn row_cause(&self, row: usize) -> Option<Cause> {
        let Ok(Verdict::Broken(step)) = self.verdict(row) else { return None };
        let first = self.count() - self.steps().len() as u64;
        let place = (step - first) as usize - 1;
        let mut before = Monitor::counting_from(self.rows(), first).expect("an accepted table");
        self.steps()[..place].iter().for_each(|step| before.step(*step).expect("a step that was taken"));
        let breaking = self.steps()[place];
        let clock = before.recorded().after(breaking).clock();
        Some(if before.clock() < clock && !before.open_at(row, clock) {
            Cause::Overdue(before.row_deadline(row))
        } else if breaking == Step::Close {
            Cause::Close(clock)
        } else {
            Cause::Event(clock)
        })
    }

    /// The least of the rows' deadlines (§15.9).
    pub fn deadline(&self) -> u64 {
        (0..self.rows().len()).map(|row| self.row_deadline(row)).min().unwrap_or(NO_LIMIT)
    }

    /// The first row that an event would crowd, where that is why it is refused (§8.12).
    pub fn crowded_row(&self, event: Step) -> usize {
        if step_questions(self.recorded(), event).is_err() {
            return ROW_LIMIT;
        }
        let after = self.recorded().after(event);
        let full = |row: &usize| {
            self.verdict(*row) == Ok(Verdict::Open)
                && open(&self.rows()[*row], &after)
                && self.rows()[*row].waiting(&after) > WAITING_LIMIT
        };
        (0..self.rows().len()).find(full).unwrap_or(ROW_LIMIT)
    }
}
