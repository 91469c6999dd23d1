//! The monitor as the contract defines it: a table, and the list of accepted steps.

use crate::limits::{NEWEST_EDITION, WAITING_LIMIT};
use crate::open::open;
use crate::questions::{Answer, ask, rows_questions, step_questions};
use crate::steps::{History, Step};
use crate::types::Constraint;
use std::fmt;

/// What a row reads. It is written as in the report: "open", "kept", "broken 3".
#[derive(Clone, Copy, Debug, PartialEq, Eq)]
pub enum Verdict {
    Open,
    Kept,
    /// Broken, with the number of the first step after which no continuation was left (§2.5).
    Broken(u64),
}

impl fmt::Display for Verdict {
    fn fmt(&self, f: &mut fmt::Formatter) -> fmt::Result {
        match self {
            Verdict::Open => write!(f, "open"),
            Verdict::Kept => write!(f, "kept"),
            Verdict::Broken(step) => write!(f, "broken {step}"),
        }
    }
}

/// A table with the steps accepted so far. Every answer is worked out from these and the call's arguments alone.
#[derive(Clone, Debug, PartialEq, Eq)]
pub struct Monitor {
    rows: Vec<Constraint>,
    steps: Vec<Step>,
    /// What the steps have recorded.
    recorded: History,
    /// For each row the count after the first step which left it not open. Broken is for ever, since a continuation
    /// after more steps is, put behind those, one from before them, which closes no later.
    broken: Vec<Option<u64>>,
    /// Whether the last step may be withdrawn (§3.12).
    may: bool,
}

impl Monitor {
    /// A fresh monitor over a table that is accepted (§1.6, §3.2), or the refusal that questions 3 to 7 give.
    pub fn fresh(rows: &[Constraint]) -> Result<Monitor, u8> {
        rows_questions(NEWEST_EDITION, rows)?;
        let (rows, broken) = (rows.to_vec(), vec![None; rows.len()]);
        Ok(Monitor { rows, steps: Vec::new(), recorded: History::default(), broken, may: false })
    }

    /// The same, with a step count to start from (§1.7).
    pub fn counting_from(rows: &[Constraint], count: u64) -> Result<Monitor, u8> {
        Ok(Monitor { recorded: History::counting_from(count), ..Monitor::fresh(rows)? })
    }

    pub fn event(&mut self, kind: u8, time: u64) -> Answer {
        self.step(Step::Event { kind, time })
    }

    pub fn coloured_event(&mut self, kind: u8, colour: u8, time: u64) -> Answer {
        self.step(Step::Coloured { kind, colour, time })
    }

    pub fn tick(&mut self, time: u64) -> Answer {
        self.step(Step::Tick { time })
    }

    pub fn close(&mut self) -> Answer {
        self.step(Step::Close)
    }

    /// Takes a step, or refuses it as questions 8 to 12, 19 and 24 say; then nothing is recorded (§3.3).
    pub fn step(&mut self, step: Step) -> Answer {
        let (after, open) = self.judge(step)?;
        for (broken, open) in self.broken.iter_mut().zip(open) {
            if broken.is_none() && !open {
                *broken = Some(after.count());
            }
        }
        self.steps.push(step);
        self.recorded = after;
        self.may = true;
        Ok(())
    }

    /// Removes the last step and takes the steps before it again, or answers 21 if it may not be withdrawn (§3.12,
    /// §8.21).
    pub fn withdraw(&mut self) -> Answer {
        ask(21, self.may)?;
        let from = self.recorded.count() - self.steps.len() as u64;
        let mut left = Monitor::counting_from(&self.rows, from)?;
        for step in &self.steps[..self.steps.len() - 1] {
            left.step(*step)?;
        }
        left.may = false;
        *self = left;
        Ok(())
    }

    /// Withdraws the last step if it has this number, or answers 21 or 26 (§3.17, §8.26).
    pub fn withdraw_step(&mut self, step: u64) -> Answer {
        ask(21, self.may)?;
        ask(26, self.recorded.count() == step)?;
        self.withdraw()
    }

    /// How many rows not yet broken the step would break, or the number of its refusal. Nothing changes.
    pub fn would_break(&self, step: Step) -> Result<usize, u8> {
        let (_, open) = self.judge(step)?;
        Ok(self.broken.iter().zip(open).filter(|(broken, open)| broken.is_none() && !open).count())
    }

    /// Puts the step's questions; gives what is recorded after it, and for each row whether it is then open.
    fn judge(&self, step: Step) -> Result<(History, Vec<bool>), u8> {
        step_questions(&self.recorded, step)?;
        let after = self.recorded.after(step);
        let each = self.rows.iter().zip(&self.broken);
        let open: Vec<bool> = each.map(|(row, broken)| broken.is_none() && open(row, &after)).collect();
        if step != Step::Close {
            ask(12, self.has_room(&open, &after))?;
        }
        Ok((after, open))
    }

    /// Question 12 (§8.12).
    fn has_room(&self, open: &[bool], after: &History) -> bool {
        self.rows.iter().zip(open).all(|(row, open)| !open || row.waiting(after) <= WAITING_LIMIT)
    }

    /// What the row of this number reads (§2.4 to §2.6), or 15 if there is none (§8.15).
    pub fn verdict(&self, row: usize) -> Result<Verdict, u8> {
        ask(15, row < self.rows.len())?;
        Ok(match self.broken[row] {
            Some(step) => Verdict::Broken(step),
            None if self.recorded.closed() => Verdict::Kept,
            None => Verdict::Open,
        })
    }

    /// What every row reads, in the order of the table.
    pub fn verdicts(&self) -> Vec<Verdict> {
        (0..self.rows.len()).map(|row| self.verdict(row).expect("a row of that number")).collect()
    }

    /// How many wait in the row of this number; none in a broken one (§6.4).
    pub fn waiting(&self, row: usize) -> Result<usize, u8> {
        ask(15, row < self.rows.len())?;
        Ok(if self.broken[row].is_some() { 0 } else { self.rows[row].waiting(&self.recorded) })
    }

    pub fn rows(&self) -> &[Constraint] {
        &self.rows
    }

    /// The steps accepted so far.
    pub fn steps(&self) -> &[Step] {
        &self.steps
    }

    /// What the accepted steps have recorded: events, clock, count, closed.
    pub fn recorded(&self) -> &History {
        &self.recorded
    }
}
