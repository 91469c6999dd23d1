//! The shortest stretch of consecutive records that breaks a row (section 14): tries every stretch, each with its own
//! monitor.

use crate::limits::NEWEST_EDITION;
use crate::monitor::{Monitor, Verdict};
use crate::questions::{Refusal, ask};
use crate::recording::read_recording;
use crate::steps::Step;
use crate::table::read_table_up_to;
use crate::types::Constraint;

/// How many records a recording may have (§14.1).
pub const RECORD_LIMIT: usize = 256;

/// The answer (§14.4): the stretch's first record, from 0, its length, and how many stretches were tried, with it.
#[derive(Clone, Copy, Debug, PartialEq, Eq, Hash)]
pub struct Stretch {
    pub first: usize,
    pub length: usize,
    pub tried: usize,
}

/// The answer for a row of a table and a recording, with the questions in their order (§14.5).
pub fn shortest_stretch(table: &[u8], recording: &[u8], row: u64) -> Result<Stretch, Refusal> {
    shortest_stretch_up_to(NEWEST_EDITION, table, recording, row)
}

/// The same of tables up to an edition (§16.3).
pub fn shortest_stretch_up_to(newest: u8, table: &[u8], recording: &[u8], row: u64) -> Result<Stretch, Refusal> {
    let rows = read_table_up_to(newest, table)?;
    // over no rows, so that nothing can wait and 12 is never the answer
    let taken = read_recording(Monitor::fresh(&[]).expect("a table of no rows"), recording)?;
    let refused = |number| Refusal { number, place: 0 };
    ask(22, taken.steps().len() <= RECORD_LIMIT).map_err(refused)?;
    ask(15, row < rows.len() as u64).map_err(refused)?;
    first_breaking(&rows[row as usize], taken.steps()).ok_or_else(|| refused(23))
}

/// The first stretch that breaks the row, by length and then by start (§14.3, §14.4).
pub fn first_breaking(row: &Constraint, records: &[Step]) -> Option<Stretch> {
    let mut tried = 0;
    for length in 1..=records.len() {
        for first in 0..=records.len() - length {
            tried += 1;
            if breaks(row, &records[first..first + length]) {
                return Some(Stretch { first, length, tried });
            }
        }
    }
    None
}

/// A fresh monitor over the row alone takes every record, and the row is broken then, with no close (§14.2).
pub fn breaks(row: &Constraint, stretch: &[Step]) -> bool {
    let mut monitor = Monitor::fresh(std::slice::from_ref(row)).expect("a row of an accepted table");
    stretch.iter().all(|&step| monitor.step(step).is_ok()) && matches!(monitor.verdict(0), Ok(Verdict::Broken(_)))
}
