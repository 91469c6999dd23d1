//! The words of a lent monitor: which of them a withdrawal does not put back, and where some of the others stand. The tests know it
//! here and nowhere else.

use delkuthi::{Monitor, ROW_LIMIT, WORDS};
use std::collections::BTreeSet;
use std::ops::Range;

/// The words of a row: 64 for its times, and 64 for its numbers.
const BLOCK: usize = 128;
/// Where the numbers beside the rows begin.
const NUMBERS: usize = ROW_LIMIT * BLOCK;

/// How many rows there are.
pub const ROWS: usize = NUMBERS + 3;
/// The time before which no row is due.
pub const SOONEST: usize = NUMBERS + 4;
/// Whether the last step may be withdrawn, and what it changed beside the rows.
pub const LAST_STEP: Range<usize> = NUMBERS + 5..NUMBERS + 11;
/// The set of the rows that may be nearly full: row i is in it if bit i is 1.
pub const FULL: usize = NUMBERS + 11;
/// All rows.
const ALL_ROWS: u64 = u32::MAX as u64;
/// A row with more waiting is nearly full.
const FEW: usize = 62;

/// What a row was before its last step, two times that this step overwrote, and its number.
pub fn past(row: usize) -> Range<usize> {
    let numbers = BLOCK * row + 64;
    numbers + 20..numbers + 34
}

/// The number of the last step that changed a row, while that can be withdrawn.
fn stamp(monitor: &Monitor, row: usize) -> u64 {
    monitor.words()[past(row).end - 1]
}

/// What a word says of withdrawals, if it says anything of them. A withdrawal puts every other word back.
pub fn of_withdrawals(place: usize) -> Option<&'static str> {
    match place {
        SOONEST => Some("the time before which no row is due: 0 after a withdrawal, and found again at the next step"),
        FULL => Some(
            "the rows that may be nearly full: all of them after a withdrawal, and those that are after later events",
        ),
        _ if LAST_STEP.contains(&place) => {
            Some("whether the last step may be withdrawn, and what it changed beside the rows")
        }
        _ if (0..ROW_LIMIT).any(|row| past(row).contains(&place)) => Some("what a row was before its last step"),
        _ => None,
    }
}

/// The words after the withdrawal of a step, by those before the step and after it. Those before it are put back, but for: no row
/// that the step changed has a past, no step may be withdrawn, every row is to be looked at, and every row may be nearly full.
pub fn withdrawn(before: &Monitor, stepped: &Monitor) -> Monitor {
    let mut words = *before.words();
    for row in (0..ROW_LIMIT).filter(|row| stamp(stepped, *row) == stepped.steps()) {
        words[past(row)].fill(0);
    }
    words[LAST_STEP].fill(0);
    words[SOONEST] = 0;
    words[FULL] = ALL_ROWS;
    Monitor::from_words(words)
}

/// The rows that may be nearly full, after a step that is taken: among them is each in which more than 62 wait. Only an event changes
/// the set.
///
/// # Panics
/// If it is another set.
pub fn full_after(before: &Monitor, stepped: &Monitor, event: bool) {
    let (full, then) = (stepped.words()[FULL], before.words()[FULL]);
    assert!(full <= ALL_ROWS, "{full:x}");
    let nearly = (0..stepped.rows()).filter(|row| stepped.row_waiting(*row) > FEW);
    nearly.for_each(|row| assert_eq!(full >> row & 1, 1, "row {row}"));
    if !event {
        assert_eq!(full, then, "after no event");
    }
}

/// The places of the words in which two monitors differ.
pub fn differing(one: &Monitor, other: &Monitor) -> Vec<usize> {
    (0..WORDS).filter(|place| one.words()[*place] != other.words()[*place]).collect()
}

/// Every word is what it was.
///
/// # Panics
/// If one is not, with its place and with what was done.
pub fn untouched(before: &Monitor, after: &Monitor, done: &str) {
    assert!(before == after, "{done} changed the words {:?}", differing(before, after));
}

/// In which words monitors after withdrawals were found to differ from those that took only the steps that are left.
#[derive(Default)]
pub struct Differing {
    found: BTreeSet<&'static str>,
}

impl Differing {
    /// Every word is the same, but for those that say what may be withdrawn next.
    ///
    /// # Panics
    /// If another differs, with its place and with what was done.
    pub fn compare(&mut self, monitor: &Monitor, left: &Monitor, done: &str) {
        for place in differing(monitor, left) {
            let part = of_withdrawals(place).unwrap_or_else(|| panic!("word {place} after {done}"));
            self.found.insert(part);
        }
    }

    /// Each of those words was found to differ: none is left out of the comparison without need.
    ///
    /// # Panics
    /// With those that were found, if there are others.
    pub fn demand_all(&self) {
        let all: BTreeSet<&str> = (0..WORDS).filter_map(of_withdrawals).collect();
        assert_eq!(self.found, all);
    }
}
