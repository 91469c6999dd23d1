//! The lines that are printed: a sort of calls over a table.

use crate::load::{
    self, Load, dense, dense_full, dense_synchronizations, sparse, sparse_full, sparse_synchronizations,
};
use crate::plain::LAST_TYPE;

/// What the calls of a line are.
#[derive(Clone, Copy, Debug, PartialEq, Eq)]
pub enum Sort {
    /// Events.
    Steps,
    /// Events of which a tenth is withdrawn.
    Withdrawing,
    /// A report on a recording of events.
    Records,
    /// Ticks, but for a few events.
    Ticks,
    /// Events while 64 wait in rows.
    Full,
    /// Calls that are refused, not for 64 waiting.
    Refused,
    /// Events that are refused as more than 64 would wait.
    Crowding,
}

/// A line: which calls, over how many rows of the sparse or the dense table, or over rows of one type alone.
#[derive(Clone, Copy, Debug)]
pub struct Line {
    pub sort: Sort,
    alone: Option<u8>,
    dense: bool,
    rows: usize,
}

/// The type of which there is a sparse and a dense table; of later ones there is one table.
const SYNCHRONIZATION: u8 = 11;
/// How many rows a whole table has.
const WHOLE: usize = 32;

/// The lines over whole tables of the first edition: the same loads in each release.
pub fn lines() -> Vec<Line> {
    let sorts = [Sort::Steps, Sort::Withdrawing, Sort::Records, Sort::Ticks, Sort::Full, Sort::Refused, Sort::Crowding];
    sorts.into_iter().flat_map(|sort| sparse_and_dense(sort, None)).collect()
}

/// The lines over whole tables of one type alone, which the second edition has.
pub fn second_edition() -> Vec<Line> {
    let sorts = [Sort::Steps, Sort::Withdrawing, Sort::Records];
    let synchronizations = sorts.into_iter().flat_map(|sort| sparse_and_dense(sort, Some(SYNCHRONIZATION)));
    let others = SYNCHRONIZATION + 1..=LAST_TYPE;
    let line = |type_byte| Line { sort: Sort::Steps, alone: Some(type_byte), dense: false, rows: WHOLE };
    synchronizations.chain(others.map(line)).collect()
}

fn sparse_and_dense(sort: Sort, alone: Option<u8>) -> [Line; 2] {
    [false, true].map(|dense| Line { sort, alone, dense, rows: WHOLE })
}

/// A line over 32 rows of each type of the first edition alone: events that concern all rows.
pub fn types() -> Vec<Line> {
    (1..=10).map(|number| Line { sort: Sort::Steps, alone: Some(number), dense: true, rows: WHOLE }).collect()
}

/// All lines, in the order in which they are printed.
pub fn all_lines() -> Vec<Line> {
    [lines(), sizes(), types(), second_edition()].concat()
}

/// The lines over tables of more and more rows: events.
pub fn sizes() -> Vec<Line> {
    let sizes = |dense| [1, 2, 4, 8, 16].map(|rows| Line { sort: Sort::Steps, alone: None, dense, rows });
    [false, true].into_iter().flat_map(sizes).collect()
}

impl Line {
    /// What is measured, in a few words.
    pub fn what(&self) -> String {
        let shape = if self.dense { "dense" } else { "sparse" };
        let table = match self.alone {
            None => shape.to_string(),
            Some(SYNCHRONIZATION) => format!("Synchronization, {shape}"),
            Some(other) => load::alone(other, 0).name,
        };
        match self.sort {
            Sort::Steps if self.rows == 1 => format!("steps, {table}, 1 row"),
            Sort::Steps if self.rows < WHOLE => format!("steps, {table}, {} rows", self.rows),
            Sort::Steps => format!("steps, {table}"),
            Sort::Withdrawing => format!("steps, {table}, withdrawing"),
            Sort::Records => format!("records, {table}"),
            Sort::Ticks => format!("ticks, {table}"),
            Sort::Full => format!("steps, {table}, 64 waiting"),
            Sort::Refused => format!("refusals, {table}"),
            Sort::Crowding => format!("refusals, {table}, 64 waiting"),
        }
    }

    /// How many monitors play the line: a report is one call of either, so plain Rust plays it once.
    pub fn runs(&self) -> usize {
        if self.sort == Sort::Records { 2 } else { 3 }
    }

    /// The calls: this many of those that count.
    pub fn load(&self, calls: usize) -> Load {
        let events = |calls: usize| match (self.alone, self.dense) {
            (None, false) => sparse(calls),
            (None, true) => dense(calls),
            (Some(SYNCHRONIZATION), false) => sparse_synchronizations(calls),
            (Some(SYNCHRONIZATION), true) => dense_synchronizations(calls),
            (Some(other), _) => load::alone(other, calls),
        };
        let full = if self.dense { dense_full } else { sparse_full };
        match self.sort {
            Sort::Steps | Sort::Records => events(calls).with_rows(self.rows),
            Sort::Withdrawing => events(calls / 10 * 9).withdrawing(),
            Sort::Ticks => events(calls).ticking(calls),
            Sort::Full => full(calls),
            Sort::Refused => events(calls).refusing(calls),
            Sort::Crowding => full(calls).crowding(calls),
        }
    }
}
