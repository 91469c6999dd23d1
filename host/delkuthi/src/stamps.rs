//! Stamps known within a range.

use crate::ffi;
use crate::refusal::Refusal;

/// What a row reads at the close if stamps may be late.
#[derive(Clone, Copy, Debug, PartialEq, Eq, Hash)]
pub enum Stamped {
    /// Every choice of true times meets the row.
    Kept,
    /// None does.
    Broken,
    /// Some do, and some do not.
    Unsure,
}

/// Says what a Repeat row of span 1 reads at the close of a recording whose stamps are late by at most `late`. Each event
/// of the row happened at a time t with stamp - late <= t <= stamp and 0 <= t, each after the one before.
///
/// ```
/// use delkuthi::{Row, Stamped, TABLE_LIMIT, stamped, write_table};
///
/// let rows = [Row::Repeat { event: 0, span: 1, lower: 4, upper: 6 }];
/// let mut table = [0; TABLE_LIMIT];
/// let length = write_table(&rows, &mut table)?;
/// let recording = [1, 0, 9, 0, 0, 0, 0, 0, 0, 0, 0, 10, 0, 9, 0, 0, 0, 0, 0, 0, 0, 0, 15];
/// assert_eq!(stamped(&table[..length], &recording, 0, 1)?, Stamped::Kept);
/// assert_eq!(stamped(&table[..length], &recording, 0, 2)?, Stamped::Unsure);
/// # Ok::<(), delkuthi::Refusal>(())
/// ```
///
/// # Errors
/// The refusal of the table, of a record or of its step (never 12), with its place; then 15, 25 and 10, with the place 0.
pub fn stamped(table: &[u8], recording: &[u8], row: u64, late: u64) -> Result<Stamped, Refusal> {
    // SAFETY: the pointers and lengths are slices'.
    let answer =
        unsafe { ffi::delkuthi_stamps_2(table.as_ptr(), table.len(), recording.as_ptr(), recording.len(), row, late) };
    Refusal::of_bytes(answer)?;
    Ok(match answer / 256 {
        1 => Stamped::Kept,
        2 => Stamped::Broken,
        _ => Stamped::Unsure,
    })
}
