//! The shortest stretch of a recording that breaks a row.

use crate::ffi;
use crate::refusal::Refusal;

/// How many records a recording may have for [`shortest_stretch`].
pub const RECORD_LIMIT: usize = 256;

/// A stretch of consecutive records.
#[derive(Clone, Copy, Debug, PartialEq, Eq, Hash)]
pub struct Stretch {
    /// The number of its first record, from 0.
    pub first: u8,
    /// How many records it has.
    pub length: u16,
    /// How many stretches were tried, by length and then by start, including this one.
    pub tried: u32,
}

/// Finds the shortest stretch of a recording's records that breaks a row, before any close, when a fresh monitor over this
/// row alone takes them; among stretches of equal length the earliest. A stretch that meets 12 on the way does not break the
/// row.
///
/// ```
/// use delkuthi::{Row, Stretch, TABLE_LIMIT, shortest_stretch, write_table};
///
/// let rows = [Row::Delay { source: 0, target: 1, lower: 2, upper: 3 }];
/// let mut table = [0; TABLE_LIMIT];
/// let length = write_table(&rows, &mut table)?;
/// // 0@10, tick 14
/// let recording = [1, 0, 9, 0, 0, 0, 0, 0, 0, 0, 0, 10, 0, 8, 0, 0, 0, 0, 0, 0, 0, 14];
/// assert_eq!(shortest_stretch(&table[..length], &recording, 0)?, Stretch { first: 0, length: 2, tried: 3 });
/// # Ok::<(), delkuthi::Refusal>(())
/// ```
///
/// # Errors
/// The refusal of the table, of a record or of its step (never 12), with its place; then 22, 15 and 23, with the place 0.
pub fn shortest_stretch(table: &[u8], recording: &[u8], row: u64) -> Result<Stretch, Refusal> {
    // SAFETY: the pointers and lengths are slices'.
    let answer = unsafe {
        ffi::delkuthi_shortest_stretch_2(table.as_ptr(), table.len(), recording.as_ptr(), recording.len(), row)
    };
    Refusal::of_bytes(answer)?;
    Ok(Stretch { first: (answer >> 8) as u8, length: (answer >> 16) as u16, tried: (answer >> 32) as u32 })
}
