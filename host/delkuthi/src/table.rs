//! Rows, by the names of their fields, and the table writer.

use crate::ffi;
use crate::monitor::Monitor;
use crate::refusal::Refusal;

/// The length of the longest table: a version byte, and for each of 32 rows a length field and at most 131 bytes.
pub const TABLE_LIMIT: usize = 1 + crate::ROW_LIMIT * (2 + LONGEST_ROW);
// begin no limit: made by release/row-types.py
/// The upper of a Delay, Repeat or Sporadic, or a maximum of an Arbitrary, that has no upper limit.
pub const NO_LIMIT: u64 = u64::MAX;
// end no limit

/// The newest edition of the table: the largest version byte of a table. Every function that takes a table takes all editions.
pub const NEWEST_EDITION: u8 = 2;
// begin first edition: made by release/row-types.py
/// The last type that the first edition of the table has.
const FIRST_EDITION_TYPES: u8 = 10;
// end first edition

/// The bytes of the longest row.
pub const LONGEST_ROW: usize = 131;
/// The bytes of a row for the writer of rows that are not longer. The rest are 0.
const ROW_SIZE: usize = 34;
/// How many rows the writer reads at most: the 33rd is refused.
const ASKED: usize = crate::ROW_LIMIT + 1;

/// A row of a table. `include/delkuthi.h` says what each asks.
#[derive(Clone, Copy, Debug, PartialEq, Eq, Hash)]
#[allow(missing_docs)]
pub enum Row<'a> {
    // begin rows: made by release/row-types.py
    /// After each source a target comes, `lower` to `upper` later.
    Delay { source: u8, target: u8, lower: u64, upper: u64 },
    /// The same, and each source has its own target, in order.
    StrongDelay { source: u8, target: u8, lower: u64, upper: u64 },
    /// In `span` + 1 consecutive events the last comes `lower` to `upper` after the first.
    Repeat { event: u8, span: u8, lower: u64, upper: u64 },
    /// Each event is 0 to `jitter` after a hidden point; the points are `lower` to `upper` apart.
    Sporadic { event: u8, lower: u64, upper: u64, jitter: u64, minimum: u64 },
    /// Any time shorter than `length` has at most `maximum` events, and events are at least `minimum` apart.
    Burst { event: u8, maximum: u8, length: u64, minimum: u64 },
    /// Each source has its own target, in order, and none comes before its source.
    Order { source: u8, target: u8 },
    /// The i-th events of the kinds, 2 to 4 of them, are at most `tolerance` apart.
    StrongSynchronization { kinds: &'a [u8], tolerance: u64 },
    /// From each `start` to its `stop` it runs for `lower` to `upper`, without the time from `preempt` to `resume`.
    ExecutionTime { start: u8, stop: u8, preempt: u8, resume: u8, lower: u64, upper: u64 },
    /// The first response of a colour comes `minimum` to `maximum` after each stimulus of that colour.
    Reaction { stimulus: u8, response: u8, minimum: u64, maximum: u64 },
    /// Each event is 0 to `jitter` after a hidden point; points `span` places apart, 1 to 8, are `lower` to `upper` apart.
    Repetition { event: u8, span: u8, lower: u64, upper: u64, jitter: u64 },
    /// Each event of the kinds, 2 to 4 of them, lies in a window of `tolerance` in which every kind has an event.
    Synchronization { kinds: &'a [u8], tolerance: u64 },
    /// The latest stimulus of a colour comes `minimum` to `maximum` before each response of that colour.
    Age { stimulus: u8, response: u8, minimum: u64, maximum: u64 },
    /// The first responses of a colour that has a stimulus, of all 2 to 4 kinds, are at most `tolerance` apart and not before a stimulus.
    OutputSynchronization { stimulus: u8, responses: &'a [u8], tolerance: u64 },
    /// The latest stimuli of a colour that has a response, of all 2 to 4 kinds, are at most `tolerance` apart and not after a response.
    InputSynchronization { stimuli: &'a [u8], response: u8, tolerance: u64 },
    /// Each event is 0 to `jitter` after one of 1 to 8 `offsets` from a hidden start, all of them again after each `period`.
    Pattern { event: u8, period: u64, jitter: u64, minimum: u64, offsets: &'a [u64] },
    /// In each 2, 3 and so on up to 9 consecutive events the last comes as long after the first as the pair for their number says.
    Arbitrary { event: u8, pairs: &'a [(u64, u64)] },
    /// `left` and `right` compare as `operator` says: 1 is <=, 2 is <, 3 is >=, 4 is >, 5 is =.
    Comparison { operator: u8, left: u64, right: u64 },
    // end rows
}

/// Writes the table of some rows, in the lowest edition that has all their types. Returns the number of bytes written. Bytes
/// behind the table stay as they were. A refusal writes nothing.
///
/// A table with a Pattern or an Arbitrary takes 45 KiB of stack.
///
/// # Errors
/// 3 to 7 and 18, with the first row concerned ([`Refusal::row`]); 16 a buffer too short.
pub fn write_table(rows: &[Row], table: &mut [u8]) -> Result<usize, Refusal> {
    let asked = &rows[..rows.len().min(ASKED)];
    if asked.iter().any(Row::is_long) {
        return write_long_rows(asked, table);
    }
    let mut bodies = [0; ROW_SIZE * ASKED];
    for (body, row) in bodies.chunks_exact_mut(ROW_SIZE).zip(asked) {
        body.copy_from_slice(&row.body().bytes[..ROW_SIZE]);
    }
    let bytes = &bodies[..asked.len() * ROW_SIZE];
    let writer = if asked.iter().all(|row| row.edition() == 1) { ffi::delkuthi_table } else { ffi::delkuthi_table_2 };
    // SAFETY: the pointers and lengths are slices', and the table's memory is not that of the rows.
    Refusal::of_writer(unsafe { writer(bytes.as_ptr(), bytes.len(), table.as_mut_ptr(), table.len()) })
}

/// The same for rows of any length: the table is written aside, and a fresh monitor asks its questions.
fn write_long_rows(rows: &[Row], table: &mut [u8]) -> Result<usize, Refusal> {
    let mut made = [0; TABLE_LIMIT + 2 + LONGEST_ROW];
    made[0] = NEWEST_EDITION;
    let mut length = 1;
    for row in rows {
        let Body { bytes, length: size } = row.body();
        made[length..length + 2].copy_from_slice(&(size as u16).to_be_bytes());
        made[length + 2..length + 2 + size].copy_from_slice(&bytes[..size]);
        length += 2 + size;
    }
    Monitor::fresh(&made[..length]).map_err(|refusal| {
        let before = |row: &Row| 2 + row.body().length as u64;
        let ends = rows.iter().scan(1, |end, row| Some(core::mem::replace(end, *end + before(row))));
        let place = refusal.place().unwrap_or(0);
        Refusal::of_row(refusal.number(), ends.take_while(|begin| *begin < place).count())
    })?;
    let place = table.get_mut(..length).ok_or(Refusal::NO_ROOM)?;
    place.copy_from_slice(&made[..length]);
    Ok(length)
}

/// Adds a row of any length to the table in the first `length` bytes of a buffer. `body` has the row's type and fields, without a length
/// field. Returns the new length of the table, whose edition becomes 2 if it does not have the row's type. A refusal writes nothing.
///
/// ```
/// let mut table = [0; delkuthi::TABLE_LIMIT];
/// table[0] = 1;
/// assert_eq!(delkuthi::add_row(&mut table, 1, &[6, 0, 1])?, 6);
/// assert_eq!(delkuthi::add_row(&mut table, 6, &[6, 0, 0]).map_err(|refusal| refusal.number()), Err(5));
/// # Ok::<(), delkuthi::Refusal>(())
/// ```
///
/// # Errors
/// What [`Monitor::fresh`] refuses in the table; 3 to 7 and 18 of the row, and 16 a buffer too short, at the place `length`.
pub fn add_row(table: &mut [u8], length: usize, body: &[u8]) -> Result<usize, Refusal> {
    // SAFETY: the pointers and lengths are slices', and the table's memory is not that of the row.
    let answer = unsafe { ffi::delkuthi_add_row(table.as_mut_ptr(), table.len(), length, body.as_ptr(), body.len()) };
    Refusal::of_bytes(answer)?;
    Ok((answer / 256) as usize)
}

/// Copies the body of a row of a table to a buffer: its type and fields, as [`add_row`] takes them. Returns the length of the body, at
/// most [`LONGEST_ROW`]. A refusal writes nothing.
///
/// ```
/// let mut body = [0; delkuthi::LONGEST_ROW];
/// let length = delkuthi::table_row(&[1, 0, 3, 6, 0, 1], 0, &mut body)?;
/// assert_eq!(&body[..length], [6, 0, 1]);
/// # Ok::<(), delkuthi::Refusal>(())
/// ```
///
/// # Errors
/// What [`Monitor::fresh`] refuses in the table; 15 if there is no row of that number; 16 a buffer too short.
pub fn table_row(table: &[u8], row: usize, body: &mut [u8]) -> Result<usize, Refusal> {
    // SAFETY: the pointers and lengths are slices', and the buffer's memory is not that of the table.
    let answer =
        unsafe { ffi::delkuthi_table_row(table.as_ptr(), table.len(), row as u64, body.as_mut_ptr(), body.len()) };
    body_length(answer)
}

/// The length of a body that a call answers, or its refusal.
pub(crate) fn body_length(answer: u64) -> Result<usize, Refusal> {
    Refusal::of_bytes(answer)?;
    Ok((answer / 256) as usize)
}

impl Row<'_> {
    /// The first edition that has the row's type. A table with such a row has this edition or a later one.
    pub fn edition(&self) -> u8 {
        if self.body().bytes[0] <= FIRST_EDITION_TYPES { 1 } else { 2 }
    }

    /// Is it of a type whose rows may have more than 34 bytes?
    fn is_long(&self) -> bool {
        // begin long rows: made by release/row-types.py
        matches!(self, Row::Pattern { .. } | Row::Arbitrary { .. })
        // end long rows
    }

    /// The row's type byte and fields.
    fn body(&self) -> Body {
        // begin bodies: made by release/row-types.py
        match *self {
            Row::Delay { source, target, lower, upper } => Body::of(&[1, source, target]).times(&[lower, upper]),
            Row::StrongDelay { source, target, lower, upper } => Body::of(&[2, source, target]).times(&[lower, upper]),
            Row::Repeat { event, span, lower, upper } => Body::of(&[3, event, span]).times(&[lower, upper]),
            Row::Sporadic { event, lower, upper, jitter, minimum } => {
                Body::of(&[4, event]).times(&[lower, upper, jitter, minimum])
            }
            Row::Burst { event, maximum, length, minimum } => Body::of(&[5, event, maximum]).times(&[length, minimum]),
            Row::Order { source, target } => Body::of(&[6, source, target]),
            Row::StrongSynchronization { kinds, tolerance } => {
                Body::of(&[7, number(kinds)]).kinds(kinds).times(&[tolerance])
            }
            Row::ExecutionTime { start, stop, preempt, resume, lower, upper } => {
                Body::of(&[8, start, stop, preempt, resume]).times(&[lower, upper])
            }
            Row::Reaction { stimulus, response, minimum, maximum } => {
                Body::of(&[9, stimulus, response]).times(&[minimum, maximum])
            }
            Row::Repetition { event, span, lower, upper, jitter } => {
                Body::of(&[10, event, span]).times(&[lower, upper, jitter])
            }
            Row::Synchronization { kinds, tolerance } => {
                Body::of(&[11, number(kinds)]).kinds(kinds).times(&[tolerance])
            }
            Row::Age { stimulus, response, minimum, maximum } => {
                Body::of(&[12, stimulus, response]).times(&[minimum, maximum])
            }
            Row::OutputSynchronization { stimulus, responses, tolerance } => {
                Body::of(&[13, number(responses), stimulus]).kinds(responses).times(&[tolerance])
            }
            Row::InputSynchronization { stimuli, response, tolerance } => {
                Body::of(&[14, number(stimuli)]).kinds(stimuli).bytes(&[response]).times(&[tolerance])
            }
            Row::Pattern { event, period, jitter, minimum, offsets } => {
                Body::of(&[15, number(offsets), event]).times(&[period, jitter, minimum]).times(offsets)
            }
            Row::Arbitrary { event, pairs } => Body::of(&[16, number(pairs), event]).pairs(pairs),
            Row::Comparison { operator, left, right } => Body::of(&[17, operator]).times(&[left, right]),
        }
        // end bodies
    }
}

/// The n of a list: if it is too long for a byte, a number that is refused as well.
fn number<T>(list: &[T]) -> u8 {
    list.len().min(255) as u8
}

/// The bytes of a row, and how many there are. The rest are 0.
struct Body {
    bytes: [u8; LONGEST_ROW],
    length: usize,
}

impl Body {
    /// The type, and what stands behind it.
    fn of(bytes: &[u8]) -> Body {
        Body { bytes: [0; LONGEST_ROW], length: 0 }.bytes(bytes)
    }

    fn bytes(mut self, bytes: &[u8]) -> Body {
        self.bytes[self.length..self.length + bytes.len()].copy_from_slice(bytes);
        self.length += bytes.len();
        self
    }

    /// The kinds of a list, at most as many as a row may have.
    fn kinds(self, kinds: &[u8]) -> Body {
        self.bytes(&kinds[..kinds.len().min(4)])
    }

    /// Times, the most significant byte first, at most as many as a row may have in a list.
    fn times(self, times: &[u64]) -> Body {
        times.iter().take(8).fold(self, |body, time| body.bytes(&time.to_be_bytes()))
    }

    /// Pairs of times, at most as many as a row may have.
    fn pairs(self, pairs: &[(u64, u64)]) -> Body {
        pairs.iter().take(8).fold(self, |body, (minimum, maximum)| body.times(&[*minimum, *maximum]))
    }
}

/// The name of a row type, as a page has it, and as `delkuthi_type_text` of the header gives it.
pub const fn type_text(number: u8) -> &'static str {
    match number {
        // begin type texts: made by a program
        1 => "Delay",
        2 => "StrongDelay",
        3 => "Repeat",
        4 => "Sporadic",
        5 => "Burst",
        6 => "Order",
        7 => "StrongSynchronization",
        8 => "ExecutionTime",
        9 => "Reaction",
        10 => "Repetition",
        11 => "Synchronization",
        12 => "Age",
        13 => "OutputSynchronization",
        14 => "InputSynchronization",
        15 => "Pattern",
        16 => "Arbitrary",
        17 => "Comparison",
        // end type texts
        _ => "no type",
    }
}
