//! The limits, and streams by kind and colour.

/// The last kind (§1.2).
pub const LAST_KIND: u8 = 63;
/// The first coloured kind (§1.2).
pub const FIRST_COLOURED: u8 = 48;
/// The last colour (§1.2).
pub const LAST_COLOUR: u8 = 7;
/// How many streams there are (§1.9).
pub const STREAMS: u8 = 176;
/// The last time (§1.1).
pub const LAST_TIME: u64 = (1 << 60) - 1;
/// The last time of the versions up to 0.3, at which tests look as at the last one.
pub const EARLIER_LAST_TIME: u64 = (1 << 56) - 1;
/// The last count of steps (§1.7).
pub const LAST_COUNT: u64 = u64::MAX;
/// The mark for no upper limit, in Delay, Repeat and Sporadic (§4.7).
pub const NO_LIMIT: u64 = u64::MAX;
/// The newest edition of the table (§16.1).
pub const NEWEST_EDITION: u8 = 2;
/// How many rows a table has at most (§4.2).
pub const ROW_LIMIT: usize = 32;
/// How many bytes a row has that is given by value (§11.5).
pub const SHORT_ROW: usize = 34;
/// How large spans and maxima are at most (§4.6).
pub const SPAN_LIMIT: u8 = 64;
/// How large the span of a Repetition is at most (§4.6).
pub const REPETITION_SPAN_LIMIT: u8 = 8;
/// How many wait in a row at most (§6.5).
pub const WAITING_LIMIT: usize = 64;

/// The stream of a coloured kind and a colour (§1.9); a plain kind is a stream by itself.
pub fn stream(kind: u8, colour: u8) -> u8 {
    FIRST_COLOURED + 8 * (kind - FIRST_COLOURED) + colour
}
