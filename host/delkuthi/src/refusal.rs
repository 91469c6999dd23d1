//! The refusals: the number of the first question answered "no".

use core::fmt;

/// A refused call. It has changed nothing.
#[derive(Clone, Copy, Debug, PartialEq, Eq, Hash)]
pub struct Refusal {
    number: u8,
    at: Option<At>,
}

/// Which part of the input a refusal is about.
#[derive(Clone, Copy, Debug, PartialEq, Eq, Hash)]
enum At {
    /// A byte of a table or a recording.
    Byte(u64),
    /// A row of a list of rows.
    Row(usize),
}

impl Refusal {
    pub(crate) const NO_ROW: Refusal = Refusal { number: 15, at: None };
    pub(crate) const NO_ROOM: Refusal = Refusal { number: 16, at: None };

    /// The refusal of a row of a list of rows.
    pub(crate) fn of_row(number: u8, row: usize) -> Refusal {
        Refusal { number, at: Some(At::Row(row)) }
    }

    /// Decodes the answer of a call that reads a table or records: the place in their bytes, times 256, plus the number.
    pub(crate) fn of_bytes(answer: u64) -> Result<(), Refusal> {
        let (number, place) = ((answer % 256) as u8, answer / 256);
        if number == 0 { Ok(()) } else { Err(Refusal { number, at: Some(At::Byte(place)) }) }
    }

    /// Decodes the answer of the table writer: the number of bytes written, times 256; or the row, times 256, plus the number.
    /// A buffer that is too short has no row.
    pub(crate) fn of_writer(answer: u64) -> Result<usize, Refusal> {
        let (number, rest) = ((answer % 256) as u8, (answer / 256) as usize);
        match number {
            0 => Ok(rest),
            16 => Err(Refusal { number, at: None }),
            _ => Err(Refusal { number, at: Some(At::Row(rest)) }),
        }
    }

    /// Decodes the answer of a step.
    #[inline]
    pub(crate) fn of_step(number: u8) -> Result<(), Refusal> {
        if number == 0 { Ok(()) } else { Err(Refusal { number, at: None }) }
    }

    /// The refusal's number, as `include/delkuthi.h` lists them.
    #[inline]
    pub fn number(&self) -> u8 {
        self.number
    }

    /// For the refusal of a table or of records, the place of the length field concerned, in bytes; 0 for the version byte.
    pub fn place(&self) -> Option<u64> {
        match self.at {
            Some(At::Byte(place)) => Some(place),
            _ => None,
        }
    }

    /// For a refusal of [`write_table`](crate::write_table), the number of the refused row, from 0.
    pub fn row(&self) -> Option<usize> {
        match self.at {
            Some(At::Row(row)) => Some(row),
            _ => None,
        }
    }

    /// A line of text for the number.
    pub fn text(&self) -> &'static str {
        refusal_text(self.number)
    }
}

/// A line of text for the number of a refusal, as `delkuthi_refusal_text` of the header has it. 0 is not a refusal.
pub const fn refusal_text(number: u8) -> &'static str {
    match number {
        // begin refusal texts: made by a program
        0 => "taken",
        1 => "the table does not begin with a version byte 1, or 2 where both editions are taken",
        2 => "a length field or a row of the table is not whole",
        3 => "the table has more than 32 rows",
        4 => "a row has no type of the table's edition, no known n or operator, or the wrong length",
        5 => "a row has a kind above 63, or one kind twice",
        6 => "a row has a time, span or maximum out of range",
        7 => "a row has times that are not in order, or a false comparison",
        8 => "the recording is closed",
        9 => "the kind is above 63",
        10 => "the time is above 2^60 - 1",
        11 => "the time is not in order",
        12 => "more than 64 would wait in a row",
        13 => "the recording does not begin with a version byte 1 or 2",
        14 => "a record is not whole, or its length is not 8, 9 or 10",
        15 => "there is no row of that number",
        16 => "the buffer is too short",
        17 => "a file is too large",
        18 => "a row has a plain kind where its type takes coloured ones, or a coloured one where it takes plain ones",
        19 => "an event has no colour and a coloured kind, or a colour and a plain kind, or no such colour",
        20 => "a kind is found in both recordings",
        21 => "there is no step to withdraw",
        22 => "the recording has more than 256 records",
        23 => "no stretch of the recording breaks the row",
        24 => "the count of steps is full",
        25 => "the row is not a Repeat of span 1",
        26 => "the last step has another number",
        // end refusal texts
        _ => "a refusal without a text",
    }
}

impl fmt::Display for Refusal {
    fn fmt(&self, f: &mut fmt::Formatter) -> fmt::Result {
        write!(f, "refused with {}: {}", self.number, self.text())?;
        match self.at {
            Some(At::Byte(place)) => write!(f, " (at byte {place})"),
            Some(At::Row(row)) => write!(f, " (row {row})"),
            None => Ok(()),
        }
    }
}

#[cfg(feature = "std")]
impl std::error::Error for Refusal {}
