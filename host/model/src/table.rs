//! The table's bytes (§4.1 to §4.7) and the table's questions (§9.3), in each edition (§16).
//!
//! The newest edition that a call takes is 1 for the calls of the first edition and 2 for their second forms. The functions that do
//! not say it are the second forms, on tables of the edition that their rows need.

use crate::limits::{NEWEST_EDITION, ROW_LIMIT, SHORT_ROW};
use crate::questions::{Refusal, ask, fields_questions, rows_questions, rows_questions_within};
use crate::types::{Constraint, Field, Given};

/// A row's bytes (§4.3), whatever stands in the fields.
fn row_bytes(row: &Constraint) -> Vec<u8> {
    with_length(&row.body())
}

/// A length field of two bytes, the most significant first (§4.1), and these bytes behind it.
pub(crate) fn with_length(body: &[u8]) -> Vec<u8> {
    let length = u16::try_from(body.len()).expect("a length of two bytes");
    [&length.to_be_bytes(), body].concat()
}

/// The table of any rows in an edition (§4.2, §16.1), no question put.
pub fn table_bytes_in(edition: u8, rows: &[Constraint]) -> Vec<u8> {
    std::iter::once(edition).chain(rows.iter().flat_map(row_bytes)).collect()
}

/// The same in the edition that the rows need.
pub fn table_bytes(rows: &[Constraint]) -> Vec<u8> {
    table_bytes_in(edition_of(rows), rows)
}

/// The first edition that has the types of all rows (§16.2).
pub fn edition_of(rows: &[Constraint]) -> u8 {
    rows.iter().map(Constraint::edition).max().unwrap_or(1)
}

/// Writes the table in an edition and answers the number of bytes written, or the number of the refusal: questions 3 to 7 and 18,
/// then 16 (§9.7, §9.8, §16.4).
pub fn write_table_in(edition: u8, rows: &[Constraint], buffer: &mut [u8]) -> Result<usize, u8> {
    write_within(usize::MAX, edition, rows, buffer)
}

/// The same of rows that are given by value, in 34 bytes each (§11.5).
pub fn write_short_in(edition: u8, rows: &[Constraint], buffer: &mut [u8]) -> Result<usize, u8> {
    write_within(SHORT_ROW, edition, rows, buffer)
}

fn write_within(room: usize, edition: u8, rows: &[Constraint], buffer: &mut [u8]) -> Result<usize, u8> {
    rows_questions_within(room, edition, rows)?;
    let bytes = table_bytes_in(edition, rows);
    ask(16, bytes.len() <= buffer.len())?;
    buffer[..bytes.len()].copy_from_slice(&bytes);
    Ok(bytes.len())
}

/// The same in the edition that the rows need.
pub fn write_table(rows: &[Constraint], buffer: &mut [u8]) -> Result<usize, u8> {
    write_table_in(edition_of(rows), rows, buffer)
}

/// Adds a row, given by its bytes without a length field, to a table in a buffer of this many bytes (§9.12): the table with the row.
pub fn add_row(table: &[u8], body: &[u8], room: usize) -> Result<Vec<u8>, Refusal> {
    let table = &table[..table.len().min(room)];
    let rows = read_table(table)?;
    let refused = |number| Refusal { number, place: table.len() };
    ask(3, rows.len() < ROW_LIMIT).map_err(refused)?;
    let row = row_of(body).ok_or(4).map_err(refused)?;
    fields_questions(&row).map_err(refused)?;
    ask(16, table.len() + 2 + body.len() <= room).map_err(refused)?;
    let mut bytes = [table, &with_length(body)].concat();
    bytes[0] = bytes[0].max(row.edition());
    Ok(bytes)
}

/// The body of a row of some rows, read back into a buffer of this many bytes (§9.13, §9.14).
pub fn row_back(rows: &[Constraint], row: u64, room: usize) -> Result<Vec<u8>, u8> {
    let body = rows.get(usize::try_from(row).unwrap_or(usize::MAX)).map(Constraint::body).ok_or(15)?;
    ask(16, body.len() <= room)?;
    Ok(body)
}

/// The same of a table.
pub fn table_row(table: &[u8], row: u64, room: usize) -> Result<Vec<u8>, Refusal> {
    row_back(&read_table(table)?, row, room).map_err(|number| Refusal { number, place: 0 })
}

/// The number of the first row that is refused, as the writer of an edition puts its questions row by row (§11.5).
pub fn refused_row_in(edition: u8, rows: &[Constraint]) -> Option<usize> {
    (0..rows.len()).find(|row| rows_questions(edition, &rows[..=*row]).is_err())
}

/// The same of rows that are given in 34 bytes each.
pub fn refused_short_in(edition: u8, rows: &[Constraint]) -> Option<usize> {
    (0..rows.len()).find(|row| rows_questions_within(SHORT_ROW, edition, &rows[..=*row]).is_err())
}

/// The 34 bytes of a row, of which those past its end do not count (§11.5).
pub fn short_body(row: &Constraint) -> Vec<u8> {
    let mut body = row.body();
    body.resize(SHORT_ROW, 0);
    body
}

/// The same in the edition that the rows need.
pub fn refused_row(rows: &[Constraint]) -> Option<usize> {
    refused_row_in(edition_of(rows), rows)
}

/// Reads a table of an edition up to the newest that is taken: question 1 first, then row by row (§9.3, §16.3).
pub fn read_table_up_to(newest: u8, bytes: &[u8]) -> Result<Vec<Constraint>, Refusal> {
    let edition = bytes.first().copied().unwrap_or(0);
    ask(1, (1..=newest).contains(&edition)).map_err(|number| Refusal { number, place: 0 })?;
    let mut rows = Vec::new();
    let mut place = 1;
    while place < bytes.len() {
        let (row, size) = read_row(edition, &bytes[place..], rows.len()).map_err(|number| Refusal { number, place })?;
        rows.push(row);
        place += size;
    }
    Ok(rows)
}

/// The same up to the newest edition of all.
pub fn read_table(bytes: &[u8]) -> Result<Vec<Constraint>, Refusal> {
    read_table_up_to(NEWEST_EDITION, bytes)
}

/// Reads the row at the start of the bytes, with this many rows before it. Returns it and the number of bytes it takes.
fn read_row(edition: u8, bytes: &[u8], before: usize) -> Result<(Constraint, usize), u8> {
    let body = body_at_start(bytes);
    // §8.2
    ask(2, body.is_some())?;
    let body = body.unwrap_or(&[]);
    // §8.3
    ask(3, before < ROW_LIMIT)?;
    let row = row_of(body).filter(|row| row.edition() <= edition).ok_or(4)?;
    fields_questions(&row)?;
    Ok((row, 2 + body.len()))
}

/// The bytes behind the length field at the start, as many as it says, if the field and all of these are there.
pub(crate) fn body_at_start(bytes: &[u8]) -> Option<&[u8]> {
    let (length, rest) = bytes.split_first_chunk::<2>()?;
    rest.get(..usize::from(u16::from_be_bytes(*length)))
}

/// Question 4 (§8.4) but for the edition: the row that a body stands for, if it is one of a type's, neither shorter nor longer.
fn row_of(body: &[u8]) -> Option<Constraint> {
    let (number, left) = body.split_first()?;
    let mut given = Body { n: 0, left };
    let row = Constraint::read(*number, &mut given)?;
    (given.left.is_empty() && row.fields().iter().all(Field::number_fits)).then_some(row)
}

/// The bytes of a row's fields, one after the other (§4.4), and the n that stands before them.
struct Body<'a> {
    n: u8,
    left: &'a [u8],
}

impl Given for Body<'_> {
    fn number(&mut self) -> Option<()> {
        self.n = self.byte("n")?;
        Some(())
    }

    fn byte(&mut self, _name: &str) -> Option<u8> {
        self.left.split_off_first().copied()
    }

    fn time(&mut self, _name: &str) -> Option<u64> {
        let (bytes, left) = self.left.split_first_chunk::<8>()?;
        self.left = left;
        Some(u64::from_be_bytes(*bytes))
    }

    fn kinds(&mut self, name: &str) -> Option<Vec<u8>> {
        (0..self.n).map(|_| self.byte(name)).collect()
    }

    fn times(&mut self, name: &str) -> Option<Vec<u64>> {
        (0..self.n).map(|_| self.time(name)).collect()
    }

    fn pairs(&mut self, name: &str) -> Option<Vec<(u64, u64)>> {
        (0..self.n).map(|_| Some((self.time(name)?, self.time(name)?))).collect()
    }
}

/// The time in the eight bytes from a place on.
pub(crate) fn time_at(body: &[u8], place: usize) -> u64 {
    let (bytes, _) = body[place..].split_first_chunk::<8>().expect("the eight bytes of a time");
    u64::from_be_bytes(*bytes)
}
