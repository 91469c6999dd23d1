//! The questions put to rows and steps (§8.3 to §8.11, §8.18, §8.19, §8.24), in their order (§9.5, §9.7).

use crate::limits::{FIRST_COLOURED, LAST_COLOUR, LAST_COUNT, LAST_KIND, LAST_TIME, ROW_LIMIT, stream};
use crate::steps::{History, Step};
use crate::types::{Constraint, Field};

/// The answer to a call: taken, or refused with the number of the first question answered "no".
pub type Answer = Result<(), u8>;

/// A refusal of bytes: its number and its place (§7.6).
#[derive(Clone, Copy, Debug, PartialEq, Eq)]
pub struct Refusal {
    pub number: u8,
    pub place: usize,
}

/// Puts one question: a "no" gives its number. With `?` behind each, the first "no" decides (§9.1).
pub fn ask(number: u8, yes: bool) -> Answer {
    if yes { Ok(()) } else { Err(number) }
}

/// Questions 3 to 7 and 18, row by row, as fresh and the table writer put them (§9.7), of a table of this edition (§16.4).
pub fn rows_questions(edition: u8, rows: &[Constraint]) -> Answer {
    rows_questions_within(usize::MAX, edition, rows)
}

/// The same of rows that are given in this many bytes each (§11.5).
pub fn rows_questions_within(room: usize, edition: u8, rows: &[Constraint]) -> Answer {
    for (before, row) in rows.iter().enumerate() {
        ask(3, before < ROW_LIMIT)?;
        // the type of a row is known, and its own length is the right one
        let known = row.edition() <= edition && row.fields().iter().all(Field::number_fits);
        ask(4, known && row.body().len() <= room)?;
        fields_questions(row)?;
    }
    Ok(())
}

/// 5, 18, 6 and 7, of one row.
pub fn fields_questions(row: &Constraint) -> Answer {
    ask(5, kinds_fit(&row.kinds()))?;
    ask(18, row.fields().iter().all(Field::sort_fits))?;
    ask(6, row.fields().iter().all(Field::in_range))?;
    ask(7, row.as_type().in_order())
}

/// Question 5 (§8.5).
fn kinds_fit(kinds: &[u8]) -> bool {
    let first_of_its_kind = |(i, kind): (usize, &u8)| !kinds[..i].contains(kind);
    kinds.iter().all(|&kind| kind <= LAST_KIND) && kinds.iter().enumerate().all(first_of_its_kind)
}

/// Questions 8 to 11, 19 and 24 of a step, over what is recorded (§9.5).
pub fn step_questions(recorded: &History, step: Step) -> Answer {
    ask(8, !recorded.closed())?;
    ask(24, recorded.count() < LAST_COUNT)?;
    match step {
        Step::Event { kind, time } => {
            ask(9, kind <= LAST_KIND)?;
            ask(19, kind < FIRST_COLOURED)?;
            ask(10, time <= LAST_TIME)?;
            ask(11, recorded.event_in_order(kind, time))
        }
        Step::Coloured { kind, colour, time } => {
            ask(9, kind <= LAST_KIND)?;
            ask(19, kind >= FIRST_COLOURED && colour <= LAST_COLOUR)?;
            ask(10, time <= LAST_TIME)?;
            ask(11, recorded.event_in_order(stream(kind, colour), time))
        }
        Step::Tick { time } => {
            ask(10, time <= LAST_TIME)?;
            ask(11, time > recorded.clock())
        }
        Step::Close => Ok(()),
    }
}
