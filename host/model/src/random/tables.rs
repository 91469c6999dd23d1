//! Random tables: accepted ones, rows that are to be refused, and damaged bytes.

use super::Random;
use crate::limits::{
    EARLIER_LAST_TIME, FIRST_COLOURED, LAST_KIND, LAST_TIME, NEWEST_EDITION, NO_LIMIT, ROW_LIMIT, SPAN_LIMIT,
};
use crate::table::table_bytes;
use crate::types::{Constraint, TYPES, types_in};

/// How large the times of a row are.
#[derive(Clone, Copy, Debug, PartialEq, Eq)]
pub enum Scale {
    /// 0 to 4: every corner comes up often, and all continuations can be tried.
    Small,
    /// Up to some thousands, the uppers large: rows stay open long enough for 64 to wait.
    Patient,
    /// Any, and the ends of the range most of all: sums of two pass 2^60. The last time of earlier versions is looked at too.
    Extreme,
}

impl Scale {
    /// A time of this scale.
    pub fn time(self, random: &mut Random) -> u64 {
        match self {
            Scale::Small => random.below(5),
            Scale::Patient => random.from_to(0, 300),
            Scale::Extreme => match random.below(5) {
                0 => random.below(3),
                1 => LAST_TIME - random.below(3),
                2 => LAST_TIME >> random.below(60),
                3 => EARLIER_LAST_TIME - 1 + random.below(4),
                _ => random.from_to(0, LAST_TIME),
            },
        }
    }

    /// A lower and an upper not below it: at times equal, at times 0.
    fn lower_and_upper(self, random: &mut Random) -> (u64, u64) {
        let (one, other) = (self.time(random), self.time(random));
        let (lower, upper) = (one.min(other), one.max(other));
        match (self, random.below(8)) {
            (_, 0) => (lower, lower),
            (Scale::Patient, 1..=6) => (random.below(4), random.from_to(200, 5000)),
            (_, 1) => (0, upper),
            _ => (lower, upper),
        }
    }
}

/// Different kinds from a pool that has at least as many.
pub fn different(random: &mut Random, pool: &[u8], number: usize) -> Vec<u8> {
    let mut left = pool.to_vec();
    (0..number).map(|_| left.swap_remove(random.place(left.len()))).collect()
}

/// Plain kinds for the rows of a table to share: 4 to 8 of them, or all 48.
pub fn pool(random: &mut Random) -> Vec<u8> {
    let all: Vec<u8> = (0..FIRST_COLOURED).collect();
    if random.chance(10) {
        return all;
    }
    let number = 4 + random.place(5);
    different(random, &all, number)
}

/// What a random row is made of: two kinds and two times, drawn for every type, and what a type draws besides.
pub struct Draw<'a> {
    pub random: &'a mut Random,
    scale: Scale,
    pool: &'a [u8],
    /// Different plain kinds.
    pub kinds: [u8; 2],
    /// A lower, and an upper not below it.
    pub bounds: (u64, u64),
}

impl Draw<'_> {
    /// A lower and an upper that may be the mark for no limit.
    pub fn lower_and_limit(&mut self) -> (u64, u64) {
        let (lower, upper) = self.scale.lower_and_upper(self.random);
        if self.random.chance(25) { (lower, NO_LIMIT) } else { (lower, upper) }
    }

    /// A time.
    pub fn time(&mut self) -> u64 {
        self.scale.time(self.random)
    }

    /// A time: mostly 0.
    pub fn time_mostly_0(&mut self) -> u64 {
        if self.random.chance(60) { 0 } else { self.time() }
    }

    /// A span or maximum: mostly small, at times any.
    pub fn span(&mut self) -> u8 {
        let last = if self.random.chance(80) { 4 } else { u64::from(SPAN_LIMIT) };
        self.random.from_to(1, last) as u8
    }

    /// Different plain kinds, at most 4.
    pub fn different(&mut self, number: usize) -> Vec<u8> {
        different(self.random, self.pool, number)
    }

    /// Different coloured kinds, at most 16: mostly the first ones, so that rows share them.
    pub fn coloured(&mut self, number: usize) -> Vec<u8> {
        let last = if self.random.chance(70) { FIRST_COLOURED + number as u8 } else { LAST_KIND };
        let coloured: Vec<u8> = (FIRST_COLOURED..=last).collect();
        different(self.random, &coloured, number)
    }
}

/// A row of this type, accepted, with plain kinds of the pool (at least 4).
///
/// # Panics
/// Where no type has the number.
pub fn row_of_type(random: &mut Random, type_byte: u8, scale: Scale, pool: &[u8]) -> Constraint {
    let kinds = different(random, pool, 2);
    let bounds = scale.lower_and_upper(random);
    let mut draw = Draw { random, scale, pool, kinds: [kinds[0], kinds[1]], bounds };
    Constraint::random(type_byte, &mut draw).expect("the number of a type")
}

/// An accepted row of any type.
pub fn row(random: &mut Random, scale: Scale, pool: &[u8]) -> Constraint {
    let type_byte = *random.pick(&TYPES);
    row_of_type(random, type_byte, scale, pool)
}

/// An accepted table of this many rows, mostly of one scale.
pub fn table(random: &mut Random, rows: usize) -> Vec<Constraint> {
    table_in(NEWEST_EDITION, random, rows)
}

/// The same, of types that an edition of the table has.
pub fn table_in(edition: u8, random: &mut Random, rows: usize) -> Vec<Constraint> {
    let types = types_in(edition);
    let scales = [Scale::Small, Scale::Patient, Scale::Extreme];
    let pool = pool(random);
    let common = *random.pick(&scales);
    let scale = |random: &mut Random| if random.chance(80) { common } else { *random.pick(&scales) };
    (0..rows)
        .map(|_| {
            let scale = scale(random);
            let type_byte = *random.pick(&types);
            row_of_type(random, type_byte, scale, &pool)
        })
        .collect()
}

/// An accepted table of 0 to 32 rows: often few, often the full 32.
pub fn any_table(random: &mut Random) -> Vec<Constraint> {
    any_table_in(NEWEST_EDITION, random)
}

/// The same, of types that an edition of the table has.
pub fn any_table_in(edition: u8, random: &mut Random) -> Vec<Constraint> {
    let rows = match random.below(4) {
        0 => random.place(3),
        1 => ROW_LIMIT,
        _ => random.place(ROW_LIMIT + 1),
    };
    table_in(edition, random, rows)
}

/// Rows that are mostly to be refused, by questions 3 to 7 and 18: one or two of them damaged, or too many.
pub fn damaged_rows(random: &mut Random) -> Vec<Constraint> {
    damaged_rows_in(NEWEST_EDITION, random)
}

/// The same, of types that an edition of the table has.
pub fn damaged_rows_in(edition: u8, random: &mut Random) -> Vec<Constraint> {
    let number = if random.chance(20) { ROW_LIMIT + 1 + random.place(3) } else { 1 + random.place(ROW_LIMIT) };
    let mut rows = table_in(edition, random, number);
    let damages = if random.chance(10) { 0 } else { 1 + random.below(2) };
    for _ in 0..damages {
        let place = random.place(number);
        rows[place].as_type_mut().damage(random);
    }
    rows
}

/// A time outside the range, or just inside it.
pub fn odd_time(random: &mut Random) -> u64 {
    *random.pick(&[EARLIER_LAST_TIME + 1, LAST_TIME, LAST_TIME + 1, 1 << 63, NO_LIMIT - 1, NO_LIMIT])
}

/// A kind outside the range, just inside it, or at the border of plain and coloured ones.
pub fn odd_kind(random: &mut Random) -> u8 {
    *random.pick(&[LAST_KIND, LAST_KIND + 1, 128, 255, FIRST_COLOURED - 1, FIRST_COLOURED])
}

/// A span or maximum outside the range, or just inside it.
pub fn odd_span(random: &mut Random) -> u8 {
    *random.pick(&[0, SPAN_LIMIT, SPAN_LIMIT + 1, 255])
}

/// Bytes that a table reader mostly has to refuse.
pub fn damaged_table(random: &mut Random) -> Vec<u8> {
    let rows = if random.chance(50) { damaged_rows(random) } else { any_table(random) };
    let mut bytes = table_bytes(&rows);
    if random.chance(60) {
        super::damage(random, &mut bytes);
    }
    bytes
}
