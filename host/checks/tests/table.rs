//! The proved table reader and writer beside the model's, in each edition: by value, and the writer as the Rust crate offers it.
//! Clauses: §4.1 to §4.10, §5.9.6, §8.1 to §8.7, §8.16, §8.18, §9.3, §9.7, §9.8, §11.5.
#![cfg(table_ffi)]

use checks::rows::write;
use checks::table_ffi::{read_up_to, rewrite_up_to};
use model::TYPES;
use model::random::Random;
use model::random::seen::Seen;
use model::random::tables::{any_table, damaged_rows, damaged_table, table};
use model::types::order;
use model::{
    Constraint, NEWEST_EDITION, Refusal, edition_of, read_table_up_to, refused_row, table_bytes, table_bytes_in,
    write_table, write_table_in,
};

/// What a buffer is filled with, so that a byte written is noticed.
const FILL: u8 = 0xA5;

/// What a writer leaves in a buffer of this length, all bytes of it.
fn in_buffer<E>(length: usize, writer: impl Fn(&mut [u8]) -> Result<usize, E>) -> (Result<usize, E>, Vec<u8>) {
    let mut buffer = vec![FILL; length];
    (writer(&mut buffer), buffer)
}

/// Reads bytes and writes the rows again in their edition, in a buffer of this length, as the model does; counts the refusal. So where
/// edition 1 alone is taken, and where both are.
fn compare_bytes(bytes: &[u8], length: usize, seen: &mut Seen) {
    for newest in 1..=NEWEST_EDITION {
        let expected = read_table_up_to(newest, bytes);
        let answer = read_up_to(newest, bytes);
        assert_eq!(answer, expected.as_ref().map(Vec::len).map_err(|refusal| *refusal), "{newest}, {bytes:02x?}");
        let written = in_buffer(length, |buffer| rewrite_up_to(newest, bytes, buffer));
        let model = in_buffer(length, |buffer| {
            let writer_refusal = |number| Refusal { number, place: 0 };
            let rows = expected.as_ref().map_err(|refusal| *refusal)?;
            write_table_in(bytes[0], rows, buffer).map_err(writer_refusal)
        });
        assert_eq!(written, model, "{newest}, {bytes:02x?}");
        let _ = written.0.inspect_err(|refusal| seen.refusal(refusal.number));
    }
}

/// Writes rows in a buffer of this length, as the model does; counts the refusal.
fn compare_rows(rows: &[Constraint], length: usize, seen: &mut Seen) {
    let written = in_buffer(length, |buffer| write(rows, buffer));
    assert_eq!(written, in_buffer(length, |buffer| write_table(rows, buffer)), "{rows:?}");
    assert_eq!(checks::rows::refused_row(rows), refused_row(rows), "{rows:?}");
    let _ = seen.answer(written.0);
}

#[test]
fn accepted_tables() {
    let mut random = Random::new(301);
    let mut seen = Seen::default();
    for _ in 0..5_000 {
        let rows = any_table(&mut random);
        let bytes = table_bytes(&rows);
        let longer = bytes.len() + 1 + random.place(50);
        for length in [bytes.len(), longer, bytes.len() - 1, random.place(bytes.len()), 0] {
            compare_bytes(&bytes, length, &mut seen);
            compare_rows(&rows, length, &mut seen);
        }
        for bytes in (edition_of(&rows)..=NEWEST_EDITION).map(|edition| table_bytes_in(edition, &rows)) {
            let mut again = vec![0; bytes.len()];
            let answer = rewrite_up_to(NEWEST_EDITION, &bytes, &mut again);
            assert_eq!((answer, &again), (Ok(bytes.len()), &bytes), "read, then written");
        }
    }
    seen.demand_refusals(16..=16);
}

#[test]
fn damaged_bytes() {
    let mut random = Random::new(302);
    let mut seen = Seen::default();
    for _ in 0..20_000 {
        let bytes = damaged_table(&mut random);
        let length = random.place(2 * bytes.len() + 2);
        compare_bytes(&bytes, length, &mut seen);
    }
    seen.demand_refusals((1..=7).chain([18]));
    seen.demand_refusals(16..=16);
}

#[test]
fn rows_to_be_refused() {
    let mut random = Random::new(303);
    let mut seen = Seen::default();
    for _ in 0..20_000 {
        let rows = damaged_rows(&mut random);
        let length = random.place(2_000);
        compare_rows(&rows, length, &mut seen);
    }
    seen.demand_refusals((3..=7).chain([18]));
    seen.demand_refusals(16..=16);
}

#[test]
fn cut_at_every_byte() {
    let mut random = Random::new(304);
    let mut seen = Seen::default();
    for _ in 0..20 {
        let bytes = table_bytes(&table(&mut random, 32));
        (0..=bytes.len()).for_each(|end| compare_bytes(&bytes[..end], bytes.len(), &mut seen));
    }
    seen.demand_refusals(1..=2);
}

#[test]
fn rows_at_the_limit() {
    let mut seen = Seen::default();
    for number in 30..40 {
        let rows = vec![order(); number];
        compare_bytes(&table_bytes(&rows), 1_000, &mut seen);
        compare_rows(&rows, 1_000, &mut seen);
    }
    seen.demand_refusals(3..=3);
}

/// Every byte of a short table changed to every value.
#[test]
fn every_byte_changed() {
    let mut random = Random::new(305);
    let mut seen = Seen::default();
    let pool = [0, 1, 2, 3];
    for type_byte in TYPES {
        let row =
            model::random::tables::row_of_type(&mut random, type_byte, model::random::tables::Scale::Small, &pool);
        let bytes = table_bytes(&[row, order()]);
        for place in 0..bytes.len() {
            for value in 0..=255 {
                let mut changed = bytes.clone();
                changed[place] = value;
                compare_bytes(&changed, bytes.len(), &mut seen);
            }
        }
    }
    seen.demand_refusals(1..=2);
    seen.demand_refusals((4..=7).chain([18]));
}
