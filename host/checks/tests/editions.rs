//! Both forms of every call on a table: each version byte and each type byte, and tables of edition 1 through both.
//! Clauses: §4.2, §8.1, §8.4, §16.1 to §16.7.

use checks::editions::{FORMS, Form};
use delkuthi::{Monitor, TABLE_LIMIT, WORDS};
use model::limits::SHORT_ROW;
use model::random::Random;
use model::random::recordings::recording;
use model::random::seen::Seen;
use model::random::tables::{Scale, any_table_in, damaged_rows_in, damaged_table, row_of_type, table};
use model::types::{delay, order};
use model::{
    Constraint, NEWEST_EDITION, Refusal, TYPES, edition_of, read_table_up_to, recording_bytes, refused_short_in,
    short_body, table_bytes_in, write_short_in,
};

/// A recording for the rows: 0@10, tick 14.
fn short() -> Vec<u8> {
    recording_bytes(&model::notation::steps("0@10, tick 14"))
}

/// The refusal of a call that reads a table.
fn refused(form: &Form, table: &[u8]) -> Option<(u8, usize)> {
    let answer = form.fresh(&mut Monitor::from_words([0; WORDS]), table);
    answer.err().map(|Refusal { number, place }| (number, place))
}

#[test]
fn every_version_byte() {
    let mut seen = Seen::default();
    for form in &FORMS {
        for version in 0..=255 {
            for rows in [&[][..], &[delay(2, 3), order()]] {
                let table = table_bytes_in(version, rows);
                form.compare(&table, &short(), 0, &mut seen);
                let taken = (1..=form.newest).contains(&version);
                assert_eq!(refused(form, &table), (!taken).then_some((1, 0)), "version {version}");
            }
        }
        assert_eq!(refused(form, &[]), Some((1, 0)));
    }
    seen.demand_refusals(1..=1);
}

/// Every type byte with the fields of every type behind it, in each edition.
#[test]
fn every_type_byte() {
    let mut random = Random::new(1101);
    let mut seen = Seen::default();
    for (form, edition) in FORMS.iter().flat_map(|form| (1..=NEWEST_EDITION).map(move |edition| (form, edition))) {
        for like in TYPES {
            let row = row_of_type(&mut random, like, Scale::Small, &[0, 1, 2, 3]);
            for type_byte in 0..=255 {
                let mut table = table_bytes_in(edition, &[order(), row.clone()]);
                // behind the version, an Order of 5 bytes and a length field
                table[8] = type_byte;
                form.compare(&table, &short(), 1, &mut seen);
                if edition <= form.newest && !known(type_byte, edition) {
                    assert_eq!(refused(form, &table), Some((4, 6)), "type {type_byte} in edition {edition}");
                }
            }
        }
    }
    seen.demand_refusals([1, 4].into_iter());
}

/// Is it the number of a type that the edition has: 1 to 10, or any?
fn known(type_byte: u8, edition: u8) -> bool {
    TYPES.contains(&type_byte) && (type_byte <= 10 || edition == 2)
}

/// Can the row be given by value?
fn is_short(row: &Constraint) -> bool {
    row.body().len() <= SHORT_ROW
}

/// What the writer of a form answers, and leaves in a buffer, is what the model's does.
fn compare_writer(form: &Form, rows: &[Constraint], length: usize, seen: &mut Seen) {
    let bodies: Vec<u8> = rows.iter().flat_map(short_body).collect();
    let (mut one, mut other) = (vec![0xA5; length], vec![0xA5; length]);
    let answer = form.write(&bodies, &mut one);
    let expected = write_short_in(form.newest, rows, &mut other);
    assert_eq!(answer.map_err(|refusal| refusal.number), expected, "{rows:?}");
    assert_eq!(one, other, "{rows:?}");
    if let Err(Refusal { number, place }) = answer {
        assert_eq!((number != 16).then_some(place), refused_short_in(form.newest, rows), "{rows:?}");
        seen.refusal(number);
    }
}

#[test]
fn every_type_byte_to_the_writers() {
    let mut random = Random::new(1102);
    for form in &FORMS {
        for like in TYPES {
            let row = row_of_type(&mut random, like, Scale::Small, &[0, 1, 2, 3]);
            for type_byte in 0..=255 {
                let mut bodies = [short_body(&order()), short_body(&row)].concat();
                bodies[34] = type_byte;
                let mut buffer = [0; TABLE_LIMIT];
                let answer = form.write(&bodies, &mut buffer).map_err(|Refusal { number, place }| (number, place));
                if !known(type_byte, form.newest) {
                    assert_eq!(answer, Err((4, 1)), "type {type_byte}");
                } else if type_byte == like && is_short(&row) {
                    let table = table_bytes_in(form.newest, &[order(), row.clone()]);
                    assert_eq!((answer, &buffer[..table.len()]), (Ok(table.len()), &table[..]));
                }
            }
        }
    }
}

#[test]
fn the_writers_beside_the_model() {
    let mut random = Random::new(1103);
    for form in &FORMS {
        let mut seen = Seen::default();
        for turn in 0..4_000 {
            // now and then rows of types that the edition does not have
            let edition = if turn % 10 == 0 { NEWEST_EDITION } else { form.newest };
            let rows = match turn % 2 {
                0 => any_table_in(edition, &mut random),
                _ => damaged_rows_in(edition, &mut random),
            };
            let length = random.place(1_300);
            compare_writer(form, &rows, length, &mut seen);
        }
        seen.demand_refusals((3..=7).chain([16, 18]));
    }
}

/// What was written is read again, and what was read is written again, byte for byte: in each edition, by the form for it.
#[test]
fn there_and_back_in_each_edition() {
    let mut random = Random::new(1104);
    for form in &FORMS {
        for _ in 0..2_000 {
            let mut rows = any_table_in(form.newest, &mut random);
            rows.retain(is_short);
            let mut buffer = [0; TABLE_LIMIT];
            let written =
                form.write(&rows.iter().flat_map(short_body).collect::<Vec<u8>>(), &mut buffer).expect("a table");
            assert_eq!(buffer[..written], table_bytes_in(form.newest, &rows));
            assert_eq!(read_table_up_to(form.newest, &buffer[..written]), Ok(rows));
            assert_eq!(refused(form, &buffer[..written]), None);
        }
    }
}

/// Tables of edition 1, accepted and damaged, through a call and its second form: the same answers and the same monitor.
#[test]
fn edition_1_through_both_forms() {
    let mut random = Random::new(1105);
    let mut seen = Seen::default();
    let [first, second] = &FORMS;
    for turn in 0..3_000 {
        let rows = any_table_in(1, &mut random);
        let mut table = if turn % 3 > 0 { table_bytes_in(1, &rows) } else { damaged_table(&mut random) };
        if let Some(version) = table.first_mut() {
            *version = 1;
        }
        let (records, row) = (recording(&mut random, &rows, 12), random.below(4));
        let mut monitors = [(); 2].map(|()| Monitor::from_words([random.clone().number(); WORDS]));
        let [one, other] = &mut monitors;
        assert_eq!(first.fresh(one, &table), second.fresh(other, &table));
        assert!(one == other, "another monitor, of {table:02x?}");
        assert_eq!(first.report(one, &table, &records), second.report(other, &table, &records));
        assert!(one == other, "another monitor after the report, of {table:02x?}");
        assert_eq!(first.stamps(&table, &records, row, 3), second.stamps(&table, &records, row, 3));
        assert_eq!(first.stretch(&table, &records, row), second.stretch(&table, &records, row));
        first.compare(&table, &records, row, &mut seen);
    }
    FORMS.iter().for_each(|form| form.compare(&table_bytes_in(1, &vec![order(); 33]), &short(), 0, &mut seen));
    seen.demand_refusals((2..=7).chain([18]));
}

/// Tables of edition 2 with types that both have: what the rows read is what they read in edition 1.
#[test]
fn the_same_rows_in_edition_2() {
    let mut random = Random::new(1106);
    let mut seen = Seen::default();
    let [first, second] = &FORMS;
    for _ in 0..1_500 {
        let number = random.place(9);
        let rows = table(&mut random, number);
        let records = recording(&mut random, &rows, 20);
        let (one, two) = (table_bytes_in(1, &rows), table_bytes_in(2, &rows));
        for row in 0..3 {
            second.compare(&two, &records, row, &mut seen);
        }
        assert_eq!(refused(first, &two), Some((1, 0)));
        if edition_of(&rows) == 1 {
            let mut monitors = [(); 2].map(|()| Monitor::from_words([0; WORDS]));
            let [old, new] = &mut monitors;
            assert_eq!(first.report(old, &one, &records), second.report(new, &two, &records));
            assert!(old == new, "another monitor in edition 2");
        }
    }
}
