//! The table's bytes: reader, writer, and their questions in order.

mod common;

use common::{
    burst, delay, execution_time, order, reaction, repeat, repetition, sporadic, strong_delay, strong_synchronization,
};
use model::random::Random;
use model::random::seen::Seen;
use model::random::tables::{Scale, any_table, damaged_rows, damaged_table, row_of_type};
use model::types::{Delay, ExecutionTime, Order, Reaction, Repeat, StrongSynchronization};
use model::{
    Constraint, LAST_TIME, Monitor, NEWEST_EDITION, Refusal, TYPES, edition_of, read_table, read_table_up_to,
    table_bytes, table_bytes_in, write_table, write_table_in,
};

/// The bytes of a text in hexadecimal.
fn hex(text: &str) -> Vec<u8> {
    let digits: Vec<char> = text.chars().filter(|character| !character.is_whitespace()).collect();
    digits.chunks(2).map(|pair| u8::from_str_radix(&pair.iter().collect::<String>(), 16).unwrap()).collect()
}

/// The number and place of a reader's refusal.
fn refused(bytes: &[u8]) -> (u8, usize) {
    let Refusal { number, place } = read_table(bytes).expect_err("a refusal");
    (number, place)
}

#[test]
fn every_type_in_bytes() {
    let rows = [
        delay(2, 3),
        strong_delay(0, LAST_TIME),
        repeat(64, 4, u64::MAX),
        sporadic(5, 6, 7, 8),
        burst(9, 10, 11),
        order(),
        strong_synchronization(2, 1),
        strong_synchronization(3, 2),
        strong_synchronization(4, 3),
        execution_time(2, 5),
        reaction(4, 6),
        repetition(8, 5, 6, 7),
    ];
    let bytes = hex("01
        0013 01 00 01 0000000000000002 0000000000000003
        0013 02 00 01 0000000000000000 0FFFFFFFFFFFFFFF
        0013 03 00 40 0000000000000004 FFFFFFFFFFFFFFFF
        0022 04 00 0000000000000005 0000000000000006 0000000000000007 0000000000000008
        0013 05 00 09 000000000000000A 000000000000000B
        0003 06 00 01
        000C 07 02 00 01 0000000000000001
        000D 07 03 00 01 02 0000000000000002
        000E 07 04 00 01 02 03 0000000000000003
        0015 08 00 01 02 03 0000000000000002 0000000000000005
        0013 09 30 31 0000000000000004 0000000000000006
        001B 0A 00 08 0000000000000005 0000000000000006 0000000000000007");
    assert_eq!(table_bytes(&rows), bytes);
    assert_eq!(read_table(&bytes), Ok(rows.to_vec()));
}

#[test]
fn no_rows_and_all_rows() {
    assert_eq!(read_table(&[1]), Ok(Vec::new()));
    let most = table_bytes(&vec![order(); 32]);
    assert_eq!(read_table(&most), Ok(vec![order(); 32]));
    assert_eq!(refused(&table_bytes(&vec![order(); 33])), (3, 161));
}

#[test]
fn version_and_whole_rows() {
    assert_eq!((refused(&[]), refused(&[0]), refused(&[3, 0, 3])), ((1, 0), (1, 0), (1, 0)));
    let bytes = table_bytes(&[order(), order()]);
    assert_eq!((refused(&bytes[..7]), refused(&bytes[..8]), refused(&bytes[..10])), ((2, 6), (2, 6), (2, 6)));
    assert_eq!(refused(&hex("01 FFFF 06 00 01")), (2, 1));
    // a row that is not whole is refused with 2, also as the 33rd
    let rows = table_bytes(&vec![order(); 33]);
    assert_eq!(refused(&rows[..rows.len() - 1]), (2, 161));
    // a whole one with 3, whatever stands in it
    assert_eq!(refused(&[&rows[..161], &[0, 0]].concat()), (3, 161));
}

#[test]
fn shape() {
    for row in [
        "0000",
        "0001 00",
        "0001 08",
        "0003 08 00 01",
        "0003 09 00 01",
        "0012 09 30 31 0000000000000004 00000000000006",
        "0013 0B 00 01 0000000000000002 0000000000000003",
        "0003 00 00 01",
        "0003 FF 00 01",
    ] {
        assert_eq!(refused(&hex(&format!("01 {row}"))), (4, 1), "{row}");
    }
    // the length of another type, no n, an n out of range, an n that the length does not suit
    for row in ["0002 06 00", "0004 06 00 01 02", "0003 01 00 01", "0001 07", "0002 07 01", "0002 07 02"] {
        assert_eq!(refused(&hex(&format!("01 0003 06 00 01 {row}"))), (4, 6), "{row}");
    }
    assert_eq!(refused(&hex("01 000B 07 01 00 0000000000000001")), (4, 1));
    assert_eq!(refused(&hex("01 000F 07 05 00 01 02 03 04 0000000000000001")), (4, 1));
    assert_eq!(refused(&hex("01 000C 07 03 00 01 0000000000000001")), (4, 1));
    assert_eq!(refused(&hex("01 0014 08 00 01 02 03 0000000000000002 00000000000005")), (4, 1));
    assert_eq!(refused(&hex("01 001A 0A 00 08 0000000000000005 0000000000000006 00000000000007")), (4, 1));
    assert_eq!(refused(&hex("01 001B 0B 00 08 0000000000000005 0000000000000006 0000000000000007")), (4, 1));
    assert_eq!(refused(&hex("01 0016 08 00 01 02 03 0000000000000002 0000000000000005 00")), (4, 1));
}

#[test]
fn fields_in_order() {
    let number = |row: Constraint| refused(&table_bytes(&[order(), row]));
    let delay = |source, target, lower, upper| Constraint::Delay(Delay { source, target, lower, upper });
    assert_eq!(number(delay(64, 1, LAST_TIME + 1, 0)), (5, 6));
    assert_eq!(number(delay(1, 1, 0, 0)), (5, 6));
    assert_eq!(number(delay(0, 1, LAST_TIME + 1, 0)), (6, 6));
    assert_eq!(number(delay(0, 1, 0, u64::MAX - 1)), (6, 6));
    assert_eq!(number(delay(0, 1, u64::MAX, u64::MAX)), (6, 6));
    assert_eq!(number(strong_delay(0, u64::MAX)), (6, 6));
    assert_eq!(number(delay(0, 1, 1, 0)), (7, 6));
    assert_eq!(number(repeat(0, 1, 0)), (6, 6));
    assert_eq!(number(repeat(65, 1, 1)), (6, 6));
    assert_eq!(number(repeat(1, 1, u64::MAX - 1)), (6, 6));
    assert_eq!(number(sporadic(2, 1, 0, 0)), (7, 6));
    assert_eq!(number(sporadic(0, 1, u64::MAX, 0)), (6, 6));
    assert_eq!(number(sporadic(0, 1, 0, LAST_TIME + 1)), (6, 6));
    assert_eq!(number(burst(0, 1, 1)), (6, 6));
    assert_eq!(
        number(Constraint::StrongSynchronization(StrongSynchronization {
            kinds: vec![1, 2, 3, 1],
            tolerance: u64::MAX
        })),
        (5, 6)
    );
    assert_eq!(number(strong_synchronization(4, LAST_TIME + 1)), (6, 6));
    let execution = |start, stop, preempt, resume, lower, upper| {
        number(Constraint::ExecutionTime(ExecutionTime { start, stop, preempt, resume, lower, upper }))
    };
    assert_eq!(execution(0, 1, 2, 0, 2, 5), (5, 6));
    assert_eq!(execution(0, 1, 2, 64, 2, 5), (5, 6));
    assert_eq!(execution(0, 1, 2, 3, 2, u64::MAX), (6, 6));
    assert_eq!(execution(0, 1, 2, 3, 6, 5), (7, 6));
    // plain kinds in all types but 9, coloured ones in type 9: after 5, and before 6 and 7
    let reaction =
        |stimulus, response, minimum, maximum| Constraint::Reaction(Reaction { stimulus, response, minimum, maximum });
    assert_eq!(number(delay(48, 1, u64::MAX, 0)), (18, 6));
    assert_eq!(number(delay(0, 63, 2, 1)), (18, 6));
    assert_eq!(number(Constraint::Repeat(Repeat { event: 48, span: 0, lower: 0, upper: 0 })), (18, 6));
    assert_eq!(
        number(Constraint::StrongSynchronization(StrongSynchronization { kinds: vec![1, 2, 48], tolerance: 0 })),
        (18, 6)
    );
    assert_eq!(number(reaction(0, 49, 4, 6)), (18, 6));
    assert_eq!(number(reaction(48, 47, 6, 4)), (18, 6));
    assert_eq!(number(reaction(48, 48, 4, 6)), (5, 6));
    assert_eq!(number(reaction(48, 64, 4, 6)), (5, 6));
    assert_eq!(number(reaction(48, 49, 6, u64::MAX)), (6, 6));
    assert_eq!(number(reaction(48, 49, 6, 4)), (7, 6));
    assert_eq!((number(repetition(0, 1, 2, 3)), number(repetition(9, 1, 2, 3))), ((6, 6), (6, 6)));
    assert_eq!((number(repetition(8, 2, 1, 3)), number(repetition(8, 1, u64::MAX, 3))), ((7, 6), (6, 6)));
    assert_eq!(number(repetition(8, 1, 2, LAST_TIME + 1)), (6, 6));
    // the first bad row counts, whatever stands in later ones
    assert_eq!(refused(&table_bytes(&[delay(0, 1, 1, 0), delay(64, 1, 0, 0)])), (7, 1));
}

#[test]
fn writer_questions_in_order() {
    let mut buffer = [7; 16];
    let bad = Constraint::Order(Order { source: 64, target: 0 });
    assert_eq!(write_table(&[order(), bad.clone()], &mut []), Err(5));
    assert_eq!(write_table(&[vec![order(); 32], vec![bad]].concat(), &mut []), Err(3));
    assert_eq!(write_table(&[strong_synchronization(5, 0)], &mut []), Err(4));
    assert_eq!(write_table(&[delay(3, 2)], &mut []), Err(7));
    assert_eq!(write_table(&[order(), order(), order()], &mut buffer[..15]), Err(16));
    assert_eq!((write_table(&[], &mut []), buffer), (Err(16), [7; 16]));
    assert_eq!(write_table(&[order(), order()], &mut buffer), Ok(11));
    assert_eq!(buffer[..], hex("01 0003 06 00 01 0003 06 00 01 07 07 07 07 07")[..]);
    assert_eq!(write_table(&[order(), order(), order()], &mut buffer), Ok(16));
}

/// The version byte is the edition, and a type is known in the first edition that has it and in later ones (§16.1 to §16.5).
#[test]
fn editions() {
    let mut random = Random::new(13);
    for version in 0..=255 {
        let taken = |newest: u8| read_table_up_to(newest, &[version, 0, 3, 6, 0, 1]).is_ok();
        assert_eq!((taken(1), taken(2)), (version == 1, version == 1 || version == 2), "{version}");
    }
    for type_byte in TYPES {
        let row = row_of_type(&mut random, type_byte, Scale::Small, &[0, 1, 2, 3]);
        let rows = [order(), row.clone()];
        assert_eq!(row.edition(), if type_byte <= 10 { 1 } else { 2 });
        assert_eq!((edition_of(&rows), table_bytes(&rows)[0]), (row.edition(), row.edition()));
        for edition in 1..=NEWEST_EDITION {
            let bytes = table_bytes_in(edition, &rows);
            let refusal = Refusal { number: 4, place: 6 };
            let known = row.edition() <= edition;
            assert_eq!(read_table(&bytes), if known { Ok(rows.to_vec()) } else { Err(refusal) });
            assert_eq!(write_table_in(edition, &rows, &mut [0; 99]), if known { Ok(bytes.len()) } else { Err(4) });
        }
    }
}

#[test]
fn what_is_written_is_read_and_what_is_read_is_written() {
    let mut random = Random::new(11);
    let mut seen = Seen::default();
    let mut buffer = [0; 2048];
    for _ in 0..3_000 {
        let rows = any_table(&mut random);
        let size = write_table(&rows, &mut buffer).expect("an accepted table");
        assert_eq!(read_table(&buffer[..size]), Ok(rows));
        let bytes = damaged_table(&mut random);
        match read_table(&bytes) {
            Ok(rows) => assert_eq!(table_bytes_in(bytes[0], &rows), bytes),
            Err(refusal) => seen.refusal(refusal.number),
        }
        let rows = damaged_rows(&mut random);
        let written = seen.answer(write_table(&rows, &mut buffer).map(|_| ()));
        assert_eq!(written, Monitor::fresh(&rows).map(|_| ()));
    }
    seen.demand_refusals((1..=7).chain([18]));
}
