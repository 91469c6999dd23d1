//! Vectors for cases that random lists meet rarely: each refusal, the ends of every range, and calls that few recordings lead to.

use crate::contract::ROOM;
use crate::vector::Vector;
use model::contract::text;
use model::notation::steps;
use model::types::{age, arbitrary, comparison, input_synchronization, output_synchronization, pattern};
use model::types::{delay, order, repeat, strong_delay};
use model::{
    Constraint, LAST_COUNT, LAST_TIME, NO_LIMIT, RECORD_LIMIT, Step, recording_bytes, table_bytes, table_bytes_in,
};

/// All of them.
pub fn vectors() -> Vec<Vector> {
    let mut made = vec![zeros(), last_steps(), late_stamps_refused(), last_time()];
    made.extend(tables_of_the_contract().into_iter().map(|bytes| one_table(&bytes)));
    made.extend(odd_tables().iter().map(|bytes| one_table(bytes)));
    made.extend(odd_recordings().iter().map(|bytes| one_recording(bytes)));
    made.extend([record_limit(RECORD_LIMIT), record_limit(RECORD_LIMIT + 1)]);
    made.extend((0..=2).map(short_buffers));
    made.extend([33, 32].map(rows_written));
    made.push(same_row_in_two_tables());
    made
}

/// Memory of zeros: a closed monitor without rows (§15.13).
fn zeros() -> Vector {
    let mut vector = Vector::new("chosen, memory of zeros");
    vector.zeros();
    vector
}

/// The last two steps that the count has room for, and one more (§1.7, §8.24).
fn last_steps() -> Vector {
    let mut vector = Vector::new("chosen, the last count");
    vector.table(&table_bytes(&[delay(2, 3)]));
    vector.fresh(1);
    vector.count(LAST_COUNT - 2);
    for step in steps("0@10, tick 14, tick 15, 0@20, close") {
        vector.step(step);
    }
    vector.withdraw();
    vector.step(Step::Close);
    vector
}

/// The last time, and events of every plain kind at it.
fn last_time() -> Vector {
    let mut vector = Vector::new("chosen, the last time");
    vector.table(&table_bytes(&[delay(0, LAST_TIME), repeat(1, 0, LAST_TIME)]));
    vector.fresh(2);
    for kind in 0..=64 {
        vector.step(Step::Event { kind, time: LAST_TIME });
        vector.step(Step::Coloured { kind, colour: kind % 9, time: LAST_TIME });
    }
    vector.step(Step::Tick { time: LAST_TIME });
    vector.step(Step::Tick { time: LAST_TIME + 1 });
    vector.step(Step::Close);
    vector
}

/// Questions 15, 25 and 10 of late stamps (§12.5).
fn late_stamps_refused() -> Vector {
    let mut vector = Vector::new("chosen, late stamps");
    vector.table(&table_bytes(&[delay(2, 3), repeat(1, 4, 6), repeat(2, 4, 6)]));
    vector.recording(&recording_bytes(&steps("0@10, 0@15, tick 20")));
    for (row, late) in [(0, 0), (1, 0), (1, 2), (2, 0), (3, 0), (1 << 32, 0), (1, LAST_TIME), (1, LAST_TIME + 1)] {
        vector.stamps(1, row, late);
        vector.stamps(2, row, late);
    }
    vector
}

/// The rows that the contract writes in hexadecimal (§4.12 to §4.18), with a version byte in front of them.
fn tables_of_the_contract() -> Vec<Vec<u8>> {
    let rows = [
        (1, "0015 08 00 01 02 03 0000000000000002 0000000000000005"),
        (1, "001B 0A 00 02 000000000000000A 000000000000000A 0000000000000005"),
        (2, "000C 0B 02 00 01 0000000000000002"),
        (2, "0013 0C 30 31 0000000000000002 0000000000000004"),
        (2, "000D 0D 02 30 31 32 0000000000000002"),
        (2, "000D 0E 02 30 31 32 0000000000000002"),
        (2, "002B 0F 02 00 000000000000000A 0000000000000001 0000000000000000 0000000000000000 0000000000000003"),
        (2, "0023 10 02 00 0000000000000000 0000000000000004 0000000000000000 0000000000000006"),
        (2, "0012 11 01 0000000000000003 0000000000000005"),
    ];
    let contract = text();
    let table = |(edition, row)| {
        assert!(contract.contains(row), "the contract no longer has the row {row}");
        [vec![edition], hexadecimal(row)].concat()
    };
    rows.map(table).to_vec()
}

fn hexadecimal(text: &str) -> Vec<u8> {
    let digits: String = text.split_whitespace().collect();
    (0..digits.len()).step_by(2).map(|at| u8::from_str_radix(&digits[at..at + 2], 16).expect("hexadecimal")).collect()
}

/// Tables at the edge of each question of reading one (§8.1 to §8.7, §8.18).
fn odd_tables() -> Vec<Vec<u8>> {
    let rows = |number| table_bytes(&vec![order(); number]);
    let cut = |bytes: &[u8], length: usize| bytes[..length].to_vec();
    let changed = |place: usize, byte: u8| {
        let mut bytes = table_bytes(&[delay(2, 3)]);
        bytes[place] = byte;
        bytes
    };
    let mut made = vec![vec![], vec![0], vec![1], vec![2], vec![3], vec![255], rows(31), rows(32), rows(33)];
    made.extend((1..22).map(|length| cut(&table_bytes(&[delay(2, 3)]), length)));
    made.extend([(0, 2), (2, 18), (2, 20), (3, 0), (3, 12), (3, 255)].map(|(place, byte)| changed(place, byte)));
    made.extend(
        [(4, 1), (4, 47), (4, 48), (4, 63), (4, 64), (5, 0), (5, 255)].map(|(place, byte)| changed(place, byte)),
    );
    made.extend([(6, 15), (6, 16), (13, 4), (14, 15), (14, 16), (14, 255)].map(|(place, byte)| changed(place, byte)));
    made.extend(odd_rows().iter().map(|row| table_bytes_in(2, &[order(), row.clone()])));
    made
}

/// Rows of types 12 to 17 at the edge of each question: n, operator, sort of kinds, times, order.
fn odd_rows() -> Vec<Constraint> {
    let mut made = vec![age(5, 4), age(0, LAST_TIME), age(0, LAST_TIME + 1), age(0, NO_LIMIT)];
    made.extend((0..=6).flat_map(|n| [output_synchronization(n, 2), input_synchronization(n, 2)]));
    made.extend([0, 1, 8, 9].map(|n| pattern(9, 1, 0, &(0..n).collect::<Vec<u64>>())));
    made.extend([[3, 2], [3, 3], [2, 3], [0, LAST_TIME], [0, LAST_TIME + 1]].map(|offsets| pattern(9, 1, 0, &offsets)));
    made.extend([0, 1, 8, 9].map(|n| arbitrary(&vec![(1, 5); n])));
    made.extend(
        [(5, 4), (5, 5), (0, NO_LIMIT), (NO_LIMIT, NO_LIMIT), (0, NO_LIMIT - 1)].map(|pair| arbitrary(&[(0, 9), pair])),
    );
    made.extend(
        (0..=6).flat_map(|operator| [(3, 3), (3, 5), (5, 3)].map(|(left, right)| comparison(operator, left, right))),
    );
    made
}

/// Calls on a table alone.
fn one_table(bytes: &[u8]) -> Vector {
    let mut vector = Vector::new("chosen, a table");
    vector.table(bytes);
    vector.recording(&[1]);
    for form in 1..=2 {
        vector.fresh(form);
        vector.report(form, ROOM);
        vector.report_on(form, ROOM);
        vector.stamps(form, 0, 0);
        vector.stretch(form, 0);
    }
    vector
}

/// Recordings at the edge of each question of reading one (§8.9 to §8.11, §8.13, §8.14, §8.19).
fn odd_recordings() -> Vec<Vec<u8>> {
    let whole = recording_bytes(&steps("0@10, 1@12, tick 14"));
    let mut made: Vec<Vec<u8>> = (0..whole.len()).map(|length| whole[..length].to_vec()).collect();
    let changed = |place: usize, values: &[u8]| -> Vec<Vec<u8>> {
        let with = |value: &u8| [&whole[..place], &[*value], &whole[place + 1..]].concat();
        values.iter().map(with).collect()
    };
    made.extend(changed(0, &[0, 2, 3]));
    made.extend(changed(2, &[7, 8, 10, 11]));
    made.extend(changed(3, &[47, 48, 63, 64]));
    made.extend([changed(4, &[15, 16]), changed(11, &[13])].concat());
    made.extend(["48/0@1, 48/7@1, 49/0@2", "48/8@1", "47/0@1", "64/0@1"].map(|text| recording_bytes(&steps(text))));
    made
}

/// Calls on a recording alone.
fn one_recording(bytes: &[u8]) -> Vector {
    let mut vector = Vector::new("chosen, a recording");
    vector.table(&table_bytes(&[delay(2, 3), repeat(1, 1, 90)]));
    vector.recording(bytes);
    vector.fresh(1);
    for form in 1..=2 {
        vector.report(form, ROOM);
        vector.report_on(form, ROOM);
        vector.stamps(form, 1, 1);
        vector.stretch(form, 0);
    }
    vector.table(&recording_bytes(&steps("7@3, tick 12")));
    vector.join(ROOM);
    vector
}

/// A recording of this many records (§8.22): none breaks the row, or the last.
fn record_limit(records: usize) -> Vector {
    let mut vector = Vector::new("chosen, many records");
    let ticks: Vec<Step> = (1..records as u64).map(|time| Step::Tick { time }).collect();
    vector.table(&table_bytes(&[strong_delay(1, 3)]));
    vector.recording(&recording_bytes(&[&ticks[..], &steps("1@300")].concat()));
    vector.stretch(1, 0);
    vector.stretch(2, 1);
    vector.report(1, ROOM);
    vector
}

/// Buffers that are this many bytes too short, for everything that is written.
fn short_buffers(less: usize) -> Vector {
    let mut vector = Vector::new("chosen, short buffers");
    let rows = vec![delay(2, 3); 17];
    vector.table(&table_bytes(&rows));
    vector.recording(&recording_bytes(&steps("0@10, tick 14")));
    vector.fresh(1);
    vector.report_of(ROOM);
    vector.page(73 * 19 - less);
    let long = model::report_text(&table_bytes(&rows), &recording_bytes(&steps("0@10, tick 14"))).len();
    vector.report(1, long - less);
    vector.report_on(2, long - less);
    vector.report_of(long - less);
    vector.page(0);
    vector.write(1, &rows, table_bytes(&rows).len() - less);
    vector.write(2, &rows, table_bytes(&rows).len() - less);
    vector.table(&recording_bytes(&steps("1@11")));
    vector.join(34 - less);
    vector
}

/// This many rows for the table writer (§8.3).
fn rows_written(number: usize) -> Vector {
    let mut vector = Vector::new("chosen, rows written");
    vector.write(1, &vec![order(); number], ROOM);
    vector.write(2, &vec![order(); number], ROOM);
    vector
}

/// One row alone, and at another place among others: the same recording gives it the same verdicts (§3.10, §3.11).
fn same_row_in_two_tables() -> Vector {
    let mut vector = Vector::new("chosen, one row in two tables");
    let row: Constraint = delay(2, 3);
    for rows in [vec![row.clone()], vec![order(), repeat(1, 1, 5), row]] {
        vector.table(&table_bytes(&rows));
        vector.fresh(1);
        for step in steps("0@10, 1@12, 0@20, 7@22, tick 24, close") {
            vector.step(step);
        }
        vector.page(ROOM);
    }
    vector.shows("one row in two tables");
    vector
}
