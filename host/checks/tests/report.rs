//! The report through the exported function, beside the model's, byte by byte.
//! Clauses: §6.5, §7.1 to §7.9, §7.22, §7.23, §8.13, §8.14, §9.3, §9.4, §9.10.

use checks::beside::{counting_from, fresh, take};
use checks::places::example_bytes;
use checks::reports::{compare, compare_of, compare_on, report_in, report_of};
use delkuthi::{Monitor, WORDS};
use model::examples::{RECORDING, REPORT, TABLE};
use model::notation::steps;
use model::random::Random;
use model::random::calls::calls;
use model::random::recordings::{damaged_recording, recording, refused_recording};
use model::random::seen::Seen;
use model::random::tables::{any_table, damaged_table, table};
use model::types::{Burst, Repeat, Sporadic, delay, order, strong_delay, strong_synchronization};
use model::{Constraint, LAST_COUNT, LAST_TIME, Step, recording_bytes, report_text, table_bytes};

/// The library's report, in words.
fn text(table: &[u8], recording: &[u8]) -> String {
    let bytes = report_in(table, recording, delkuthi::REPORT_LIMIT).expect("a buffer that is long enough");
    String::from_utf8(bytes).expect("a report is ASCII")
}

#[test]
fn the_contracts_file() {
    assert_eq!(text(&TABLE, &RECORDING), REPORT);
    compare(&TABLE, &RECORDING, &mut Seen::default());
}

#[test]
fn example_13() {
    let table = table_bytes(&[delay(0, 1000)]);
    let sources: Vec<Step> = (1..=65).map(|time| Step::Event { kind: 0, time }).collect();
    assert_eq!(text(&table, &recording_bytes(&sources)), "refused 12 705\n");
    let answered = [&sources[..64], &steps("1@65, 0@65")].concat();
    assert_eq!(text(&table, &recording_bytes(&answered)), "closed 67\n0 kept\n");
}

#[test]
fn the_drive() {
    let (table, recording) = (example_bytes("table.bin"), example_bytes("recording.bin"));
    assert_eq!(text(&table, &recording).into_bytes(), example_bytes("report.txt"));
    compare(&table, &recording, &mut Seen::default());
}

#[test]
fn thousands_of_tables_and_recordings() {
    let mut random = Random::new(201);
    let mut seen = Seen::default();
    for _ in 0..2_500 {
        let rows = any_table(&mut random);
        let table = table_bytes(&rows);
        let records = random.place(120);
        compare(&table, &recording(&mut random, &rows, records), &mut seen);
        compare(&table, &damaged_recording(&mut random, &rows, records / 4), &mut seen);
        compare(&table, &refused_recording(&mut random, &rows, records), &mut seen);
        compare(&damaged_table(&mut random), &recording(&mut random, &rows, 4), &mut seen);
    }
    // 8 has no place in a recording: it is closed behind its last record
    seen.demand_refusals((1..=7).chain(9..=14).chain([18, 19]));
}

/// On a lent monitor: one that other calls have used, and one of any words at all.
#[test]
fn on_a_lent_monitor() {
    let mut random = Random::new(204);
    let mut seen = Seen::default();
    let mut lent = Monitor::from_words([0; WORDS]);
    for _ in 0..400 {
        let rows = any_table(&mut random);
        let table = table_bytes(&rows);
        let records = random.place(80);
        let recordings = [
            recording(&mut random, &rows, records),
            damaged_recording(&mut random, &rows, records / 4),
            refused_recording(&mut random, &rows, records),
        ];
        let any = Monitor::from_words(std::array::from_fn(|_| random.number()));
        for recording in &recordings {
            for monitor in [&lent, &any] {
                compare_on(monitor, &table, recording, &mut seen);
                compare_on(monitor, &damaged_table(&mut random), recording, &mut seen);
            }
            lent.report_on(&table, recording, &mut []);
        }
    }
    seen.demand_refusals((1..=7).chain(9..=14).chain([18, 19]));
}

/// Of a monitor that took its steps one by one, with withdrawals among them: after each, and once more when the close is withdrawn. For
/// the steps that are left it is the report that the library writes on a recording of them.
#[test]
fn of_a_monitor() {
    let mut random = Random::new(205);
    let mut closed = 0;
    for _ in 0..400 {
        let rows = any_table(&mut random);
        let (mut monitor, mut model) = (fresh(&rows), model::Monitor::fresh(&rows).expect("an accepted table"));
        let number = random.place(60);
        for call in calls(&mut random, &rows, number) {
            if random.below(5) == 0 {
                assert_eq!(monitor.withdraw().map_err(|refusal| refusal.number()), model.withdraw());
            } else {
                assert_eq!(take(&mut monitor, call), model.step(call));
            }
            closed += usize::from(compare_of(&monitor, &model));
        }
        if !model.closed() {
            monitor.close().expect("a close");
            model.close().expect("a close");
        }
        assert!(compare_of(&monitor, &model));
        let taken = &model.steps()[..model.steps().len() - 1];
        let of_steps = text(&table_bytes(&rows), &recording_bytes(taken)).into_bytes();
        assert_eq!(report_of(&monitor, of_steps.len()), Some(of_steps));
        monitor.withdraw().expect("a close to withdraw");
        model.withdraw().expect("a close to withdraw");
        assert!(!compare_of(&monitor, &model));
    }
    assert!(closed > 100, "{closed}");
}

/// Of a monitor at the end of the count, where the steps have the most digits; and of memory of zeros, which is closed.
#[test]
fn of_a_monitor_at_the_end_of_the_count() {
    let rows = vec![order(); 32];
    let mut monitor = counting_from(&rows, LAST_COUNT - 3);
    monitor.event(1, 1).expect("an event in order");
    monitor.tick(2).expect("a tick in order");
    monitor.close().expect("a close");
    let line = |row| format!("{row} broken {}\n", LAST_COUNT - 1);
    let expected = format!("closed {LAST_COUNT}\n{}", (0..32).map(line).collect::<String>()).into_bytes();
    assert!(expected.len() <= delkuthi::REPORT_LIMIT);
    assert!(report_of(&monitor, expected.len()) == Some(expected), "the report of a monitor at the end of the count");
    assert_eq!(report_of(&Monitor::from_words([0; WORDS]), 64), Some(b"closed 0\n".to_vec()));
}

/// Buffers of every length, to some bytes more than the report has.
#[test]
fn buffers_of_every_length() {
    let mut random = Random::new(203);
    for _ in 0..60 {
        let rows = any_table(&mut random);
        let (table, recording) = (table_bytes(&rows), recording(&mut random, &rows, 3));
        let expected = report_text(&table, &recording).into_bytes();
        for length in 0..expected.len() + 40 {
            let written = (length >= expected.len()).then_some(&expected);
            assert_eq!(report_in(&table, &recording, length).as_ref(), written, "a buffer of {length} bytes");
        }
    }
}

/// Every file cut at every byte, with the other whole and empty.
#[test]
fn cut_at_every_byte() {
    let mut random = Random::new(202);
    let mut seen = Seen::default();
    let drive = (example_bytes("table.bin"), example_bytes("recording.bin"));
    let mut files = vec![(TABLE.to_vec(), RECORDING.to_vec()), drive];
    for number in [7, 32] {
        let rows = table(&mut random, number);
        files.push((table_bytes(&rows), recording(&mut random, &rows, 30)));
    }
    for (table, recording) in files {
        for end in 0..=table.len() {
            compare(&table[..end], &recording, &mut seen);
            compare(&table[..end], &[], &mut seen);
        }
        for end in 0..=recording.len() {
            compare(&table, &recording[..end], &mut seen);
            compare(&[], &recording[..end], &mut seen);
        }
    }
    seen.demand_refusals(1..=2);
    seen.demand_refusals(13..=14);
}

#[test]
fn rows_at_the_limit() {
    let mut seen = Seen::default();
    let recording = recording_bytes(&steps("0@1, 1@2, tick 3"));
    for number in [0, 1, 31, 32, 33, 34] {
        compare(&table_bytes(&vec![order(); number]), &recording, &mut seen);
    }
    assert_eq!(text(&table_bytes(&vec![order(); 33]), &recording), "refused 3 161\n");
    seen.demand_refusals(3..=3);
}

#[test]
fn waiting_at_the_limit() {
    let rows = [delay(0, LAST_TIME), strong_delay(0, LAST_TIME), strong_synchronization(2, LAST_TIME)];
    let event = |time| Step::Event { kind: 0, time };
    for row in rows {
        let table = table_bytes(std::slice::from_ref(&row));
        let mut seen = Seen::default();
        for (number, refused) in [(63, 0), (64, 0), (65, 1), (66, 1)] {
            let sources: Vec<Step> = (1..=number).map(event).collect();
            seen = Seen::default();
            compare(&table, &recording_bytes(&sources), &mut seen);
            assert_eq!(seen.refusals(12), refused, "{number} of {row:?}");
        }
        seen.demand_refusals(12..=12);
    }
}

#[test]
fn times_at_the_limit() {
    let mut seen = Seen::default();
    let odd = [LAST_TIME - 1, LAST_TIME, LAST_TIME + 1, 1 << 63, u64::MAX];
    for field in odd {
        let rows = [
            delay(0, field),
            delay(field, field),
            delay(field, u64::MAX),
            Constraint::Repeat(Repeat { event: 0, span: 1, lower: field, upper: field }),
            Constraint::Sporadic(Sporadic { event: 0, lower: field, upper: u64::MAX, jitter: field, minimum: field }),
            Constraint::Burst(Burst { event: 0, maximum: 64, length: field, minimum: field }),
            strong_synchronization(4, field),
        ];
        for row in rows {
            for time in odd {
                let (first, last) = (Step::Event { kind: 0, time: 1 }, Step::Event { kind: 0, time });
                let recording = recording_bytes(&[first, last, Step::Event { kind: 1, time }]);
                compare(&table_bytes(std::slice::from_ref(&row)), &recording, &mut seen);
                compare(&table_bytes(&[]), &recording_bytes(&[first, Step::Tick { time }]), &mut seen);
            }
        }
    }
    seen.demand_refusals(6..=6);
    seen.demand_refusals(10..=10);
}

/// The largest recording that the program takes, of 61,440 bytes, and one that is larger.
#[test]
fn large_recordings() {
    let mut seen = Seen::default();
    let rows = [delay(0, 30), order(), strong_synchronization(2, 40)];
    let pair = |time: u64| [Step::Event { kind: 0, time: 50 * time }, Step::Event { kind: 1, time: 50 * time + 20 }];
    let events: Vec<Step> = (1..=3_000).flat_map(pair).collect();
    let bytes = recording_bytes(&events);
    assert!(bytes.len() > 61_440);
    compare(&table_bytes(&rows), &bytes, &mut seen);
    compare(&table_bytes(&rows), &bytes[..61_440], &mut seen);
    assert_eq!(text(&table_bytes(&rows), &bytes), "closed 6001\n0 kept\n1 kept\n2 kept\n");
}

/// The longest report there is: every row broken, at a step of many digits. It fits the limit.
#[test]
fn no_report_is_longer_than_its_limit() {
    let rows = vec![order(); 32];
    let steps = [(1..=1_200).map(|time| Step::Tick { time }).collect(), steps("0@2000")].concat();
    let report = text(&table_bytes(&rows), &recording_bytes(&steps));
    assert_eq!(report, report_text(&table_bytes(&rows), &recording_bytes(&steps)));
    // with the 20 digits of the largest number in each line
    assert!(report.len() + 33 * (20 - "1202".len()) <= delkuthi::REPORT_LIMIT);
}
