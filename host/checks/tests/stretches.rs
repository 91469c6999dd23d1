//! The shortest stretch that breaks a row: the exported function beside the model, which tries every stretch with its
//! own monitor. Clauses: §8.22, §8.23, §14.1 to §14.6.

use checks::contract::{blocks, text};
use checks::places::root;
use checks::refusals;
use checks::reports::report_in;
use delkuthi::REPORT_LIMIT;
use model::random::Random;
use model::types::{
    burst, delay, execution_time, order, reaction, repeat, repetition, sporadic, strong_delay, strong_synchronization,
};
use model::{
    Constraint, LAST_TIME, Monitor, RECORD_LIMIT, Refusal, Step, Stretch, first_breaking, recording_bytes,
    shortest_stretch, table_bytes,
};
use std::collections::{HashMap, HashSet};
use std::fs;
use std::time::{Duration, Instant};

/// The library's answer, as the model gives it.
fn library(table: &[u8], recording: &[u8], row: u64) -> Result<Stretch, Refusal> {
    let stretch = |found: delkuthi::Stretch| Stretch {
        first: found.first.into(),
        length: found.length.into(),
        tried: found.tried as usize,
    };
    delkuthi::shortest_stretch(table, recording, row).map(stretch).map_err(refusals::refusal)
}

/// The library's answer for one row and these records.
fn found(row: &Constraint, records: &[Step]) -> Result<Stretch, u8> {
    let answer = library(&table_bytes(std::slice::from_ref(row)), &recording_bytes(records), 0);
    answer.map_err(|refusal| refusal.number)
}

fn random_row(random: &mut Random) -> Constraint {
    let lower = random.below(4);
    let upper = lower + random.below(4);
    match random.below(10) {
        0 => delay(lower, upper),
        1 => strong_delay(lower, upper),
        2 => repeat(1 + random.below(3) as u8, lower, upper),
        3 => sporadic(lower, upper, random.below(3), 0),
        4 => burst(1 + random.below(2) as u8, lower, 1),
        5 => order(),
        6 => strong_synchronization(2 + random.below(2) as u8, lower),
        7 => execution_time(lower, upper),
        8 => reaction(lower, upper),
        _ => repetition(1 + random.below(2) as u8, lower, upper, random.below(3)),
    }
}

/// Records in order, of kinds 0 to 3, 48 and 49.
fn random_records(random: &mut Random, count: u64) -> Vec<Step> {
    let mut taken = Monitor::fresh(&[]).expect("a table of no rows");
    let mut time = random.below(3);
    for _ in 0..count {
        let step = match random.below(8) {
            0 => Step::Tick { time },
            1 | 2 => Step::Coloured { kind: 48 + random.below(2) as u8, colour: random.below(2) as u8, time },
            _ => Step::Event { kind: random.below(4) as u8, time },
        };
        let _ = taken.step(step);
        time += random.below(3);
    }
    taken.steps().to_vec()
}

/// place = (length − 1)(n + 1) − length(length − 1)/2 + start + 1 (§14.4).
fn place(count: usize, stretch: Stretch) -> usize {
    let shorter = stretch.length - 1;
    shorter * (count + 1) - stretch.length * shorter / 2 + stretch.first + 1
}

#[test]
fn beside_the_model() {
    let mut random = Random::new(1401);
    let mut seen = HashSet::new();
    for _ in 0..6_000 {
        let row = random_row(&mut random);
        let length = random.below(14);
        let records = random_records(&mut random, length);
        let expected = first_breaking(&row, &records);
        assert_eq!(found(&row, &records), expected.ok_or(23), "{row:?} {records:?}");
        if let Some(stretch) = expected {
            assert_eq!(stretch.tried, place(records.len(), stretch));
        }
        let form = table_bytes(std::slice::from_ref(&row))[3];
        seen.insert((form, expected.map(|stretch| (stretch.length.min(4), stretch.first > 0))));
    }
    for form in 1..=10 {
        assert!(seen.contains(&(form, None)), "type {form}: none was never the answer");
        assert!(
            seen.iter().any(|(other, answer)| *other == form && answer.is_some_and(|(_, late)| late)),
            "type {form}"
        );
    }
    assert!(seen.len() >= 50, "{} cases", seen.len());
}

/// 12 on the way is no break, and a stretch that begins behind it may be one.
#[test]
fn crowded_stretches() {
    let sources = |count: u64| (1..=count).map(|time| Step::Event { kind: 0, time }).collect::<Vec<Step>>();
    assert_eq!(found(&delay(0, 64), &sources(66)), Err(23));
    assert_eq!(found(&delay(0, 63), &sources(66)), Ok(Stretch { first: 0, length: 65, tried: 2209 }));
    assert_eq!(found(&delay(0, 1000), &sources(65)), Err(23));
    let mut records = sources(70);
    records.push(Step::Tick { time: 1_000 });
    let expected = first_breaking(&delay(0, 500), &records);
    assert_eq!(expected, Some(Stretch { first: 69, length: 2, tried: 141 }));
    assert_eq!(found(&delay(0, 500), &records), expected.ok_or(23));
    // a row that is broken takes whatever comes: the shortest is found behind a 12 that longer ones meet
    let mut random = Random::new(1402);
    let mut crowded = 0;
    for _ in 0..12 {
        let upper = 60 + random.below(20);
        let mut records = sources(66 + random.below(8));
        records.push(Step::Tick { time: 75 + random.below(80) });
        let row = delay(0, upper);
        let expected = first_breaking(&row, &records);
        crowded += usize::from(expected.is_some_and(|stretch| stretch.first > 0));
        assert_eq!(found(&row, &records), expected.ok_or(23), "{upper} {records:?}");
    }
    assert!(crowded > 0);
}

/// As many records as there may be, and one more.
#[test]
fn at_the_limit() {
    let ticks = |count: u64| (1..=count).map(|time| Step::Tick { time }).collect::<Vec<Step>>();
    let row = delay(0, 300);
    assert_eq!(RECORD_LIMIT, delkuthi::RECORD_LIMIT);
    assert_eq!(found(&row, &ticks(256)), Err(23));
    assert_eq!(found(&row, &ticks(257)), Err(22));
    // only the whole breaks it: the last place of the order
    let mut records = vec![Step::Event { kind: 0, time: 0 }];
    records.extend(ticks(255));
    assert_eq!(found(&delay(0, 254), &records), Ok(Stretch { first: 0, length: 256, tried: 32_896 }));
    assert_eq!(found(&delay(0, 255), &records), Err(23));
    let (table, long) = (table_bytes(&[row]), recording_bytes(&ticks(257)));
    assert_eq!(library(&table, &long, 1), Err(Refusal { number: 22, place: 0 }));
    assert_eq!(library(&table, &recording_bytes(&ticks(256)), 1), Err(Refusal { number: 15, place: 0 }));
    // a later record's own question comes before 22
    let mut out_of_order = ticks(300);
    out_of_order.push(Step::Tick { time: 300 });
    assert_eq!(library(&table, &recording_bytes(&out_of_order), 0), Err(Refusal { number: 11, place: 3_001 }));
}

/// Every refusal that the call has, 12 never among them.
#[test]
fn refusals_in_their_order() {
    let mut random = Random::new(1403);
    let mut seen = HashSet::new();
    assert_eq!(library(&[], &[], 0), Err(Refusal { number: 1, place: 0 }));
    assert_eq!(library(&[1], &[], 0), Err(Refusal { number: 13, place: 0 }));
    assert_eq!(library(&[1], &[1], 0), Err(Refusal { number: 15, place: 0 }));
    assert_eq!(found(&order(), &[]), Err(23));
    let rows = [delay(1, 3), order(), repeat(1, 1, 3), reaction(1, 3)];
    for _ in 0..20_000 {
        let steps: Vec<Step> = (0..random.below(7))
            .map(|_| match random.below(14) {
                0 => Step::Event { kind: 64, time: 5 },
                1 => Step::Tick { time: LAST_TIME + 1 },
                2 => Step::Event { kind: 48, time: 3 },
                3 => Step::Coloured { kind: 48, colour: 1, time: random.below(20) },
                4..7 => Step::Tick { time: random.below(20) },
                _ => Step::Event { kind: random.below(2) as u8, time: random.below(20) },
            })
            .collect();
        let (table, recording) = refusals::files(&mut random, &rows, &steps);
        let row = *random.pick(&[0, 1, 2, 3, 4, 32, u64::MAX]);
        let expected = shortest_stretch(&table, &recording, row);
        assert_eq!(library(&table, &recording, row), expected, "{table:?} {recording:?} {row}");
        seen.insert(expected.map_or_else(|refusal| refusal.number, |_| 100));
    }
    refusals::demand(&seen, &[1, 2, 4, 5, 6, 7, 9, 10, 11, 13, 14, 15, 18, 19, 23, 100]);
}

/// The examples of section 14 of the contract.
#[test]
fn the_contract_s_examples() {
    let mut said = 0;
    for line in blocks(&text(), "stretch").concat() {
        let (row, rest) = line.split_once(": ").expect("a row");
        let (records, expected) = rest.split_once(": ").expect("records");
        let row = match row.split(' ').collect::<Vec<&str>>()[..] {
            ["Delay", lower, "to", upper] => delay(lower.parse().expect("a number"), upper.parse().expect("a number")),
            ["StrongDelay", lower, "to", upper] => {
                strong_delay(lower.parse().expect("a number"), upper.parse().expect("a number"))
            }
            ["Reaction", lower, "to", upper] => {
                reaction(lower.parse().expect("a number"), upper.parse().expect("a number"))
            }
            _ => panic!("no such row: {line}"),
        };
        let records = if records == "none" { Vec::new() } else { model::notation::steps(records) };
        let answer = found(&row, &records);
        let told = match answer {
            Ok(stretch) => format!("from {}, length {}, tried {}", stretch.first, stretch.length, stretch.tried),
            Err(number) => number.to_string(),
        };
        assert_eq!(told, expected, "{line}");
        assert_eq!(answer, first_breaking(&row, &records).ok_or(23), "{line}");
        said += 1;
    }
    assert!(said >= 8, "{said} examples");
}

/// What `examples/README.md` tells of the drive.
#[test]
fn the_drive_s_stretches() {
    let file = |name: &str| fs::read(root().join("examples").join(name)).expect(name);
    let (table, recording) = (file("table.bin"), file("recording.bin"));
    let readme = String::from_utf8(file("README.md")).expect("text");
    let after = readme.split_once("\n## The records that matter\n").expect("the part").1;
    let told: HashMap<u64, Stretch> = after
        .lines()
        .take_while(|line| !line.starts_with("## "))
        .filter_map(|line| {
            let mut numbers = line.strip_prefix("| ")?.split(" | ").map_while(|word| word.parse::<usize>().ok());
            let row = numbers.next()? as u64;
            Some((row, Stretch { first: numbers.next()?, length: numbers.next()?, tried: numbers.next()? }))
        })
        .collect();
    assert_eq!(told.len(), 4);
    for row in 0..12 {
        let answer = library(&table, &recording, row);
        assert_eq!(answer, shortest_stretch(&table, &recording, row), "row {row}");
        assert!(told.get(&row).is_none_or(|stretch| answer == Ok(*stretch)), "row {row}: {answer:?}");
    }
}

/// The shortest time of some runs.
fn shortest_time(mut run: impl FnMut()) -> Duration {
    let timed = |run: &mut dyn FnMut()| {
        let start = Instant::now();
        run();
        start.elapsed()
    };
    (0..20).map(|_| timed(&mut run)).min().expect("runs")
}

/// 256 records, of which no start comes to an end before the last, are 32,896 steps of one row. A report on the longest recording under 32
/// rows has 178,720 of them, where the rows lie; the search takes no longer than four reports.
#[test]
fn no_longer_than_four_reports() {
    let records: Vec<Step> = (1..=256).map(|time| Step::Event { kind: (time % 2) as u8, time }).collect();
    let rows = vec![delay(0, 1000); 32];
    let (table, recording) = (table_bytes(&rows), recording_bytes(&records));
    let many: Vec<Step> = (1..=5585).map(|time| Step::Event { kind: (time % 2) as u8, time }).collect();
    let longest = recording_bytes(&many);
    assert_eq!(longest.len(), 61_436);
    assert_eq!(library(&table, &recording, 0), Err(Refusal { number: 23, place: 0 }));
    let stretch = shortest_time(|| assert!(library(&table, &recording, 0).is_err()));
    let report = shortest_time(|| assert!(report_in(&table, &longest, REPORT_LIMIT).is_some()));
    println!("256 records {stretch:?}, a report on {} bytes and 32 rows {report:?}", longest.len());
    assert!(stretch <= 4 * report, "{stretch:?} and {report:?}");
}
