//! Random calls of every sort as a script, for a host that plays them on any machine (`host/c/player.c`): a line is a call
//! and its arguments, bytes in hexadecimal.

use super::Random;
use super::calls::calls;
use super::recordings::{damaged_recording, recording};
use super::tables::{any_table, damaged_rows, damaged_table};
use crate::types::repeat;
use crate::{
    Constraint, LAST_TIME, NO_LIMIT, Step, edition_of, recording_bytes, short_body, table_bytes, table_bytes_in,
};

/// Bytes in hexadecimal; "-" where there are none.
fn hex(bytes: &[u8]) -> String {
    let digits: String = bytes.iter().map(|byte| format!("{byte:02x}")).collect();
    if digits.is_empty() { "-".to_string() } else { digits }
}

fn step_line(step: Step) -> String {
    match step {
        Step::Event { kind, time } => format!("event {kind} {time}"),
        Step::Coloured { kind, colour, time } => format!("coloured {kind} {colour} {time}"),
        Step::Tick { time } => format!("tick {time}"),
        Step::Close => "close".to_string(),
    }
}

/// The form of a call on a table, the one for both editions or the one for the first.
fn any_form(random: &mut Random) -> &'static str {
    if random.chance(50) { "" } else { "_2" }
}

/// A table of rows in an edition that has their types, and the form of a call that takes it.
fn in_an_edition(random: &mut Random, rows: &[Constraint]) -> (Vec<u8>, &'static str) {
    let edition = edition_of(rows).max(1 + random.below(2) as u8);
    (table_bytes_in(edition, rows), if edition == 1 { any_form(random) } else { "_2" })
}

/// A fresh monitor and calls on it, one in seven a withdrawal, with a page now and then.
fn put_list(random: &mut Random, rows: &[Constraint], script: &mut Vec<String>) {
    let (table, form) = in_an_edition(random, rows);
    script.push(format!("fresh{form} {}", hex(&table)));
    let number = if random.chance(85) { 30 + random.place(90) } else { 250 };
    for step in calls(random, rows, number) {
        script.push(step_line(step));
        if random.chance(14) {
            script.push("withdraw".to_string());
        }
        if random.chance(3) {
            script.push(format!("page {}", random.place(2_600)));
        }
    }
    script.push(format!("fresh{} {}", any_form(random), hex(&damaged_table(random))));
}

/// Reports, and tables made of rows, accepted and refused, in buffers long enough and too short.
fn put_texts(random: &mut Random, rows: &[Constraint], script: &mut Vec<String>) {
    let (table, _) = if random.chance(80) { in_an_edition(random, rows) } else { (damaged_table(random), "") };
    let records = random.place(60);
    let taken =
        if random.chance(70) { recording(random, rows, records) } else { damaged_recording(random, rows, records) };
    for call in ["report", "report_on"] {
        let room = if random.chance(80) { 1_024 } else { random.place(300) };
        script.push(format!("{call}{} {} {} {room}", any_form(random), hex(&table), hex(&taken)));
    }
    for _ in 0..4 {
        let rows = match random.below(10) {
            0 => vec![repeat(1, 0, NO_LIMIT); 33],
            1..=5 => any_table(random),
            _ => damaged_rows(random),
        };
        let bodies: Vec<u8> = rows.iter().flat_map(short_body).collect();
        script.push(format!("table{} {} {}", any_form(random), hex(&bodies), random.place(1_300)));
    }
}

/// Events of some kinds at rising times, with a tick now and then.
fn events(random: &mut Random, kinds: &[u8], number: u64) -> Vec<u8> {
    let mut time = random.below(4);
    let mut steps = Vec::new();
    for _ in 0..random.below(number) {
        steps.push(if random.chance(20) {
            Step::Tick { time }
        } else {
            Step::Event { kind: *random.pick(kinds), time }
        });
        time += 1 + random.below(9);
    }
    recording_bytes(&steps)
}

/// Recordings joined, late stamps, and the shortest stretch, of recordings in order and of damaged ones.
fn put_searches(random: &mut Random, rows: &[Constraint], script: &mut Vec<String>) {
    let others: &[u8] = if random.chance(80) { &[8, 9] } else { &[7, 8] };
    let (first, second) = (events(random, &[6, 7], 12), events(random, others, 12));
    script.push(format!(
        "join {} {} {}",
        hex(&first),
        hex(&second),
        if random.chance(80) { 600 } else { random.place(200) }
    ));
    script.push(format!("join {} {} 600", hex(&damaged_recording(random, rows, 6)), hex(&second)));
    let lower = random.below(9);
    let upper = if random.chance(15) { NO_LIMIT } else { lower + random.below(9) };
    let span = if random.chance(90) { 1 } else { 2 };
    let row = table_bytes(&[repeat(span, lower, upper)]);
    let late = if random.chance(95) { random.below(7) } else { LAST_TIME + random.below(2) };
    script.push(format!(
        "stamps{} {} {} {} {late}",
        any_form(random),
        hex(&row),
        hex(&events(random, &[0, 0, 1], 9)),
        random.below(9) / 8
    ));
    let records = random.place(40);
    let searched = recording(random, rows, records);
    let (table, form) = in_an_edition(random, rows);
    script.push(format!("stretch{form} {} {} {}", hex(&table), hex(&searched), random.place(rows.len() + 1)));
    script.push(format!("stretch{} {} {} 0", any_form(random), hex(&row), hex(&damaged_recording(random, rows, 6))));
}

/// This many lists of calls on a monitor with withdrawals and pages among them, and reports, a table, joins, late
/// stamps and stretches.
pub fn script(seed: u64, number: u64) -> String {
    let mut random = Random::new(seed);
    let mut script = Vec::new();
    for _ in 0..number {
        let rows = any_table(&mut random);
        put_list(&mut random, &rows, &mut script);
        put_texts(&mut random, &rows, &mut script);
        put_searches(&mut random, &rows, &mut script);
    }
    script.join("\n") + "\n"
}
