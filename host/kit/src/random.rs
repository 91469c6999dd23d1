//! Random vectors with fixed seeds: lists of calls over rows of each type and over mixed tables, damaged bytes, joins, late stamps and
//! stretches.

use crate::contract::{ROOM, played};
use crate::vector::Vector;
use model::contract::Asked;
use model::random::calls::calls;
use model::random::recordings::{damaged_recording, recording, refused_recording};
use model::random::tables::{Scale, any_table, damaged_rows, damaged_table, pool, row_of_type, table};
use model::random::{Random, executions, one_row, repetitions};
use model::types::repeat;
use model::{
    Constraint, Monitor, NO_LIMIT, Step, TYPES, Verdict, edition_of, recording_bytes, table_bytes, table_bytes_in,
};

const SEED: u64 = 2026;

/// All of them.
pub fn vectors() -> Vec<Vector> {
    let mut random = Random::new(SEED);
    let mut made = Vec::new();
    for number in TYPES {
        made.extend((0..90).map(|_| of_type(&mut random, number)));
    }
    made.extend((0..90).map(|_| execution(&mut random)));
    made.extend((0..90).map(|_| repetition(&mut random)));
    for number in TYPES.into_iter().filter(|number| *number >= one_row::FIRST) {
        made.extend((0..90).map(|_| alone(&mut random, number)));
    }
    made.extend((0..320).map(|_| mixed(&mut random)));
    made.extend((0..200).map(|_| damaged(&mut random)));
    made.extend((0..140).map(|_| joined(&mut random)));
    made.extend((0..140).map(|_| stamped(&mut random)));
    made.extend((0..140).map(|_| stretched(&mut random)));
    made
}

/// A list of calls, one in nine withdrawn, and some of them by a number.
fn with_withdrawals(random: &mut Random, calls: Vec<Step>) -> Vec<Asked> {
    let withdrawn = |step| match random.below(36) {
        0..4 => vec![Asked::Step(step), Asked::Withdraw],
        4 => vec![Asked::Step(step), Asked::WithdrawStep(random.below(16))],
        _ => vec![Asked::Step(step)],
    };
    calls.into_iter().flat_map(withdrawn).collect()
}

/// One or two rows of one type.
fn of_type(random: &mut Random, number: u8) -> Vector {
    let kinds = pool(random);
    let scale = *random.pick(&[Scale::Small, Scale::Small, Scale::Patient, Scale::Extreme]);
    let rows: Vec<Constraint> = (0..1 + random.place(2)).map(|_| row_of_type(random, number, scale, &kinds)).collect();
    let length = if random.chance(8) { 90 } else { 10 + random.place(20) };
    listed(random, &rows, length, &format!("random, type {number}"))
}

fn listed(random: &mut Random, rows: &[Constraint], length: usize, source: &str) -> Vector {
    let list = calls(random, rows, length);
    let mut vector = played(rows, with_withdrawals(random, list).into_iter());
    vector.source = source.to_string();
    vector
}

/// An ExecutionTime with its executions, which other lists rarely complete.
fn execution(random: &mut Random) -> Vector {
    let row = executions::row(random);
    let mut model = Monitor::fresh(&[Constraint::from(row.clone())]).expect("an accepted row");
    for _ in 0..12 + random.place(16) {
        let step = executions::next_step(random, &row, model.recorded(), 40);
        let _ = model.step(step);
    }
    closed(random, &model, "random, executions")
}

/// A Repetition whose events keep to its points, mostly.
fn repetition(random: &mut Random) -> Vector {
    let span = 1 + random.below(8) as u8;
    let row = repetitions::row(random, span);
    let mut model = Monitor::fresh(&[Constraint::from(row.clone())]).expect("an accepted row");
    let wrong_at = random.place(40);
    for _ in 0..12 + random.place(16) {
        let step = repetitions::next_step(random, &row, model.recorded(), wrong_at);
        let _ = model.step(step);
    }
    closed(random, &model, "random, repetitions")
}

/// A row of types 12 to 17 that stays open for some steps, and is then broken, mostly.
fn alone(random: &mut Random, number: u8) -> Vector {
    let row = one_row::row(random, number);
    let mut model = Monitor::fresh(std::slice::from_ref(&row)).expect("an accepted row");
    let wrong_at = random.below(30);
    for _ in 0..12 + random.place(16) {
        let wrong = model.count() >= wrong_at && model.verdict(0) == Ok(Verdict::Open);
        let step = one_row::next_step(random, &row, model.recorded(), wrong);
        if step != Step::Close {
            let _ = model.step(step);
        }
    }
    closed(random, &model, &format!("random, type {number} alone"))
}

/// The steps that a model took, and mostly a close.
fn closed(random: &mut Random, model: &Monitor, source: &str) -> Vector {
    let mut list = model.steps().to_vec();
    if random.chance(80) {
        list.push(Step::Close);
    }
    let mut vector = played(model.rows(), list.into_iter().map(Asked::Step));
    vector.source = source.to_string();
    vector
}

/// A table of several rows, now and then of 32.
fn mixed(random: &mut Random) -> Vector {
    let rows = match random.below(24) {
        0 => table(random, 32),
        number => table(random, number as usize % 9),
    };
    let length = 8 + random.place(16);
    let mut vector = listed(random, &rows, length, "random, mixed rows");
    let edition = edition_of(&rows);
    vector.write(edition, &rows, ROOM);
    vector.table(&table_bytes_in(edition.max(1 + random.below(2) as u8), &rows));
    vector.fresh(1 + random.below(2) as u8);
    vector.take();
    vector.take();
    vector.report_on(2, ROOM);
    for of_monitor in [false, true] {
        let room = if random.chance(80) { ROOM } else { random.place(140) };
        vector.row_back(of_monitor, random.below(rows.len() as u64 + 2), room);
    }
    let more = if random.chance(60) { table(random, 1) } else { damaged_rows(random) };
    vector.add_row(&more[0].body(), if random.chance(80) { 2 * ROOM } else { random.place(400) });
    vector
}

/// Damaged bytes, and recordings of which a record is refused.
fn damaged(random: &mut Random) -> Vector {
    let mut vector = Vector::new("random, damaged bytes");
    let number = random.place(5);
    let rows = table(random, number);
    vector.table(&if random.chance(50) { damaged_table(random) } else { table_bytes(&rows) });
    vector.recording(&match random.below(3) {
        0 => damaged_recording(random, &rows, 12),
        1 => refused_recording(random, &rows, 90),
        _ => recording(random, &rows, 20),
    });
    let (kind, colour, time) = (random.below(70) as u8, random.below(9) as u8, random.below(1 << 50));
    vector.put_record(if kind < 40 { Step::Event { kind, time } } else { Step::Coloured { kind, colour, time } }, ROOM);
    vector.put_record(
        Step::Tick { time: time + random.below(3) },
        if random.chance(90) { ROOM } else { random.place(60) },
    );
    let form = 1 + random.below(2) as u8;
    vector.fresh(form);
    vector.report(form, if random.chance(80) { ROOM } else { random.place(60) });
    if vector.has_monitor() {
        vector.take();
    }
    vector.report_on(form, ROOM);
    let written = if random.chance(30) { any_table(random) } else { damaged_rows(random) };
    vector.write(form, &written[..written.len().min(6)], if random.chance(80) { ROOM } else { random.place(120) });
    vector
}

/// Events of some kinds at rising times, with ticks among them.
fn events(random: &mut Random, kinds: &[u8], number: u64) -> Vec<u8> {
    let mut taken = Monitor::fresh(&[]).expect("a table of no rows");
    let mut time = random.below(4);
    for _ in 0..random.below(number) {
        let step = match *random.pick(kinds) {
            _ if random.chance(25) => Step::Tick { time },
            kind if kind < 48 => Step::Event { kind, time },
            kind => Step::Coloured { kind, colour: random.below(3) as u8, time },
        };
        let _ = taken.step(step);
        time += random.below(4);
    }
    recording_bytes(taken.steps())
}

fn joined(random: &mut Random) -> Vector {
    let mut vector = Vector::new("random, two recordings");
    let others: &[u8] = if random.chance(80) { &[1, 3, 49] } else { &[1, 2, 50] };
    let (mut first, second) = (events(random, &[0, 2, 48, 50], 12), events(random, others, 12));
    if random.chance(10) {
        model::random::damage(random, &mut first);
    }
    let most = first.len() + second.len();
    vector.table(&first);
    vector.recording(&second);
    vector.join(if random.chance(80) { most } else { random.place(most + 1) });
    vector
}

fn stamped(random: &mut Random) -> Vector {
    let mut vector = Vector::new("random, late stamps");
    let lower = random.below(9);
    let upper = if random.chance(15) { NO_LIMIT } else { lower + random.below(9) };
    vector.table(&table_bytes(&[repeat(1, lower, upper)]));
    vector.recording(&events(random, &[0, 0, 0, 1], 14));
    for late in 0..6 {
        vector.stamps(1 + random.below(2) as u8, 0, late);
    }
    vector
}

fn stretched(random: &mut Random) -> Vector {
    let mut vector = Vector::new("random, stretches");
    let number = 1 + random.place(3);
    let rows = table(random, number);
    vector.table(&table_bytes(&rows));
    let length = 8 + random.place(10);
    vector.recording(&recording(random, &rows, length));
    for row in 0..=rows.len() {
        vector.stretch(2, row as u64);
    }
    vector
}
