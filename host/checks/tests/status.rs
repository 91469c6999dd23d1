//! What a host asks while it runs, after random lists of calls and withdrawals, beside the model, which finds the first
//! tick that breaks a row by search.
//! Clauses: §15.1 to §15.9, §15.11, §15.14 to §15.16, §15.18 to §15.20.

use checks::beside::{fresh, take};
use checks::words::untouched;
use delkuthi::{Cause, LAST_TIME, Monitor, NO_LIMIT, ROW_LIMIT};
use model::random::Random;
use model::random::calls::calls;
use model::random::tables::{any_table, table};
use model::types::{Delay, StrongDelay, strong_synchronization};
use model::{Constraint, Step};

/// All that is asked of each is the same.
fn compare(monitor: &Monitor, model: &model::Monitor, what: &str) {
    assert_eq!((monitor.clock(), monitor.steps()), (model.clock(), model.count()), "{what}");
    assert_eq!((monitor.is_closed(), monitor.broken_rows()), (model.closed(), model.broken_rows()), "{what}");
    for row in 0..model.rows().len() {
        assert_eq!(monitor.row_waiting(row), model.row_waiting(row), "row {row} after {what}");
        assert_eq!(monitor.row_oldest(row), model.row_oldest(row), "row {row} after {what}");
        assert_eq!(monitor.row_oldest(row).is_some(), monitor.row_waiting(row) > 0, "row {row} after {what}");
        assert_eq!(monitor.row_deadline(row), limit(model.row_deadline(row)), "row {row} after {what}");
    }
    let none = model.rows().len();
    assert_eq!((monitor.row_waiting(none), monitor.row_deadline(none)), (0, None), "{what}");
    assert_eq!((monitor.row_waiting(usize::MAX), monitor.row_deadline(usize::MAX)), (0, None), "{what}");
    assert_eq!((monitor.row_oldest(none), monitor.row_oldest(usize::MAX)), (None, None), "{what}");
    assert_eq!(monitor.deadline(), limit(model.deadline()), "{what}");
}

fn limit(deadline: u64) -> Option<u64> {
    (deadline != NO_LIMIT).then_some(deadline)
}

/// Which row an event would crowd is the same, and is said exactly where the event is refused with 12.
fn compare_crowded(monitor: &Monitor, model: &model::Monitor, kind: u8, time: u64) -> bool {
    let row = model.crowded_row(Step::Event { kind, time });
    assert_eq!(
        monitor.crowded_row(kind, time),
        (row != ROW_LIMIT).then_some(row),
        "{kind}@{time} after {:?}",
        model.steps()
    );
    let refused = monitor.clone().event(kind, time).map_err(|refusal| refusal.number()) == Err(12);
    assert_eq!(refused, row != ROW_LIMIT, "{kind}@{time} after {:?}", model.steps());
    refused
}

/// Plays calls, a quarter of them withdrawals, and asks after each.
fn play(random: &mut Random, rows: &[Constraint], number: usize) -> usize {
    let mut monitor = fresh(rows);
    let mut model = model::Monitor::fresh(rows).expect("an accepted table");
    let mut deadlines = 0;
    for call in calls(random, rows, number) {
        if let Step::Event { kind, time } = call {
            compare_crowded(&monitor, &model, kind, time);
        }
        let what = if random.below(4) == 0 {
            assert_eq!(monitor.withdraw().map_err(|refusal| refusal.number()), model.withdraw());
            "withdraw".to_string()
        } else {
            assert_eq!(take(&mut monitor, call), model.step(call));
            call.to_string()
        };
        compare(&monitor, &model, &format!("{what} after {:?}", model.steps()));
        deadlines += usize::from(monitor.deadline().is_some());
    }
    deadlines
}

#[test]
fn thousands_of_lists() {
    let mut random = Random::new(152);
    let mut deadlines = 0;
    for _ in 0..800 {
        let rows = any_table(&mut random);
        let number = 20 + random.place(20);
        deadlines += play(&mut random, &rows, number);
    }
    assert!(deadlines > 1_000, "{deadlines}");
}

#[test]
fn long_lists() {
    let mut random = Random::new(153);
    for _ in 0..4 {
        let number = 1 + random.place(4);
        let rows = table(&mut random, number);
        play(&mut random, &rows, 250);
    }
}

/// A tick to the deadline leaves every row as it was, and one past it breaks a row.
#[test]
fn a_tick_to_the_deadline_and_one_past_it() {
    let mut random = Random::new(154);
    let mut tried = 0;
    for _ in 0..600 {
        let rows = any_table(&mut random);
        let mut monitor = fresh(&rows);
        for call in calls(&mut random, &rows, 30) {
            let _ = take(&mut monitor, call);
            let Some(deadline) = monitor.deadline() else { continue };
            let broken = monitor.broken_rows();
            let mut until = monitor.clone();
            if monitor.clock() < deadline {
                until.tick(deadline).expect("a tick after the clock");
                assert_eq!(until.broken_rows(), broken);
            }
            until.tick(deadline + 1).expect("a tick after the deadline");
            let new = until.broken_rows() & !broken;
            assert_ne!(new, 0);
            for row in 0..rows.len() {
                assert_eq!(new >> row & 1 == 1, monitor.row_deadline(row) == Some(deadline));
            }
            tried += 1;
        }
    }
    assert!(tried > 1_000, "{tried}");
}

/// Rows in which 64 wait soon, and further sources, answers and withdrawals: the first row that an event would crowd is named, for kinds
/// and times that are taken and that are refused. After the close there is none.
#[test]
fn the_row_that_an_event_crowds() {
    let mut random = Random::new(155);
    let mut refused = 0;
    for _ in 0..40 {
        let rows = crowding_table(&mut random);
        let mut monitor = fresh(&rows);
        let mut model = model::Monitor::fresh(&rows).expect("an accepted table");
        for time in 1..=74 {
            let kind = if time < 68 || random.chance(60) { 0 } else { 1 + random.below(3) as u8 };
            assert_eq!(monitor.event(kind, time).map_err(|refusal| refusal.number()), model.event(kind, time));
            if time > 60 {
                refused += compare_all_crowded(&monitor, &model);
            }
            if random.chance(6) {
                assert_eq!(monitor.withdraw().map_err(|refusal| refusal.number()), model.withdraw());
            }
        }
        monitor.close().expect("a close");
        model.close().expect("a close");
        assert_eq!(compare_all_crowded(&monitor, &model), 0);
    }
    assert!(refused > 200, "{refused}");
}

/// Kinds in their range, at its ends and beyond, at times around the clock, when the rows are overdue, at the last time and beyond: how
/// many are refused with 12. No word of the monitor changes.
fn compare_all_crowded(monitor: &Monitor, model: &model::Monitor) -> usize {
    let (before, clock) = (monitor.clone(), monitor.clock());
    let times = [clock - 1, clock, clock + 1, clock + 4_990, clock + 5_001, LAST_TIME, LAST_TIME + 1, u64::MAX];
    let kinds = [0, 1, 2, 3, 47, 48, 63, 64, 255];
    let events = kinds.into_iter().flat_map(|kind| times.map(|time| (kind, time)));
    let refused = events.filter(|(kind, time)| compare_crowded(monitor, model, *kind, *time)).count();
    untouched(&before, monitor, "a question for the row that an event crowds");
    refused
}

/// Rows with patience, of which kind 0 is the source, among others.
fn crowding_table(random: &mut Random) -> Vec<Constraint> {
    let patient = [
        Constraint::Delay(Delay { source: 0, target: 1, lower: 0, upper: 5_000 }),
        Constraint::Delay(Delay { source: 0, target: 2, lower: 60, upper: 4_950 }),
        Constraint::StrongDelay(StrongDelay { source: 0, target: 3, lower: 0, upper: 5_000 }),
        strong_synchronization(2, 5_000),
        strong_synchronization(3, 5_000),
        strong_synchronization(4, 5_000),
    ];
    let mut rows = table(random, 2);
    for _ in 0..1 + random.place(3) {
        let row = random.pick(&patient).clone();
        rows.insert(random.place(rows.len() + 1), row);
    }
    rows
}

/// The library's cause as numbers.
fn numbers(cause: Cause) -> (u8, u64) {
    match cause {
        Cause::Overdue(moment) => (1, moment),
        Cause::Event(moment) => (2, moment),
        Cause::Close(moment) => (3, moment),
    }
}

/// Why each row broke and when, whenever a row breaks or a withdrawal opens it again, and now and then of other rows.
#[test]
fn why_rows_broke() {
    let mut random = Random::new(155);
    let mut seen = [0; 4];
    for _ in 0..900 {
        let rows = any_table(&mut random);
        let (mut monitor, mut model) = (fresh(&rows), model::Monitor::fresh(&rows).expect("an accepted table"));
        for call in calls(&mut random, &rows, 40) {
            let before = model.broken_rows();
            if random.below(5) == 0 {
                assert_eq!(monitor.withdraw().map_err(|refusal| refusal.number()), model.withdraw());
            } else {
                assert_eq!(take(&mut monitor, call), model.step(call));
            }
            let changed = before ^ model.broken_rows();
            for row in (0..rows.len()).filter(|row| changed >> row & 1 == 1 || random.chance(5)) {
                let expected = model.row_cause(row).map(model::Cause::numbers);
                assert_eq!(
                    monitor.cause(row).map(numbers),
                    expected,
                    "row {row} of {rows:?} after {:?}",
                    model.steps()
                );
                seen[expected.map_or(0, |(cause, _)| usize::from(cause))] += 1;
            }
        }
        assert_eq!((monitor.cause(rows.len()), monitor.cause(usize::MAX)), (None, None));
    }
    assert!(seen.iter().all(|number| *number > 200), "{seen:?}");
}
