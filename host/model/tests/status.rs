//! What a host asks while it runs: deadlines beside ticks tried one after the other, and the row that is crowded.
//! Clauses: §15.1 to §15.9.

mod common;

use common::{delay, fresh, order, repeat, take};
use model::random::Random;
use model::random::calls::calls;
use model::random::tables::{Scale, row};
use model::{LAST_TIME, Monitor, NO_LIMIT, ROW_LIMIT, Step, Verdict};

/// The last time of the next hundred to which a tick leaves the row open, tried one by one; none where all of them do.
fn last_open(monitor: &Monitor, row: usize) -> Option<u64> {
    let open = |time: u64| {
        let mut later = monitor.clone();
        later.tick(time).expect("a tick after the clock");
        later.verdict(row) == Ok(Verdict::Open)
    };
    let times = monitor.clock() + 1..monitor.clock() + 100;
    times.clone().find(|time| !open(*time)).map(|time| time - 1)
}

#[test]
fn deadlines_by_trying_each_tick() {
    let mut random = Random::new(151);
    let mut found = 0;
    for _ in 0..300 {
        let rows = [row(&mut random, Scale::Small, &[0, 1, 2, 3])];
        let mut monitor = fresh(&rows);
        for call in calls(&mut random, &rows, 12) {
            let _ = monitor.step(call);
            if monitor.verdict(0) != Ok(Verdict::Open) || monitor.clock() + 100 > LAST_TIME {
                break;
            }
            let deadline = monitor.row_deadline(0);
            match last_open(&monitor, 0) {
                Some(time) => {
                    assert_eq!(deadline, time, "{rows:?} after {:?}", monitor.steps());
                    found += 1;
                }
                None => assert!(deadline >= monitor.clock() + 99, "{rows:?} after {:?}", monitor.steps()),
            }
        }
    }
    assert!(found > 80, "{found}");
}

#[test]
fn by_hand() {
    let mut monitor = fresh(&[delay(2, 3), order(), repeat(1, 4, 4), delay(0, NO_LIMIT)]);
    assert_eq!((monitor.clock(), monitor.count(), monitor.closed(), monitor.broken_rows()), (0, 0, false, 0));
    assert_eq!((monitor.deadline(), monitor.row_deadline(0), monitor.row_deadline(9)), (NO_LIMIT, NO_LIMIT, NO_LIMIT));
    take(&mut monitor, "0@10");
    assert_eq!([0, 1, 2, 3].map(|row| monitor.row_deadline(row)), [13, NO_LIMIT, 14, NO_LIMIT]);
    assert_eq!(
        (monitor.deadline(), monitor.row_waiting(0), monitor.row_waiting(1), monitor.row_waiting(9)),
        (13, 1, 0, 0)
    );
    take(&mut monitor, "tick 14");
    assert_eq!((monitor.broken_rows(), monitor.row_deadline(0), monitor.deadline()), (1, NO_LIMIT, 14));
    take(&mut monitor, "close");
    assert_eq!((monitor.deadline(), monitor.row_waiting(3), monitor.closed(), monitor.count()), (NO_LIMIT, 0, true, 3));
}

#[test]
fn the_first_row_that_is_crowded() {
    let mut monitor = fresh(&[order(), delay(0, 1_000), delay(0, 2_000)]);
    for time in 1..=64 {
        assert_eq!(monitor.crowded_row(Step::Event { kind: 0, time }), ROW_LIMIT);
        take(&mut monitor, &format!("0@{time}"));
    }
    assert_eq!(monitor.crowded_row(Step::Event { kind: 0, time: 65 }), 1);
    assert_eq!(monitor.crowded_row(Step::Event { kind: 0, time: 64 }), ROW_LIMIT);
    assert_eq!(monitor.crowded_row(Step::Event { kind: 1, time: 65 }), ROW_LIMIT);
    assert_eq!(monitor.event(0, 65), Err(12));
}

/// The causes of the contract's examples (§15.17).
#[test]
fn causes() {
    let text = model::contract::text();
    for lines in model::contract::blocks(&text, "cause") {
        let example = model::contract::example(&lines);
        for recording in example.recordings {
            let mut monitor = Monitor::fresh(&example.rows).expect("an accepted table");
            recording.iter().for_each(|(asked, _)| monitor.step(asked.step()).expect("a step that is taken"));
            let said = recording.last().and_then(|(_, said)| said.clone());
            assert_eq!(monitor.row_cause(0).map(|cause| cause.to_string()), said, "{recording:?}");
        }
    }
}

/// The oldest that waits in the contract's examples (§15.20).
#[test]
fn oldest() {
    let text = model::contract::text();
    for lines in model::contract::blocks(&text, "oldest") {
        let example = model::contract::example(&lines);
        for recording in example.recordings {
            let mut monitor = Monitor::fresh(&example.rows).expect("an accepted table");
            recording.iter().for_each(|(asked, _)| monitor.step(asked.step()).expect("a step that is taken"));
            let said = recording.last().and_then(|(_, said)| said.clone());
            let oldest = monitor.row_oldest(0).map(|(time, stream)| format!("time {time} stream {stream}"));
            assert_eq!(Some(oldest.unwrap_or("none".to_string())), said, "{recording:?}");
        }
    }
}
