//! Steps and lists of calls: the questions in order, count and clock, what waits, and the verdicts by definition.
//! Clauses: §6.1 to §6.5, §5.9.7.

mod common;

use common::{
    burst, delay, execution_time, fresh, order, repeat, sporadic, steps, strong_delay, strong_synchronization, take,
    verdicts,
};
use model::random::Random;
use model::random::calls::calls;
use model::random::seen::Seen;
use model::random::tables::{Scale, row};
use model::search::open_by_search;
use model::types::{Delay, ExecutionTime, Order};
use model::{Answer, Constraint, Events, History, LAST_COUNT, LAST_TIME, Monitor, NO_LIMIT, Step, Verdict};

#[test]
fn fresh_monitor() {
    let monitor = fresh(&[order(), delay(2, 3)]);
    let recorded = monitor.recorded();
    assert_eq!((recorded.clock(), recorded.count(), recorded.closed()), (0, 0, false));
    assert!((0..=63).all(|kind| recorded.times(kind).is_empty()));
    assert_eq!(verdicts(&monitor), "open, open");
    assert_eq!((monitor.verdict(1), monitor.verdict(2)), (Ok(Verdict::Open), Err(15)));
    assert_eq!(fresh(&[]).verdict(0), Err(15));
}

#[test]
fn fresh_questions_in_order() {
    let bad_kind = Constraint::Order(Order { source: 64, target: 0 });
    let bad_everything = Constraint::Delay(Delay { source: 3, target: 3, lower: LAST_TIME + 2, upper: LAST_TIME + 1 });
    let bad_times = Constraint::Delay(Delay { source: 3, target: 4, lower: LAST_TIME + 2, upper: LAST_TIME + 1 });
    let number = |rows: &[Constraint]| Monitor::fresh(rows).map(|_| ());
    assert_eq!(number(&vec![order(); 32]), Ok(()));
    assert_eq!(number(&vec![order(); 33]), Err(3));
    assert_eq!(number(&[vec![order(); 32], vec![bad_kind.clone()]].concat()), Err(3));
    assert_eq!(number(&[vec![order(); 31], vec![bad_kind, order()]].concat()), Err(5));
    assert_eq!(number(&[strong_synchronization(1, LAST_TIME + 1)]), Err(4));
    assert_eq!(number(&[strong_synchronization(5, 0)]), Err(4));
    assert_eq!(number(&[bad_everything]), Err(5));
    assert_eq!(number(&[bad_times]), Err(6));
    assert_eq!(number(&[delay(3, 2)]), Err(7));
    assert_eq!(number(&[delay(0, u64::MAX)]), Ok(()));
    assert_eq!(number(&[delay(0, u64::MAX - 1)]), Err(6));
    assert_eq!(number(&[delay(u64::MAX, u64::MAX)]), Err(6));
    assert_eq!(number(&[strong_delay(0, u64::MAX)]), Err(6));
    assert_eq!(number(&[repeat(0, 3, 2)]), Err(6));
    assert_eq!(
        number(&[repeat(64, 3, u64::MAX), sporadic(3, u64::MAX, 0, 0), burst(64, LAST_TIME, LAST_TIME)]),
        Ok(())
    );
    assert_eq!(number(&[repeat(65, 3, 3)]), Err(6));
    assert_eq!(number(&[burst(1, u64::MAX, 0)]), Err(6));
    assert_eq!(number(&[sporadic(u64::MAX, u64::MAX, 0, 0)]), Err(6));
}

#[test]
fn clock_and_count() {
    let mut monitor = fresh(&[]);
    assert_eq!(monitor.tick(0), Err(11));
    take(&mut monitor, "0@0, 1@0");
    assert_eq!((monitor.event(0, 0), monitor.tick(0)), (Err(11), Err(11)));
    take(&mut monitor, "tick 5, 1@5, 0@5, 47@9");
    assert_eq!((monitor.event(0, 8), monitor.tick(9), monitor.tick(8)), (Err(11), Err(11), Err(11)));
    assert_eq!((monitor.recorded().clock(), monitor.recorded().count()), (9, 6));
    take(&mut monitor, "tick 1152921504606846975, 0@1152921504606846975, 1@1152921504606846975");
    assert_eq!(monitor.tick(LAST_TIME + 1), Err(10));
    take(&mut monitor, "close");
    assert_eq!(monitor.recorded().count(), 10);
    assert_eq!((monitor.close(), monitor.recorded().count()), (Err(8), 10));
}

#[test]
fn step_questions_in_order() {
    let mut monitor = fresh(&[delay(0, LAST_TIME)]);
    (1..=64).for_each(|time| assert_eq!(monitor.event(0, time), Ok(())));
    let before = monitor.clone();
    assert_eq!(monitor.event(64, LAST_TIME + 1), Err(9));
    assert_eq!(monitor.event(255, 3), Err(9));
    assert_eq!(monitor.event(0, LAST_TIME + 1), Err(10));
    assert_eq!(monitor.event(0, u64::MAX), Err(10));
    assert_eq!(monitor.event(0, 64), Err(11));
    assert_eq!(monitor.event(1, 63), Err(11));
    assert_eq!(monitor.event(0, 65), Err(12));
    assert_eq!(monitor, before);
    take(&mut monitor, "close");
    let closed = monitor.clone();
    for call in steps("64@1152921504606846976, 0@1152921504606846976, 0@3, 0@65, 1@65, tick 65, tick 3, close") {
        assert_eq!(monitor.step(call), Err(8), "{call}");
    }
    assert_eq!(monitor, closed);
    assert_eq!(verdicts(&monitor), "broken 65");
}

/// The step that makes the count 2^64 − 1 is taken, and nothing after it, the close neither; 8 stands before 24.
#[test]
fn the_end_of_the_count() {
    let mut monitor = Monitor::counting_from(&[delay(2, 3)], LAST_COUNT - 2).expect("an accepted table");
    let mut closed = monitor.clone();
    take(&mut monitor, "0@10, tick 14");
    assert_eq!((verdicts(&monitor), monitor.recorded().count()), (format!("broken {LAST_COUNT}"), LAST_COUNT));
    let before = monitor.clone();
    for call in steps("tick 15, close, 1@15, 64@5, 48@5, 0/9@5, 0@1152921504606846976, tick 3, 0@3") {
        assert_eq!(monitor.step(call), Err(24), "{call}");
    }
    assert_eq!(monitor, before);
    take(&mut closed, "1@10, close");
    for call in steps("tick 15, close, 64@5, 0@1152921504606846976") {
        assert_eq!(closed.step(call), Err(8), "{call}");
    }
    assert_eq!((verdicts(&closed), closed.recorded().count()), ("kept".to_string(), LAST_COUNT));
}

#[test]
fn one_crowded_row_refuses_for_all() {
    let wide = delay(0, 1000);
    let narrow = Constraint::Delay(Delay { source: 0, target: 2, lower: 0, upper: 63 });
    let mut monitor = fresh(&[wide, narrow]);
    (1..=64).for_each(|time| assert_eq!(monitor.event(0, time), Ok(())));
    assert_eq!(monitor.event(0, 65), Err(12));
    assert_eq!((verdicts(&monitor).as_str(), monitor.recorded().clock()), ("open, open", 64));
    take(&mut monitor, "tick 65");
    assert_eq!(verdicts(&monitor), "open, broken 65");
    assert_eq!((monitor.event(0, 65), monitor.waiting(0), monitor.waiting(1)), (Err(12), Ok(64), Ok(0)));
    take(&mut monitor, "1@65, 0@65");
    assert_eq!((monitor.waiting(0), monitor.waiting(1)), (Ok(0), Ok(0)));
}

#[test]
fn a_row_that_breaks_is_not_crowded() {
    let mut monitor = fresh(&[delay(0, 63)]);
    (1..=64).for_each(|time| assert_eq!(monitor.event(0, time), Ok(())));
    assert_eq!((monitor.waiting(0), verdicts(&monitor).as_str()), (Ok(64), "open"));
    assert_eq!(monitor.event(0, 65), Ok(()));
    assert_eq!((monitor.waiting(0), verdicts(&monitor).as_str()), (Ok(0), "broken 65"));
}

#[test]
fn sources_without_an_upper_limit_wait_until_a_target_comes() {
    let mut monitor = fresh(&[delay(5, NO_LIMIT)]);
    (1..=64).for_each(|time| assert_eq!(monitor.event(0, time), Ok(())));
    assert_eq!(
        (monitor.event(0, 65), monitor.tick(1_000_000), monitor.event(0, 1_000_000)),
        (Err(12), Ok(()), Err(12))
    );
    assert_eq!((monitor.waiting(0), verdicts(&monitor).as_str()), (Ok(64), "open"));
    take(&mut monitor, "1@1000000, 0@1000000");
    assert_eq!((monitor.waiting(0), verdicts(&monitor).as_str()), (Ok(1), "open"));
    // a target leaves those waiting that are less than lower before it
    let mut monitor = fresh(&[delay(5, NO_LIMIT)]);
    (1..=64).for_each(|time| assert_eq!(monitor.event(0, time), Ok(())));
    take(&mut monitor, "1@65");
    assert_eq!((monitor.waiting(0), verdicts(&monitor).as_str()), (Ok(4), "open"));
}

#[test]
fn what_waits_in_each_type() {
    let mut monitor = fresh(&[strong_delay(0, 1000), strong_synchronization(3, 1000), delay(9, 1000)]);
    (0..64).for_each(|time| assert_eq!(monitor.event(0, time), Ok(())));
    assert_eq!([0, 1, 2].map(|row| monitor.waiting(row)), [Ok(64), Ok(64), Ok(64)]);
    assert_eq!(monitor.event(0, 64), Err(12));
    // a target ends the waiting of one source in type 2, of all sources up to 9 before it in type 1; in type 7 the
    // groups wait for the third kind too
    take(&mut monitor, "1@64");
    assert_eq!([0, 1, 2].map(|row| monitor.waiting(row)), [Ok(63), Ok(64), Ok(8)]);
    assert_eq!(monitor.event(0, 64), Err(12));
    take(&mut monitor, "2@64, 0@64");
    assert_eq!([0, 1, 2].map(|row| monitor.waiting(row)), [Ok(64), Ok(64), Ok(9)]);
    assert_eq!(verdicts(&monitor), "open, open, open");
}

#[test]
fn nothing_waits_in_the_other_types() {
    let executions =
        Constraint::ExecutionTime(ExecutionTime { start: 4, stop: 0, preempt: 1, resume: 2, lower: 0, upper: 9 });
    let rows = [order(), repeat(64, 0, 900), sporadic(0, 900, 9, 0), burst(64, 0, 0), executions];
    let mut monitor = fresh(&rows);
    for time in 0..200 {
        assert_eq!((monitor.event(4, 2 * time), monitor.event(0, 2 * time + 1)), (Ok(()), Ok(())));
    }
    assert_eq!(verdicts(&monitor), "open, open, open, open, open");
    assert!((0..5).all(|row| monitor.waiting(row) == Ok(0)));
    take(&mut monitor, "close");
    assert_eq!(verdicts(&monitor), "broken 401, kept, kept, kept, kept");
}

#[test]
fn broken_stays_broken_at_its_step() {
    let mut monitor = fresh(&[delay(2, 3), order()]);
    take(&mut monitor, "0@10, tick 14");
    assert_eq!(verdicts(&monitor), "broken 2, open");
    take(&mut monitor, "1@15, 0@20, 1@22, close");
    assert_eq!(verdicts(&monitor), "broken 2, kept");
}

#[test]
fn corners_of_waiting_rows() {
    let plays = |row: Constraint, text: &str, verdict: &str| {
        let mut monitor = fresh(std::slice::from_ref(&row));
        take(&mut monitor, text);
        assert_eq!(verdicts(&monitor), verdict, "{row:?}: {text}");
    };
    plays(delay(0, 0), "0@5", "open");
    plays(delay(0, 0), "0@5, 1@5, close", "kept");
    plays(delay(0, 0), "1@5, 0@5, tick 6", "open");
    plays(delay(0, 0), "0@5, tick 6", "broken 2");
    plays(delay(1, 1), "1@5, 0@5", "open");
    plays(delay(1, 1), "0@5, 1@5, 1@6, close", "kept");
    plays(strong_delay(0, 0), "1@5, 0@5, 0@6, 1@6, close", "kept");
    plays(strong_delay(0, 0), "1@5, 1@6", "broken 2");
    plays(strong_delay(0, 3), "0@1, 0@2, 1@4, 1@5", "open");
    plays(strong_delay(0, 3), "0@1, 0@2, 1@4, tick 6", "broken 4");
    plays(strong_delay(2, 3), "0@1, 1@2", "broken 2");
    plays(order(), "0@1, 0@2, tick 900, 1@900, 1@901, close", "kept");
    plays(order(), "0@1, close", "broken 2");
    plays(order(), "1@1, close", "broken 2");
    plays(strong_synchronization(2, 0), "0@5, 1@5, close", "kept");
    plays(strong_synchronization(2, 0), "0@5, tick 6", "broken 2");
    plays(strong_synchronization(3, 1), "0@5, 2@6", "open");
    plays(strong_synchronization(3, 1), "0@5, 2@6, 0@7", "broken 3");
    plays(strong_synchronization(2, 9), "0@5, close", "broken 2");
    plays(execution_time(2, 5), "0@0, 2@5", "broken 2");
    plays(execution_time(2, 5), "0@0, 2@4, tick 1000, 3@1000, tick 1001", "open");
    plays(execution_time(2, 5), "0@0, 2@4, tick 1000, 3@1000, tick 1001, tick 1002", "broken 6");
    plays(execution_time(2, 5), "0@0, 2@1, 3@2, 2@3, 3@9, 1@10, close", "kept");
    plays(execution_time(2, 5), "0@0, 9@6", "broken 2");
    plays(execution_time(2, 5), "0@0, 1@3, 0@3", "broken 3");
    plays(execution_time(2, 5), "0@0, 1@3, 0@4, 1@9, close", "kept");
    plays(execution_time(2, 5), "0@0, 2@3, close", "broken 3");
    plays(execution_time(0, 0), "0@7", "broken 1");
}

/// The answer to a call read off the questions: all put at once, the first "no" taken.
fn first_no(rows: &[Constraint], accepted: &[Step], call: Step) -> Answer {
    let recorded = History::of(accepted);
    let open = !recorded.closed();
    let counted = recorded.count() < u64::MAX;
    let room = || {
        let after = History::of(&[accepted, &[call]].concat());
        rows.iter().all(|row| row.waiting(&after) <= 64 || !open_by_search(row, &after))
    };
    let questions = match call {
        Step::Event { kind, time } => {
            let later = recorded.times(kind).iter().all(|earlier| *earlier < time);
            let in_order = recorded.clock() <= time && later;
            let taken = open && kind < 48 && time < 1 << 60 && in_order;
            vec![
                (8, open),
                (24, counted),
                (9, kind <= 63),
                (19, kind < 48),
                (10, time < 1 << 60),
                (11, in_order),
                (12, taken && room()),
            ]
        }
        Step::Coloured { kind, colour, time } => {
            let form = (48..=63).contains(&kind) && colour < 8;
            let earlier = |earlier: &&Step| match earlier {
                Step::Coloured { kind: k, colour: c, time: t } => (*k, *c) == (kind, colour) && *t >= time,
                _ => false,
            };
            let in_order = recorded.clock() <= time && !accepted.iter().any(|step| earlier(&step));
            let taken = open && form && time < 1 << 60 && in_order;
            vec![
                (8, open),
                (24, counted),
                (9, kind <= 63),
                (19, form),
                (10, time < 1 << 60),
                (11, in_order),
                (12, taken && room()),
            ]
        }
        Step::Tick { time } => {
            let in_order = recorded.clock() < time;
            vec![(8, open), (24, counted), (10, time < 1 << 60), (11, in_order), (12, open && in_order && room())]
        }
        Step::Close => vec![(8, open), (24, counted)],
    };
    questions.iter().find(|(_, yes)| !yes).map_or(Ok(()), |(number, _)| Err(*number))
}

/// What a row reads after the accepted steps: the first of them after which no continuation is left, by search.
fn reads(row: &Constraint, accepted: &[Step]) -> Verdict {
    let open_after = |count: usize| open_by_search(row, &History::of(&accepted[..count]));
    match (0..=accepted.len()).find(|count| !open_after(*count)) {
        Some(count) => Verdict::Broken(count as u64),
        None if accepted.contains(&Step::Close) => Verdict::Kept,
        None => Verdict::Open,
    }
}

/// Are there too many continuations of the row's to try each?
fn too_many_places(row: &Constraint) -> bool {
    match row {
        Constraint::ExecutionTime(ExecutionTime { lower, .. }) => *lower > 1,
        Constraint::OutputSynchronization(_) | Constraint::InputSynchronization(_) => row.kinds().len() > 4,
        row => row.kinds().len() > 2,
    }
}

#[test]
fn lists_of_calls_by_the_definitions_alone() {
    let mut random = Random::new(3);
    let mut seen = Seen::default();
    for _ in 0..4_000 {
        let rows: Vec<Constraint> = (0..2).map(|_| row(&mut random, Scale::Small, &[0, 1, 2, 3])).collect();
        if rows.iter().any(too_many_places) {
            continue;
        }
        let mut monitor = fresh(&rows);
        let mut accepted = Vec::new();
        for call in calls(&mut random, &rows, 10) {
            if matches!(call, Step::Tick { time } | Step::Event { time, .. } | Step::Coloured { time, .. } if (100..=LAST_TIME).contains(&time))
            {
                break;
            }
            let answer = first_no(&rows, &accepted, call);
            assert_eq!(seen.answer(monitor.step(call)), answer, "{rows:?} {accepted:?} {call}");
            if answer.is_ok() {
                accepted.push(call);
            }
            for (row, verdict) in rows.iter().zip(monitor.verdicts()) {
                assert_eq!(verdict, reads(row, &accepted), "{row:?} {accepted:?}");
                seen.verdict(row, verdict);
            }
        }
    }
    seen.demand_refusals((8..=11).chain([19]));
    seen.demand_verdicts();
}
