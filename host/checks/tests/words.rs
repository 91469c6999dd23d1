//! Every refusal of a call on a lent monitor leaves every word as it was: each number, from each call that has it. Words of which none
//! is what a call left: zeros, and too many rows.
//! Clauses: §15.13.

use checks::beside::{counting_from, fresh, take, take_all};
use checks::words::{ROWS, untouched};
use delkuthi::{Monitor, PAGE_LIMIT, ROW_LIMIT, WORDS};
use model::random::Random;
use model::random::calls::{Play, calls};
use model::random::seen::Seen;
use model::random::tables::any_table;
use model::types::{Delay, Order, StrongDelay, StrongSynchronization};
use model::{Constraint, FIRST_COLOURED, LAST_COLOUR, LAST_COUNT, LAST_KIND, LAST_TIME, Step, table_bytes};
use std::collections::BTreeSet;

/// The calls that a step can be: one of each sort, with a kind, a colour and a time.
fn sorts(kind: u8, colour: u8, time: u64) -> [Step; 3] {
    [Step::Event { kind, time }, Step::Coloured { kind, colour, time }, Step::Tick { time }]
}

/// Calls with kinds, colours and times in their ranges, at their ends and beyond, at the clock and around it; and the close.
fn any_calls(clock: u64) -> Vec<Step> {
    let times = [0, clock.saturating_sub(1), clock, clock + 1, LAST_TIME, LAST_TIME + 1, u64::MAX];
    let kinds = [0, 1, FIRST_COLOURED - 1, FIRST_COLOURED, LAST_KIND, LAST_KIND + 1, u8::MAX];
    let colours = [0, LAST_COLOUR, LAST_COLOUR + 1, u8::MAX];
    let each = |time| {
        kinds.into_iter().flat_map(move |kind| colours.into_iter().flat_map(move |colour| sorts(kind, colour, time)))
    };
    times.into_iter().flat_map(each).chain([Step::Close]).collect()
}

/// The number that a call is answered with, on a copy of the monitor: where that is a refusal, no word of it has changed.
fn answered(monitor: &Monitor, call: Step) -> Option<u8> {
    let mut copy = monitor.clone();
    let number = take(&mut copy, call).err()?;
    untouched(monitor, &copy, &format!("{call}, refused with {number}"));
    Some(number)
}

/// The numbers that calls of each sort are refused with, on one monitor.
fn refused(monitor: &Monitor, calls: &[Step]) -> BTreeSet<u8> {
    calls.iter().filter_map(|call| answered(monitor, *call)).collect()
}

/// A withdrawal that is refused with 21, and changes no word.
fn nothing_to_withdraw(monitor: &Monitor) {
    let mut copy = monitor.clone();
    assert_eq!(copy.withdraw().map_err(|refusal| refusal.number()), Err(21));
    untouched(monitor, &copy, "a withdrawal, refused with 21");
}

/// A monitor after a random list up to its close, and its clock.
fn in_use(random: &mut Random, rows: &[Constraint], number: usize) -> (Monitor, u64) {
    let mut monitor = fresh(rows);
    let mut play = Play::new(random.fork(), rows, number);
    let mut clock = 0;
    while let Some((call, answer)) = play.call().filter(|(call, _)| *call != Step::Close) {
        assert_eq!(take(&mut monitor, call), answer);
        clock = play.monitor().recorded().clock();
    }
    (monitor, clock)
}

/// Monitors after random lists, with a step to withdraw and after its withdrawal, and closed.
#[test]
fn of_steps_and_withdrawals() {
    let mut random = Random::new(131);
    for _ in 0..150 {
        let rows = any_table(&mut random);
        nothing_to_withdraw(&fresh(&rows));
        let number = random.place(60);
        let (mut monitor, clock) = in_use(&mut random, &rows, number);
        let before = monitor.clone();
        if monitor.tick(clock + 1).is_ok() {
            assert!(refused(&monitor, &any_calls(clock + 1)).is_superset(&BTreeSet::from([9, 10, 11, 19])));
            monitor.withdraw().expect("a tick to withdraw");
            nothing_to_withdraw(&monitor);
            assert_eq!(refused(&monitor, &any_calls(clock)), refused(&before, &any_calls(clock)));
        }
        monitor.close().expect("a close");
        assert_eq!(refused(&monitor, &any_calls(clock)), BTreeSet::from([8]));
        monitor.withdraw().expect("a close to withdraw");
        nothing_to_withdraw(&monitor);
    }
}

/// With the count full every call is refused with 24, until the last step is withdrawn; a closed monitor refuses with 8 before.
#[test]
fn of_steps_at_the_end_of_the_count() {
    let mut random = Random::new(132);
    for _ in 0..50 {
        let mut monitor = counting_from(&any_table(&mut random), LAST_COUNT - 1);
        let mut closed = monitor.clone();
        monitor.tick(5).expect("a tick in order");
        assert_eq!(refused(&monitor, &any_calls(5)), BTreeSet::from([24]));
        monitor.withdraw().expect("a tick to withdraw");
        nothing_to_withdraw(&monitor);
        assert!(!refused(&monitor, &any_calls(5)).contains(&24));
        closed.close().expect("a close");
        assert_eq!(refused(&closed, &any_calls(5)), BTreeSet::from([8]));
    }
}

/// A row in which 64 wait, the kinds of which one more event is refused with 12, and the steps that lead there.
fn full_rows() -> Vec<(Constraint, Vec<u8>, Vec<Step>)> {
    let sources = |kind: u8| (1..=64).map(move |time| Step::Event { kind, time });
    let group =
        |n: u8| Constraint::StrongSynchronization(StrongSynchronization { kinds: (0..n).collect(), tolerance: 1_000 });
    let delay = |lower| Constraint::Delay(Delay { source: 0, target: 1, lower, upper: 1_000 });
    let strong_delay = Constraint::StrongDelay(StrongDelay { source: 0, target: 1, lower: 0, upper: 1_000 });
    // the events of each time kind after kind, so that times do not fall
    let both = (1..=64).flat_map(|time| [1, 3].map(|kind| Step::Event { kind, time }));
    vec![
        (delay(0), vec![0], sources(0).collect()),
        (delay(7), vec![0], sources(0).collect()),
        (strong_delay, vec![0], sources(0).collect()),
        (group(2), vec![1], sources(1).collect()),
        (group(3), vec![2], sources(2).collect()),
        (group(4), vec![1, 3], both.collect()),
    ]
}

/// 12: by each type in which something waits and each kind that lets one more wait, as the first, a middle and the last row; before
/// and after another step is taken and withdrawn. Once the row is overdue at the step, the step breaks it and is taken.
#[test]
fn of_steps_where_sixty_four_wait() {
    for (row, kinds, steps) in full_rows() {
        for place in [0, 3, 31] {
            let mut rows = vec![Constraint::Order(Order { source: 40, target: 41 }); 31];
            rows.insert(place, row.clone());
            let mut monitor = fresh(&rows);
            assert!(take_all(&mut monitor, &steps).iter().all(Result::is_ok));
            let crowding: Vec<Step> = kinds.iter().map(|kind| Step::Event { kind: *kind, time: 65 }).collect();
            assert_eq!(refused(&monitor, &crowding), BTreeSet::from([12]), "{row:?}");
            let mut ticked = monitor.clone();
            ticked.tick(65).expect("a tick in order");
            assert_eq!(refused(&ticked, &crowding), BTreeSet::from([12]), "{row:?}");
            ticked.withdraw().expect("a tick to withdraw");
            assert_eq!(refused(&ticked, &crowding), BTreeSet::from([12]), "{row:?}");
            let late = Step::Event { kind: kinds[0], time: 1_002 };
            assert_eq!((answered(&monitor, late), take(&mut monitor, late)), (None, Ok(())), "{row:?}");
        }
    }
}

/// Tables that are refused with each number, over a monitor in use: by fresh and by the report on it.
#[test]
fn of_tables() {
    let delay = |source, target, lower, upper| Constraint::Delay(Delay { source, target, lower, upper });
    let row = |row: Constraint| table_bytes(&[row]);
    let refused = [
        (1, vec![3]),
        (2, vec![1, 0]),
        (3, table_bytes(&vec![Constraint::Order(Order { source: 0, target: 1 }); 33])),
        (4, vec![1, 0, 3, 11, 0, 1]),
        (5, row(delay(64, 1, 0, 0))),
        (6, row(delay(0, 1, 0, LAST_TIME + 1))),
        (7, row(delay(0, 1, 3, 2))),
        (18, row(delay(0, 48, 0, 0))),
    ];
    let mut random = Random::new(133);
    let mut seen = Seen::default();
    for _ in 0..20 {
        let rows = any_table(&mut random);
        let mut monitor = fresh(&rows);
        take_all(&mut monitor, &calls(&mut random, &rows, 40));
        for (number, table) in &refused {
            let mut copy = monitor.clone();
            let answer = copy.restart(table).map_err(|refusal| refusal.number());
            assert_eq!(seen.answer(answer), Err(*number));
            untouched(&monitor, &copy, &format!("a table, refused with {number}"));
            assert!(copy.report_on(table, &[1], &mut [0; 64]).is_some());
            untouched(&monitor, &copy, &format!("a report on a table, refused with {number}"));
        }
    }
    seen.demand_refusals((1..=7).chain([18]));
}

/// The page of a monitor.
fn page(monitor: &Monitor) -> Vec<u8> {
    let mut buffer = [0; PAGE_LIMIT];
    let length = monitor.page(&mut buffer).expect("a buffer that is long enough");
    buffer[..length].to_vec()
}

/// Memory of zeros is a monitor that is closed and has no rows: every call that only reads says so, every step is refused with 8
/// and a withdrawal with 21, and no word changes. A table makes it fresh, as it does any other memory.
#[test]
fn of_zeros() {
    let mut zeros = Monitor::from_words([0; WORDS]);
    assert_eq!((zeros.is_closed(), zeros.rows(), zeros.clock(), zeros.steps()), (true, 0, 0, 0));
    assert_eq!(
        (zeros.broken_rows(), zeros.deadline(), zeros.crowded_row(0, 1), zeros.verdicts().count()),
        (0, None, None, 0)
    );
    for row in [0, 1, 31, 32, usize::MAX] {
        assert_eq!(zeros.verdict(row).map_err(|refusal| refusal.number()), Err(15));
        assert_eq!((zeros.row_waiting(row), zeros.row_deadline(row)), (0, None));
    }
    assert_eq!(page(&zeros), page(&fresh(&[])));
    let calls = any_calls(0);
    assert!(calls.iter().all(|call| answered(&zeros, *call) == Some(8)));
    nothing_to_withdraw(&zeros);
    let rows = any_table(&mut Random::new(134));
    zeros.restart(&table_bytes(&rows)).expect("an accepted table");
    untouched(&fresh(&rows), &zeros, "a table over memory of zeros");
}

/// A word for the number of rows above 32 reads as 32, and no call speaks of a row behind the last.
#[test]
fn of_too_many_rows() {
    let mut random = Random::new(135);
    let rows = vec![Constraint::Order(Order { source: 0, target: 1 }); ROW_LIMIT];
    let (full, _) = in_use(&mut random, &rows, 40);
    assert_eq!((full.words()[ROWS], full.rows()), (32, 32));
    for number in [33, 64, 1 << 32, 1 << 63, u64::MAX] {
        let mut words = *full.words();
        words[ROWS] = number;
        let mut many = Monitor::from_words(words);
        assert_eq!((many.rows(), many.broken_rows()), (32, full.broken_rows()));
        assert!(many.verdicts().eq(full.verdicts()) && page(&many) == page(&full));
        assert_eq!(many.verdict(32).map_err(|refusal| refusal.number()), Err(15));
        assert_eq!((many.row_waiting(32), many.row_deadline(32), many.deadline()), (0, None, full.deadline()));
        many.close().expect("a close");
        assert_eq!((many.rows(), many.verdicts().count()), (32, 32));
    }
}
