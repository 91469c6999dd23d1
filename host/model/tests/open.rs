//! The quick decision of "open" beside the search over all continuations, on small histories.
//! Clauses: §2.3, §2.4.

mod common;

use common::{burst, delay, execution_time, order, reaction, repeat, sporadic, strong_delay, strong_synchronization};
use model::continuation::is_continuation;
use model::open::earliest_continuation;
use model::random::Random;
use model::random::tables::{Scale, row_of_type};
use model::search::{open_by_search, open_within, reach};
use model::types::{ExecutionTime, StrongSynchronization};
use model::{Constraint, History, NEWEST_EDITION, NO_LIMIT, Step, TYPES, open, types_in};

/// The kinds that the small rows use.
const KINDS: [u8; 4] = [0, 1, 2, 3];

/// A kind that they do not use.
const STRANGER: u8 = 40;

/// A small row of a type. With more kinds there are fewer places to search.
fn small_row(random: &mut Random, type_byte: u8) -> Constraint {
    match row_of_type(random, type_byte, Scale::Small, &KINDS) {
        Constraint::StrongSynchronization(StrongSynchronization { kinds, tolerance }) => {
            let tolerance = tolerance.min(6 - kinds.len() as u64);
            Constraint::StrongSynchronization(StrongSynchronization { kinds, tolerance })
        }
        Constraint::ExecutionTime(ExecutionTime { start, stop, preempt, resume, lower, upper }) => {
            Constraint::ExecutionTime(ExecutionTime { start, stop, preempt, resume, lower: lower.min(2), upper })
        }
        row => row,
    }
}

/// A next step that can be accepted: mostly an event of the row's at the clock or soon after it, else a tick or close.
fn next_step(random: &mut Random, row: &Constraint, recorded: &History) -> Step {
    // of the colours the first two will do
    let near: Vec<u8> = row.streams().into_iter().filter(|stream| *stream < 48 || stream % 8 < 2).collect();
    let stream = if near.is_empty() { STRANGER } else { *random.pick(&near) };
    let time = recorded.clock() + *random.pick(&[0, 0, 1, 1, 2, 3, 5]);
    match random.below(20) {
        0..=15 if recorded.event_in_order(stream, time) => Step::of_stream(stream, time),
        19 => Step::Close,
        _ => Step::Tick { time: recorded.clock() + 1 + random.below(2) },
    }
}

/// Compares both decisions after every step of this many random lists over rows of a type. Both answers must come up
/// often, before the close and after it.
fn compare(type_byte: u8, lists: u64) {
    let mut random = Random::new(u64::from(type_byte));
    let mut answers = [[0; 2]; 2];
    for _ in 0..lists {
        let row = small_row(&mut random, type_byte);
        let mut recorded = History::default();
        for _ in 0..3 + random.below(6) {
            recorded.record(next_step(&mut random, &row, &recorded));
            let found = open_by_search(&row, &recorded);
            assert_eq!(open(&row, &recorded), found, "{row:?} after {recorded:?}");
            answers[usize::from(recorded.closed())][usize::from(found)] += 1;
            if recorded.closed() {
                break;
            }
        }
    }
    // a Comparison is never broken
    let often = answers.iter().all(|[not, open]| *open * 100 > lists && (type_byte == 17 || *not * 100 > lists));
    assert!(often, "type {type_byte}: {answers:?}");
}

#[test]
fn delay_beside_the_search() {
    compare(1, 8_000);
}

#[test]
fn strong_delay_beside_the_search() {
    compare(2, 8_000);
}

#[test]
fn repeat_beside_the_search() {
    compare(3, 8_000);
}

#[test]
fn sporadic_beside_the_search() {
    compare(4, 8_000);
}

#[test]
fn burst_beside_the_search() {
    compare(5, 8_000);
}

#[test]
fn order_beside_the_search() {
    compare(6, 8_000);
}

#[test]
fn strong_synchronization_beside_the_search() {
    compare(7, 8_000);
}

#[test]
fn execution_time_beside_the_search() {
    compare(8, 1_000);
}

#[test]
fn reaction_beside_the_search() {
    compare(9, 8_000);
}

#[test]
fn repetition_beside_the_search() {
    compare(10, 8_000);
}

#[test]
fn types_of_later_editions_beside_the_search() {
    types_in(NEWEST_EDITION).into_iter().filter(|one| !types_in(1).contains(one)).for_each(|one| compare(one, 8_000));
}

/// Compares both decisions after every list of steps that can be accepted, up to a length and a last time.
fn compare_all(row: &Constraint, recorded: &History, last: u64, steps: usize) -> u64 {
    assert_eq!(open(row, recorded), open_by_search(row, recorded), "{row:?} after {recorded:?}");
    if steps == 0 || recorded.closed() {
        return 1;
    }
    let times = recorded.clock()..=last;
    let one_colour = row.streams().into_iter().filter(|stream| *stream < 48 || stream % 8 == 0);
    let events = one_colour.flat_map(|stream| times.clone().map(move |time| (stream, time)));
    let events = events.filter(|(stream, time)| recorded.event_in_order(*stream, *time));
    let events = events.map(|(stream, time)| Step::of_stream(stream, time));
    let ticks = (recorded.clock() + 1..=last).map(|time| Step::Tick { time });
    let next = events.chain(ticks).chain([Step::Close]);
    1 + next.map(|step| compare_all(row, &recorded.after(step), last, steps - 1)).sum::<u64>()
}

#[test]
fn every_short_history_beside_the_search() {
    let rows = [
        vec![delay(0, 0), delay(0, 1), delay(0, 2), delay(1, 1), delay(1, 2), delay(2, 2)],
        vec![delay(0, NO_LIMIT), delay(1, NO_LIMIT), delay(3, NO_LIMIT)],
        vec![strong_delay(0, 0), strong_delay(0, 1), strong_delay(0, 2), strong_delay(1, 1), strong_delay(1, 2)],
        vec![repeat(1, 0, 0), repeat(1, 0, NO_LIMIT), repeat(1, 1, 2), repeat(2, 2, 2), repeat(2, 3, NO_LIMIT)],
        vec![sporadic(0, 0, 3, 0), sporadic(0, 1, 0, 0), sporadic(1, 1, 9, 2), sporadic(2, 2, 1, 0)],
        vec![sporadic(0, NO_LIMIT, 0, 0), sporadic(2, NO_LIMIT, 1, 0), sporadic(1, 3, 2, 0)],
        vec![burst(1, 0, 0), burst(1, 2, 0), burst(2, 3, 0), burst(2, 3, 2), burst(1, 0, 3)],
        vec![reaction(0, 0), reaction(0, 1), reaction(1, 1), reaction(1, 2), reaction(2, 3)],
        vec![order(), strong_synchronization(2, 0), strong_synchronization(2, 1), strong_synchronization(2, 3)],
    ];
    let compared: u64 = rows.iter().flatten().map(|row| compare_all(row, &History::default(), 4, 5)).sum();
    let three = compare_all(&strong_synchronization(3, 1), &History::default(), 2, 7);
    let bounds = [(0, 0), (0, 1), (1, 1), (0, 2), (1, 2)];
    let executions = bounds.map(|(lower, upper)| compare_all(&execution_time(lower, upper), &History::default(), 2, 4));
    assert!(compared + three > 100_000, "{compared} and {three} histories");
    assert!(executions.iter().sum::<u64>() > 10_000, "{executions:?} histories of executions");
}

#[test]
fn the_earliest_continuation_is_one_and_later_places_add_nothing() {
    let mut random = Random::new(99);
    for _ in 0..6_000 {
        let type_byte = *random.pick(&TYPES);
        let row = small_row(&mut random, type_byte);
        let mut recorded = History::default();
        for _ in 0..1 + random.below(6) {
            if !recorded.closed() {
                recorded.record(next_step(&mut random, &row, &recorded));
            }
        }
        assert!(is_continuation(&recorded, &earliest_continuation(&row, &recorded)), "{row:?} after {recorded:?}");
        if row.kinds().len() > 2 {
            continue;
        }
        let farther = open_within(&row, &recorded, reach(&row, &recorded) + 2);
        assert_eq!(open(&row, &recorded), farther, "{row:?} after {recorded:?}");
    }
}
