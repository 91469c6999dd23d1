//! The contract's examples through the exports: each verdict after each step, each break at the very step.
//! Clauses: §10.1 to §10.12.

use checks::beside::{fresh, take, verdict};
use delkuthi::Monitor;
use model::examples::examples;
use model::types::{delay, strong_delay};
use model::{Constraint, EARLIER_LAST_TIME, LAST_TIME, NO_LIMIT, Verdict, table_bytes};

#[test]
fn examples_1_to_12() {
    for example in examples() {
        let mut monitor = fresh(std::slice::from_ref(&example.row));
        assert_eq!((monitor.rows(), verdict(&monitor, 0)), (1, Ok(Verdict::Open)));
        for (step, expected) in &example.steps {
            let place = format!("example {}, {step}", example.number);
            assert_eq!(take(&mut monitor, *step), Ok(()), "{place}");
            assert_eq!(verdict(&monitor, 0), Ok(*expected), "{place}");
        }
    }
}

/// What has happened stays: ticks and the close after a break leave row and step as they were.
#[test]
fn broken_stays_broken() {
    for example in examples() {
        let Verdict::Broken(_) = example.end() else { continue };
        let mut monitor = fresh(std::slice::from_ref(&example.row));
        for (step, _) in &example.steps {
            assert_eq!(take(&mut monitor, *step), Ok(()));
        }
        let _ = (monitor.tick(1_000), monitor.event(1, 1_000), monitor.close());
        assert_eq!(verdict(&monitor, 0), Ok(example.end()), "example {}", example.number);
    }
}

#[test]
fn example_13() {
    let mut monitor = fresh(&[delay(0, 1000)]);
    assert!((1..=64).all(|time| monitor.event(0, time).is_ok()));
    let before = monitor.clone();
    assert_eq!(monitor.event(0, 65).map_err(|refusal| refusal.number()), Err(12));
    assert!(monitor == before);
    assert_eq!((monitor.event(1, 65), monitor.event(0, 65)), (Ok(()), Ok(())));
    assert_eq!(verdict(&monitor, 0), Ok(Verdict::Open));
    assert_eq!((monitor.close(), verdict(&monitor, 0)), (Ok(()), Ok(Verdict::Kept)));
}

/// A Delay without an upper limit has 64 waiting at most too, and no tick makes room.
#[test]
fn sources_without_an_upper_limit() {
    let number = |answer: Result<(), delkuthi::Refusal>| answer.map_err(|refusal| refusal.number());
    let mut monitor = fresh(&[delay(5, NO_LIMIT)]);
    assert!((1..=64).all(|time| monitor.event(0, time).is_ok()));
    let mut other = monitor.clone();
    assert_eq!(number(monitor.event(0, 65)), Err(12));
    assert_eq!((monitor.tick(1_000_000), number(monitor.event(0, 1_000_000))), (Ok(()), Err(12)));
    assert_eq!((monitor.event(1, 1_000_000), monitor.event(0, 1_000_000)), (Ok(()), Ok(())));
    assert_eq!(verdict(&monitor, 0), Ok(Verdict::Open));
    // the target at 65 leaves the 4 sources from 61 on: there is room for 60 more
    assert_eq!(other.event(1, 65), Ok(()));
    assert!((65..125).all(|time| other.event(0, time).is_ok()));
    assert_eq!((number(other.event(0, 125)), verdict(&other, 0)), (Err(12), Ok(Verdict::Open)));
}

/// Rows that had 6 when times went to 2^56 − 1: accepted, or asked 7.
#[test]
fn rows_past_the_earlier_last_time() {
    let answer = |row: Constraint| Monitor::fresh(&table_bytes(&[row])).map(|_| ()).map_err(|refusal| refusal.number());
    assert_eq!(answer(delay(2, EARLIER_LAST_TIME + 1)), Ok(()));
    assert_eq!(answer(strong_delay(EARLIER_LAST_TIME + 2, EARLIER_LAST_TIME + 1)), Err(7));
    assert_eq!(answer(strong_delay(LAST_TIME, LAST_TIME)), Ok(()));
    assert_eq!(answer(strong_delay(0, LAST_TIME + 1)), Err(6));
}

/// Only the upper may be the mark, and not in a StrongDelay.
#[test]
fn where_a_delay_may_have_the_mark() {
    let answer = |row: Constraint| Monitor::fresh(&table_bytes(&[row])).map(|_| ()).map_err(|refusal| refusal.number());
    assert_eq!(answer(delay(2, NO_LIMIT)), Ok(()));
    assert_eq!(answer(delay(2, NO_LIMIT - 1)), Err(6));
    assert_eq!(answer(delay(2, LAST_TIME + 1)), Err(6));
    assert_eq!(answer(delay(NO_LIMIT, NO_LIMIT)), Err(6));
    assert_eq!(answer(strong_delay(2, NO_LIMIT)), Err(6));
}
