//! Rows that are independent of each other (§3.10): lists beside each other for a row, over tables that share it.
//! Clauses: §3.10, §3.11.

mod common;

use common::{delay, fresh, steps};
use model::TYPES;
use model::beside::{beside, is_own, time_of};
use model::random::Random;
use model::random::calls::Play;
use model::random::seen::Seen;
use model::random::tables::{Scale, pool, row, row_of_type};
use model::{Constraint, Monitor, STREAMS, Step, Verdict};

/// A table with a place for the row that it shares.
struct Shared {
    rows: Vec<Constraint>,
    place: usize,
}

/// A table of 1 to 6 rows of one scale, with the row somewhere in it.
fn table_with(random: &mut Random, shared: &Constraint, scale: Scale, kinds: &[u8]) -> Shared {
    let mut rows: Vec<Constraint> = (0..random.place(6)).map(|_| row(random, scale, kinds)).collect();
    let place = random.place(rows.len() + 1);
    rows.insert(place, shared.clone());
    Shared { rows, place }
}

/// Two tables that share a row of this type, and the row.
fn two_tables(random: &mut Random, type_byte: u8) -> (Constraint, Shared, Shared) {
    let (scale, kinds) = (*random.pick(&[Scale::Small, Scale::Patient, Scale::Extreme]), pool(random));
    let shared = row_of_type(random, type_byte, scale, &kinds);
    let first = table_with(random, &shared, scale, &kinds);
    let second = table_with(random, &shared, scale, &kinds);
    (shared, first, second)
}

/// What the shared row reads after each step of a list, all of which must be accepted.
fn readings(table: &Shared, list: &[Step]) -> Vec<Verdict> {
    let mut monitor = fresh(&table.rows);
    let reads = |step: &Step| {
        assert_eq!(monitor.step(*step), Ok(()), "{step} over {:?}", table.rows);
        monitor.verdict(table.place).expect("a row of that number")
    };
    list.iter().map(reads).collect()
}

/// A step beside this one for the row that the monitor accepts, if a few tries find one; it has then taken it.
fn step_beside(random: &mut Random, monitor: &mut Monitor, row: &Constraint, step: Step) -> Option<Step> {
    let Some(time) = time_of(step).filter(|_| !is_own(row, step)) else {
        return monitor.step(step).is_ok().then_some(step);
    };
    let any = |random: &mut Random| match random.below(3) {
        0 => Step::Tick { time },
        1 => step,
        _ => Step::of_stream(random.below(STREAMS.into()) as u8, time),
    };
    let tries: Vec<Step> = (0..12).map(|_| any(random)).collect();
    tries.into_iter().find(|other| !is_own(row, *other) && monitor.step(*other).is_ok())
}

/// Two accepted lists beside each other: one played over the first table, the other made step by step over the second,
/// as far as that goes.
fn two_lists(random: &mut Random, row: &Constraint, first: &Shared, second: &Shared) -> (Vec<Step>, Vec<Step>) {
    let mut play = Play::new(random.fork(), &first.rows, 60);
    while play.call().is_some() {}
    let list = play.monitor().steps().to_vec();
    let mut monitor = fresh(&second.rows);
    let other = list.iter().map_while(|step| step_beside(random, &mut monitor, row, *step));
    let other: Vec<Step> = other.collect();
    (list[..other.len()].to_vec(), other)
}

#[test]
fn the_row_reads_the_same_after_each_place() {
    let mut random = Random::new(70);
    let (mut seen, mut different) = (Seen::default(), 0);
    for type_byte in TYPES.into_iter().cycle().take(4_000) {
        let (row, first, second) = two_tables(&mut random, type_byte);
        let (one, other) = two_lists(&mut random, &row, &first, &second);
        assert!(beside(&row, &one, &other), "{row:?} {one:?} {other:?}");
        let (reads, other_reads) = (readings(&first, &one), readings(&second, &other));
        assert_eq!(reads, other_reads, "{row:?} {one:?} {other:?}");
        reads.iter().for_each(|verdict| seen.verdict(&row, *verdict));
        different += one.iter().zip(&other).filter(|(one, other)| one != other).count();
    }
    seen.demand_verdicts();
    assert!(different > 10_000, "{different} places with different steps");
}

#[test]
fn other_rows_change_no_verdict_while_none_has_64() {
    let mut random = Random::new(71);
    let mut seen = Seen::default();
    for type_byte in TYPES.into_iter().cycle().take(3_200) {
        let (row, first, second) = two_tables(&mut random, type_byte);
        let mut play = Play::new(random.fork(), &first.rows, 100);
        let mut monitor = fresh(&second.rows);
        while let Some((call, answer)) = play.call() {
            let other = seen.answer(monitor.step(call));
            if answer == Err(12) || other == Err(12) {
                break;
            }
            assert_eq!(answer, other, "{call} over {:?} and {:?}", first.rows, second.rows);
            let verdict = monitor.verdict(second.place);
            assert_eq!(play.monitor().verdict(first.place), verdict, "{row:?} {:?}", monitor.steps());
            verdict.iter().for_each(|verdict| seen.verdict(&row, *verdict));
        }
    }
    seen.demand_refusals((8..=12).chain([19]));
    seen.demand_verdicts();
}

/// What Delay 0→1, 2 to 3 reads after all steps of a list in the contract's notation, alone in its table.
fn delay_reads(text: &str) -> Verdict {
    let table = Shared { rows: vec![delay(2, 3)], place: 0 };
    *readings(&table, &steps(text)).last().expect("a step")
}

#[test]
fn lists_beside_each_other() {
    let pairs = [
        ("0@10, tick 14", "0@10, 7@14", Verdict::Broken(2)),
        ("5@3, 0@10, 1@12, close", "tick 3, 0@10, 1@12, close", Verdict::Kept),
        ("0@10, 5@10, tick 13", "0@10, 6@10, 7@13", Verdict::Open),
    ];
    for (one, other, verdict) in pairs {
        assert!(beside(&delay(2, 3), &steps(one), &steps(other)), "{one} and {other}");
        assert_eq!((delay_reads(one), delay_reads(other)), (verdict, verdict), "{one} and {other}");
    }
}

#[test]
fn lists_that_are_not_beside_each_other() {
    use Verdict::{Broken, Kept, Open};
    // the clock one later; an event of the row's in one list; a close in one list; a step more in one list
    let pairs = [
        (("0@10, 7@13", Open), ("0@10, 7@14", Broken(2))),
        (("0@10, tick 13", Open), ("0@10, tick 14", Broken(2))),
        (("0@10, 1@12, close", Kept), ("0@10, tick 12, close", Broken(3))),
        (("0@10, close", Broken(2)), ("0@10, tick 11", Open)),
        (("0@10, tick 13, tick 14", Broken(3)), ("0@10, tick 14", Broken(2))),
    ];
    for ((one, verdict), (other, other_verdict)) in pairs {
        assert!(!beside(&delay(2, 3), &steps(one), &steps(other)), "{one} and {other}");
        assert_eq!((delay_reads(one), delay_reads(other)), (verdict, other_verdict), "{one} and {other}");
    }
}

/// The list with one tick or event of another kind put one later, if it is accepted so.
fn one_later(random: &mut Random, table: &Shared, row: &Constraint, list: &[Step]) -> Option<Vec<Step>> {
    let others = |place: &usize| !is_own(row, list[*place]) && list[*place] != Step::Close;
    let places: Vec<usize> = (0..list.len()).filter(others).collect();
    let place = if places.is_empty() { return None } else { *random.pick(&places) };
    let mut later = list.to_vec();
    match &mut later[place] {
        Step::Event { time, .. } | Step::Coloured { time, .. } | Step::Tick { time } => *time += 1,
        Step::Close => {}
    }
    let mut monitor = fresh(&table.rows);
    later.iter().all(|step| monitor.step(*step).is_ok()).then_some(later)
}

#[test]
fn a_clock_one_later_can_change_what_the_row_reads() {
    let mut random = Random::new(72);
    let (mut tried, mut changed) = (0, 0);
    for type_byte in TYPES.into_iter().cycle().take(2_000) {
        let (row, table, _) = two_tables(&mut random, type_byte);
        let mut play = Play::new(random.fork(), &table.rows, 40);
        while play.call().is_some() {}
        let list = play.monitor().steps();
        if let Some(later) = one_later(&mut random, &table, &row, list) {
            assert!(!beside(&row, list, &later));
            tried += 1;
            changed += usize::from(readings(&table, list) != readings(&table, &later));
        }
    }
    assert!(tried > 100 && changed > 0, "{changed} of {tried}");
}

#[test]
fn a_step_refused_for_another_rows_64_is_outside() {
    let crowding = fresh(&[delay(2, 3), delay(0, 1000)]);
    let alone = fresh(&[delay(2, 3)]);
    let after_64 = |mut monitor: Monitor| {
        (1..=64).for_each(|time| assert_eq!(monitor.event(0, time), Ok(())));
        monitor.event(0, 65)
    };
    assert_eq!((after_64(crowding), after_64(alone)), (Err(12), Ok(())));
}
