//! The generators: every refusal, every verdict of every type, and the same lists from the same seed.

mod common;

use common::fresh;
use model::random::Random;
use model::random::calls::{Play, calls};
use model::random::recordings::{damaged_recording, recording};
use model::random::seen::Seen;
use model::random::tables::{any_table, damaged_rows, damaged_table, table};
use model::{Constraint, Monitor, read_recording, read_table, report, table_bytes, write_table};

/// Plays a list of this many calls and counts every call's answer and every row's verdict after it.
fn play(random: &mut Random, rows: &[Constraint], number: usize, seen: &mut Seen) {
    let mut play = Play::new(random.fork(), rows, number);
    while let Some((_, answer)) = play.call() {
        let monitor = play.monitor();
        if seen.answer(answer).is_ok() {
            seen.silence(monitor);
        }
        monitor.verdicts().iter().zip(rows).for_each(|(verdict, row)| seen.verdict(row, *verdict));
    }
    let row = random.place(40);
    let _ = seen.answer(play.monitor().verdict(row));
}

/// Reads and writes tables and recordings, damaged and not.
fn bytes(random: &mut Random, seen: &mut Seen) {
    let rows = any_table(random);
    let mut buffer = vec![0; random.place(2 * table_bytes(&rows).len())];
    let _ = seen.answer(write_table(&rows, &mut buffer));
    let _ = seen.answer(Monitor::fresh(&damaged_rows(random)));
    let _ = read_table(&damaged_table(random)).inspect_err(|refusal| seen.refusal(refusal.number));
    let recordings = [recording(random, &rows, 40), damaged_recording(random, &rows, 40)];
    for bytes in recordings {
        let _ = read_recording(fresh(&rows), &bytes).inspect_err(|refusal| seen.refusal(refusal.number));
        assert!(report(&table_bytes(&rows), &bytes, &mut [0; 1024]) > 0);
    }
}

#[test]
fn every_refusal_comes_up() {
    let mut random = Random::new(17);
    let mut seen = Seen::default();
    for _ in 0..300 {
        bytes(&mut random, &mut seen);
        let rows = any_table(&mut random);
        play(&mut random, &rows, 150, &mut seen);
    }
    seen.demand_refusals((1..=16).chain([18, 19]));
    seen.demand_verdicts();
}

#[test]
fn many_long_lists() {
    let mut random = Random::new(18);
    let mut seen = Seen::default();
    for _ in 0..2_000 {
        let rows = 8 + random.place(25);
        let rows = table(&mut random, rows);
        let number = 100 + random.place(101);
        play(&mut random, &rows, number, &mut seen);
    }
    seen.demand_refusals((8..=12).chain([19]));
    seen.demand_verdicts();
    seen.demand_silences();
}

#[test]
fn the_same_seed_gives_the_same() {
    let make = |seed| {
        let mut random = Random::new(seed);
        let rows = any_table(&mut random);
        (calls(&mut random, &rows, 50), recording(&mut random, &rows, 20), damaged_table(&mut random), rows)
    };
    assert!((0..50).all(|seed| make(seed) == make(seed)));
    assert!((0..50).all(|seed| make(seed) != make(seed + 1)));
}

#[test]
#[should_panic(expected = "refusals never seen: [2]")]
fn a_refusal_never_seen_fails_the_test() {
    let mut seen = Seen::default();
    [1, 3].into_iter().for_each(|number| seen.refusal(number));
    seen.demand_refusals(1..=3);
}
