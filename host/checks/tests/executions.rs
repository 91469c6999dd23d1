//! Long lists of calls over an ExecutionTime, beside the model: it stays open for long, and breaks in every way.
//! Clauses: §5.8.

use checks::beside::{fresh, take, verdict};
use model::random::Random;
use model::random::executions::{SeenWays, next_step, row, way};
use model::types::ExecutionTime;
use model::{Monitor, Step, Verdict};

/// Plays a list until the row is broken or the recording closed, up to a number of steps. Returns the number of steps.
fn play(random: &mut Random, row: &ExecutionTime, steps: u64, wrong: u64, ways: &mut SeenWays) -> u64 {
    let rows = [row.clone().into()];
    let (mut monitor, mut model) = (fresh(&rows), Monitor::fresh(&rows).expect("an accepted row"));
    while model.recorded().count() < steps {
        let step = next_step(random, row, model.recorded(), wrong);
        let before = model.recorded().clone();
        assert_eq!(
            (take(&mut monitor, step), model.step(step)),
            (Ok(()), Ok(())),
            "{step} of {row:?} after {before:?}"
        );
        assert_eq!(verdict(&monitor, 0), model.verdict(0), "{step} of {row:?} after {before:?}");
        if matches!(model.verdict(0), Ok(Verdict::Broken(_))) {
            ways.way(way(row, &before, step));
            return before.count();
        }
        if model.recorded().closed() {
            return before.count();
        }
    }
    assert_eq!((take(&mut monitor, Step::Close), model.step(Step::Close)), (Ok(()), Ok(())));
    assert_eq!(verdict(&monitor, 0), model.verdict(0));
    steps
}

#[test]
fn every_way_to_break_after_a_long_time() {
    let mut random = Random::new(801);
    let mut ways = SeenWays::default();
    let mut long = 0;
    for _ in 0..4_000 {
        let row = row(&mut random);
        let steps = play(&mut random, &row, 200, 20, &mut ways);
        long += u64::from(steps >= 100);
    }
    ways.demand_all();
    assert!(long > 200, "{long} lists kept the row open for a hundred steps");
}

#[test]
fn open_until_the_close() {
    let mut random = Random::new(802);
    let mut ways = SeenWays::default();
    let mut whole = 0;
    for _ in 0..100 {
        let row = row(&mut random);
        whole += u64::from(play(&mut random, &row, 1_000, 0, &mut ways) == 1_000);
    }
    assert!(whole >= 80, "{whole} lists of a thousand steps broke nothing");
}
