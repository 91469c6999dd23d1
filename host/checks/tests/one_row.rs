//! Long lists of calls with withdrawals over one row of types 12 to 17, beside the model: it stays open for long, and breaks in every way
//! there is. The model is beside a brute force in `host/model/tests/one_row.rs`, over lists of the same sort.
//! Clauses: §3.13, §5.12 to §5.17, §6.4, §15.5 to §15.9.

use checks::beside::{fresh, take, verdict};
use model::random::Random;
use model::random::one_row::{SeenWays, next_step, row};
use model::{Constraint, Monitor, NO_LIMIT, Step, Verdict};

/// Takes a step on both monitors, and compares all that they say of the row; at times it is withdrawn, and taken again.
fn both(random: &mut Random, monitor: &mut delkuthi::Monitor, model: &mut Monitor, step: Step) {
    for turn in 0..=u8::from(random.chance(15)) {
        if turn > 0 {
            assert_eq!((monitor.withdraw().map_err(|refusal| refusal.number()), model.withdraw()), (Ok(()), Ok(())));
            alike(random, monitor, model, step);
        }
        assert_eq!((take(monitor, step), model.step(step)), (Ok(()), Ok(())), "{step} over {:?}", model.rows());
        alike(random, monitor, model, step);
    }
}

/// Verdict, clock and count of both, and at times the deadlines.
fn alike(random: &mut Random, monitor: &delkuthi::Monitor, model: &Monitor, step: Step) {
    let told = || format!("{step} over {:?} after {:?}", model.rows(), model.steps());
    assert_eq!(verdict(monitor, 0), model.verdict(0), "{}", told());
    assert_eq!((monitor.clock(), monitor.steps()), (model.clock(), model.count()), "{}", told());
    assert_eq!(monitor.row_waiting(0), 0, "{}", told());
    if random.chance(20) {
        let deadline = if model.closed() { NO_LIMIT } else { model.row_deadline(0) };
        assert_eq!(monitor.row_deadline(0).unwrap_or(NO_LIMIT), deadline, "{}", told());
        assert_eq!(monitor.deadline().unwrap_or(NO_LIMIT), deadline, "{}", told());
    }
}

/// Plays a list: the row is to be broken once it has had this many steps.
fn play(random: &mut Random, row: &Constraint, length: u64, ways: &mut SeenWays) -> Verdict {
    let rows = std::slice::from_ref(row);
    let (mut monitor, mut model) = (fresh(rows), Monitor::fresh(rows).expect("an accepted row"));
    let breaks = random.chance(85);
    while !model.closed() && model.count() < length + 12 {
        let before = model.recorded().clone();
        let step = next_step(random, row, &before, breaks && before.count() >= length);
        both(random, &mut monitor, &mut model, step);
        if matches!(model.verdict(0), Ok(Verdict::Broken(_))) {
            ways.way(row, &before, step);
            break;
        }
    }
    if !model.closed() {
        both(random, &mut monitor, &mut model, Step::Close);
    }
    model.verdict(0).expect("a row")
}

/// Lists over rows of a type.
fn compare(type_byte: u8) {
    let mut random = Random::new(1300 + u64::from(type_byte));
    let (mut ways, mut long) = (SeenWays::default(), 0);
    for _ in 0..10_000 {
        let row = row(&mut random, type_byte);
        let length = *random.pick(&[1, 2, 4, 8, 16, 40]);
        let end = play(&mut random, &row, length, &mut ways);
        long += u64::from(!matches!(end, Verdict::Broken(0..=39)));
    }
    ways.demand_all(type_byte);
    assert!(long > 500, "type {type_byte}: {long} lists kept the row open for forty steps");
}

#[test]
fn age() {
    compare(12);
}

#[test]
fn output_synchronization() {
    compare(13);
}

#[test]
fn input_synchronization() {
    compare(14);
}

#[test]
fn pattern() {
    compare(15);
}

#[test]
fn arbitrary() {
    compare(16);
}

#[test]
fn comparison() {
    compare(17);
}
