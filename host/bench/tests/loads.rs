//! The loads of the benchmark: what they claim to be, and the verdicts of both monitors on them.

use bench::line::{all_lines, lines, second_edition, sizes, types};
use bench::load::{
    Call, Load, dense, dense_full, dense_synchronizations, sparse, sparse_full, sparse_synchronizations,
};
use bench::measure::{Spread, agree};
use bench::plain::report::report;
use bench::plain::{LAST_EDITION, LAST_TYPE, Plain};
use model::random::Random;
use model::random::recordings::{damaged_recording, recording};
use model::random::tables::{any_table_in, damaged_table};
use model::{Constraint, Step, Verdict, report_text_up_to, table_bytes};
use std::collections::BTreeSet;

fn loads(events: usize) -> [Load; 2] {
    [sparse(events), dense(events)]
}

/// Rows of a type of the second edition alone.
fn alone(events: usize) -> [Load; 2] {
    [sparse_synchronizations(events), dense_synchronizations(events)]
}

#[test]
fn thirty_two_rows_of_all_types_of_the_first_edition() {
    for load in [sparse, dense, sparse_full, dense_full].map(|load| load(10)) {
        let types: BTreeSet<u8> = load.rows.iter().map(Constraint::type_byte).collect();
        assert_eq!((load.rows.len(), types), (32, BTreeSet::from_iter(1..=10)));
    }
}

#[test]
fn thirty_two_rows_of_the_type_of_the_second_edition() {
    for load in alone(10) {
        let numbers: BTreeSet<usize> = load.rows.iter().map(|row| row.kinds().len()).collect();
        assert!(load.rows.len() == 32 && load.rows.iter().all(|row| row.type_byte() == 11), "{}", load.name);
        assert_eq!((numbers, load.table()[0]), (BTreeSet::from([2, 3, 4]), LAST_EDITION));
    }
}

#[test]
fn thirty_two_rows_of_each_type_of_the_first_edition_which_every_event_concerns() {
    for number in 1..=10 {
        let load = bench::load::alone(number, 1_000);
        assert!(load.rows.len() == 32 && load.rows.iter().all(|row| row.type_byte() == number), "{}", load.name);
        assert_eq!(load.concerned(), 32.0, "{}", load.name);
    }
}

#[test]
fn an_event_concerns_one_row_or_two_or_most_of_them() {
    for two in [loads(10_000), alone(10_000)] {
        let [sparse, dense] = two.map(|load| load.concerned());
        assert!((1.0..2.0).contains(&sparse) && dense > 23.0, "{sparse}, {dense}");
    }
}

#[test]
fn every_row_hears_events() {
    for load in loads(5_000).into_iter().chain(alone(5_000)) {
        let heard: BTreeSet<u8> = load.steps.iter().filter_map(|step| step.kind()).collect();
        assert!(load.rows.iter().all(|row| row.kinds().iter().all(|kind| heard.contains(kind))), "{}", load.name);
    }
}

#[test]
fn both_monitors_agree_and_rows_stay_open() {
    all_lines().iter().for_each(|line| agree(&line.load(10_000)));
}

#[test]
fn every_line_has_its_own_name_and_as_many_calls_as_asked() {
    let later = usize::from(LAST_TYPE) - 11;
    assert_eq!((lines().len(), sizes().len(), types().len(), second_edition().len()), (14, 10, 10, 6 + later));
    let names: BTreeSet<String> = all_lines().iter().map(|line| line.what()).collect();
    assert_eq!(names.len(), 40 + later, "{names:?}");
    all_lines().iter().for_each(|line| assert_eq!(line.load(10_000).number(), 10_000, "{}", line.what()));
}

#[test]
fn a_tenth_is_withdrawn() {
    for load in loads(9_000).map(Load::withdrawing) {
        let withdrawn = load.calls.iter().filter(|call| matches!(call, Call::Withdraw)).count();
        assert_eq!((load.number(), withdrawn), (10_000, 1_000));
        assert_eq!(load.number() - withdrawn, load.steps.len());
    }
}

#[test]
fn nine_in_ten_are_ticks() {
    for load in loads(10_000).map(|load| load.ticking(10_000)) {
        let ticks = load.calls.iter().filter(|call| matches!(call, Call::Step(Step::Tick { .. }))).count();
        assert!(ticks > 9_000, "{}: {ticks}", load.name);
    }
}

/// The numbers that the calls of a load are refused with.
fn refusals(load: &Load) -> BTreeSet<u8> {
    let mut plain = Plain::new(&load.rows);
    let mut answer = |call: &Call| match call {
        Call::Step(step) => plain.step(*step),
        Call::Withdraw => plain.withdraw(),
    };
    load.ahead.iter().for_each(|call| assert_eq!(answer(call), Ok(()), "{}: {call:?}", load.name));
    load.calls.iter().map(|call| answer(call).expect_err(&load.name)).collect()
}

#[test]
fn refusals_of_each_number() {
    for load in loads(4_000).map(|load| load.refusing(1_000)) {
        assert_eq!(refusals(&load), BTreeSet::from([9, 10, 11, 19, 21]), "{}", load.name);
    }
    for load in [sparse_full, dense_full].map(|load| load(4_000).crowding(1_000)) {
        assert_eq!(refusals(&load), BTreeSet::from([12]), "{}", load.name);
    }
}

#[test]
fn sixty_four_wait_in_every_row_in_which_they_can() {
    for load in [sparse_full, dense_full].map(|load| load(1_000)) {
        let mut monitor = model::Monitor::fresh(&load.rows).expect("an accepted table");
        let ahead = &load.steps[..load.ahead.len()];
        ahead.iter().for_each(|step| assert_eq!(monitor.step(*step), Ok(()), "{step}"));
        let full = |row: &usize| matches!(load.rows[*row].type_byte(), 1 | 2 | 7);
        let waiting: Vec<usize> = (0..32).filter(full).filter_map(|row| monitor.waiting(row).ok()).collect();
        assert_eq!(waiting, vec![64; 15], "{}", load.name);
    }
}

#[test]
fn the_middle_of_runs() {
    let spread = Spread::of(vec![1.5, 0.9, 1.2]);
    assert_eq!((spread.least, spread.middle, spread.greatest), (0.9, 1.2, 1.5));
}

#[test]
fn the_model_agrees_too() {
    for load in loads(1_500).into_iter().chain(alone(1_500)) {
        let mut monitor = model::Monitor::fresh(&load.rows).expect("an accepted table");
        load.steps.iter().for_each(|step| assert_eq!(monitor.step(*step), Ok(()), "{step}"));
        assert_eq!(monitor.verdicts(), vec![Verdict::Open; 32]);
    }
}

#[test]
fn many_wait() {
    for load in loads(8_000) {
        let mut monitor = model::Monitor::fresh(&load.rows).expect("an accepted table");
        let last = load.steps.len().min(4_000);
        load.steps[..last].iter().for_each(|step| assert_eq!(monitor.step(*step), Ok(()), "{step}"));
        let most = (0..32).filter_map(|row| monitor.waiting(row).ok()).max();
        assert!(most >= Some(40), "{}: {most:?} wait at most", load.name);
    }
}

#[test]
fn the_reports_agree() {
    for load in loads(6_000).into_iter().chain(alone(6_000)) {
        let (table, recording) = (load.table(), load.recording());
        let mut buffers = [[0; delkuthi::REPORT_LIMIT]; 2];
        let written = report(&table, &recording, &mut buffers[0]);
        assert_eq!(written, delkuthi::report(&table, &recording, &mut buffers[1]));
        assert!(buffers[0] == buffers[1] && buffers[0].starts_with(b"closed 6001\n"));
    }
}

#[test]
fn plain_reports_beside_the_model() {
    let mut random = Random::new(602);
    let check = |table: &[u8], recording: &[u8]| {
        let mut buffer = [0; 1024];
        let written = report(table, recording, &mut buffer).expect("a buffer that is long enough");
        assert_eq!(buffer[..written], *report_text_up_to(LAST_EDITION, table, recording).as_bytes());
    };
    for _ in 0..500 {
        let rows = any_table_in(LAST_EDITION, &mut random);
        check(&table_bytes(&rows), &recording(&mut random, &rows, 40));
        check(&table_bytes(&rows), &damaged_recording(&mut random, &rows, 20));
        check(&damaged_table(&mut random), &[1]);
    }
}
