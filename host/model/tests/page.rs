//! The printed page: its lines, worked out by hand.

mod common;

use common::{delay, fresh, order, steps};
use model::types::StrongSynchronization;
use model::{Constraint, Monitor, Verdict, page_of, page_text};

const HEADING: &str = "------------------------------------------------------------------------\n";

/// A line without the blanks at its end.
fn line(text: &str) -> String {
    format!("{text:<72}\n")
}

/// The page of a monitor that has taken these steps.
fn after(rows: &[Constraint], list: &str) -> String {
    let mut monitor: Monitor = fresh(rows);
    steps(list).into_iter().for_each(|step| monitor.step(step).expect("a step that is taken"));
    page_text(&monitor)
}

#[test]
fn lines_by_hand() {
    let rows = [delay(2, 3), order()];
    let open =
        HEADING.to_string() + &line("  0  Delay                   open") + &line("  1  Order                   open");
    assert_eq!(after(&rows, "0@10"), open);
    let broken = line("  0  Delay                   broken                     2");
    assert_eq!(
        after(&rows, "0@10, tick 14"),
        HEADING.to_string() + &broken + &line("  1  Order                   open")
    );
    let closed = line("  1  Order                   broken                     3");
    assert_eq!(after(&rows, "0@10, tick 14, close"), HEADING.to_string() + &broken + &closed);
    assert_eq!(
        after(&rows[..1], "0@10, 1@12, close"),
        HEADING.to_string() + &line("  0  Delay                   kept")
    );
}

#[test]
fn a_heading_for_each_16_rows() {
    let page = |rows: usize| page_of(&vec![order(); rows], &vec![Verdict::Open; rows]);
    let sizes = [(0, 73), (1, 146), (16, 1_241), (17, 1_387), (32, 2_482)];
    assert!(sizes.into_iter().all(|(rows, size)| page(rows).len() == size));
    assert_eq!(page(0), HEADING);
    assert_eq!(&page(17)[1_241..], HEADING.to_string() + &line(" 16  Order                   open"));
}

#[test]
fn the_longest_step_and_the_longest_name() {
    let rows = [Constraint::StrongSynchronization(StrongSynchronization { kinds: vec![0, 1], tolerance: 2 })];
    let broken = line("  0  StrongSynchronization   broken  18446744073709551615");
    assert_eq!(page_of(&rows, &[Verdict::Broken(u64::MAX)]), HEADING.to_string() + &broken);
}
