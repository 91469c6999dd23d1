//! What the tests share: the contract's notation, and monitors in it.
#![allow(dead_code, unused_imports)]

pub use model::notation::steps;
pub use model::types::{
    burst, delay, execution_time, order, reaction, repeat, repetition, sporadic, strong_delay, strong_synchronization,
};
use model::{Constraint, History, Monitor};

/// What these steps have recorded.
pub fn recorded(text: &str) -> History {
    History::of(&steps(text))
}

/// A monitor over a table of which every question is answered "yes".
pub fn fresh(rows: &[Constraint]) -> Monitor {
    Monitor::fresh(rows).expect("an accepted table")
}

/// Takes the steps of a list, all of which must be accepted.
pub fn take(monitor: &mut Monitor, text: &str) {
    for step in steps(text) {
        assert_eq!(monitor.step(step), Ok(()), "{step} of {text}");
    }
}

/// The verdicts of all rows, in words.
pub fn verdicts(monitor: &Monitor) -> String {
    let words: Vec<String> = monitor.verdicts().iter().map(ToString::to_string).collect();
    words.join(", ")
}
