//! A notation for tests: "0@10, tick 13, close".

use crate::steps::Step;

/// The steps of a list in this notation.
///
/// # Panics
/// Where a part is no step.
pub fn steps(text: &str) -> Vec<Step> {
    let parts = text.split(", ").filter(|part| !part.is_empty());
    parts.map(|part| part.parse().unwrap_or_else(|error| panic!("{error}"))).collect()
}
