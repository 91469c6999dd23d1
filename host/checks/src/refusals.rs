//! What the tests of calls on a table and a recording share: their refusals, and files that may be refused.

use model::random::{Random, damage};
use model::{Constraint, Step, recording_bytes, table_bytes};
use std::collections::HashSet;

/// The library's refusal as the model has it.
///
/// # Panics
/// If it has no place.
pub fn refusal(refusal: delkuthi::Refusal) -> model::Refusal {
    let place = usize::try_from(refusal.place().expect("a place")).expect("a place in memory");
    model::Refusal { number: refusal.number(), place }
}

/// The bytes of a table and of a recording, each of them damaged now and then.
pub fn files(random: &mut Random, rows: &[Constraint], steps: &[Step]) -> (Vec<u8>, Vec<u8>) {
    let (mut table, mut recording) = (table_bytes(rows), recording_bytes(steps));
    if random.chance(30) {
        damage(random, &mut table);
    }
    if random.chance(20) {
        damage(random, &mut recording);
    }
    (table, recording)
}

/// Fails the test if one of the numbers was never seen, or if 8 or 12 was, which no call on files answers.
///
/// # Panics
/// With the number.
pub fn demand(seen: &HashSet<u8>, numbers: &[u8]) {
    for number in numbers {
        assert!(seen.contains(number), "{number} was not seen");
    }
    assert!(!seen.contains(&12) && !seen.contains(&8));
}
