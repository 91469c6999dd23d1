//! Examples 1 to 12 of the contract (§10.1 to §10.12) and its file (§7.11), for every monitor to be held to.

use crate::monitor::Verdict;
use crate::steps::Step;
use crate::types::Constraint;
use crate::types::{delay, order, repeat, sporadic, strong_delay, strong_synchronization};

/// The table of the file: Delay 0→1, 2 to 3.
pub const TABLE: [u8; 22] = [1, 0, 0x13, 1, 0, 1, 0, 0, 0, 0, 0, 0, 0, 2, 0, 0, 0, 0, 0, 0, 0, 3];
/// Its recording: 0@10, tick 14.
pub const RECORDING: [u8; 22] = [1, 0, 9, 0, 0, 0, 0, 0, 0, 0, 0, 0x0A, 0, 8, 0, 0, 0, 0, 0, 0, 0, 0x0E];
/// What is printed for them.
pub const REPORT: &str = "closed 3\n0 broken 2\n";

/// One list of an example: the row, and each step with the verdict after it.
#[derive(Clone, Debug)]
pub struct Example {
    /// Its number.
    pub number: u8,
    pub row: Constraint,
    pub steps: Vec<(Step, Verdict)>,
}

impl Example {
    /// The last step's verdict, with the step of the break if it is one.
    pub fn end(&self) -> Verdict {
        self.steps.last().map_or(Verdict::Open, |(_, verdict)| *verdict)
    }
}

/// The list of an example: all steps leave the row open, but the last, after which it reads `end`.
fn example(number: u8, row: Constraint, text: &str, end: Verdict) -> Example {
    let steps = crate::notation::steps(text);
    let before = steps.len() - 1;
    let verdict = |place| if place < before { Verdict::Open } else { end };
    let steps = steps.into_iter().enumerate().map(|(place, step)| (step, verdict(place))).collect();
    Example { number, row, steps }
}

/// The lists of examples 1 to 12.
pub fn examples() -> Vec<Example> {
    use Verdict::{Broken, Kept, Open};
    vec![
        example(1, delay(2, 3), "0@10, 1@12, close", Kept),
        example(2, delay(2, 3), "0@10, tick 13, tick 14", Broken(3)),
        example(3, delay(2, 3), "0@10, close", Broken(2)),
        example(4, delay(0, 3), "1@10, 0@10, close", Kept),
        example(5, strong_delay(0, 3), "1@10, tick 11", Broken(2)),
        example(6, strong_delay(1, 3), "1@10", Broken(1)),
        example(7, repeat(2, 4, 5), "0@1, 0@3, 0@6, 0@7, 0@9", Broken(5)),
        example(8, repeat(1, 4, 4), "0@0, tick 100", Broken(2)),
        example(9, sporadic(5, 5, 2, 0), "0@2, 0@9, 0@14", Open),
        example(9, sporadic(5, 5, 2, 0), "0@2, 0@9, 0@16", Broken(3)),
        example(10, sporadic(10, 10, 5, 0), "0@2, 0@10", Open),
        example(10, sporadic(10, 10, 5, 0), "0@2, 0@9", Broken(2)),
        example(11, order(), "1@5, 0@5, close", Kept),
        example(11, order(), "1@5, tick 6", Broken(2)),
        example(12, strong_synchronization(2, 2), "0@5, 0@6, 1@7, 1@8, close", Kept),
        example(12, strong_synchronization(2, 2), "0@5, 0@6, tick 8", Broken(3)),
    ]
}
