//! Two recordings joined (section 13).

use crate::monitor::Monitor;
use crate::questions::{Refusal, ask};
use crate::recording::{read_recording, record_bytes};
use crate::steps::Step;
use std::collections::HashSet;

/// One of the two recordings.
#[derive(Clone, Copy, Debug, PartialEq, Eq, Hash)]
pub enum Input {
    First,
    Second,
}

/// A join that is refused: at one of the recordings, or at the buffer.
#[derive(Clone, Copy, Debug, PartialEq, Eq)]
pub struct JoinRefusal {
    pub input: Option<Input>,
    pub refusal: Refusal,
}

/// The joined recording for a buffer of this size, with the questions in their order (§13.5).
pub fn join(first: &[u8], second: &[u8], room: usize) -> Result<Vec<u8>, JoinRefusal> {
    let at = |input| move |refusal| JoinRefusal { input: Some(input), refusal };
    let one = records(first).map_err(at(Input::First))?;
    let two = records(second).map_err(at(Input::Second))?;
    apart(&one, &two).map_err(at(Input::Second))?;
    let mut bytes = vec![first[0].max(second[0])];
    bytes.extend(joined_steps(&one, &two).iter().flat_map(record_bytes));
    let refused = |number| JoinRefusal { input: None, refusal: Refusal { number, place: 0 } };
    ask(16, bytes.len() <= room).map_err(refused)?;
    Ok(bytes)
}

/// The steps of a recording, without 12: over no rows nothing can wait.
fn records(bytes: &[u8]) -> Result<Vec<Step>, Refusal> {
    let taken = read_recording(Monitor::fresh(&[]).expect("a table of no rows"), bytes)?;
    Ok(taken.steps().to_vec())
}

/// Question 20, with the place of the second recording's first record of a kind that the first has (§13.6).
fn apart(first: &[Step], second: &[Step]) -> Result<(), Refusal> {
    let kinds: HashSet<u8> = first.iter().filter_map(|step| step.kind()).collect();
    let mut place = 1;
    for step in second {
        ask(20, step.kind().is_none_or(|kind| !kinds.contains(&kind))).map_err(|number| Refusal { number, place })?;
        place += record_bytes(step).len();
    }
    Ok(())
}

/// By time, input and place in the input (§13.1); then from the front, with the clock at 0, a tick that is not later than
/// the clock is dropped (§13.2).
pub fn joined_steps(first: &[Step], second: &[Step]) -> Vec<Step> {
    let mut all: Vec<((u64, usize, usize), Step)> = Vec::new();
    for (input, steps) in [first, second].into_iter().enumerate() {
        all.extend(steps.iter().enumerate().map(|(place, &step)| ((time(step), input, place), step)));
    }
    all.sort_by_key(|&(key, _)| key);
    let mut clock = 0;
    all.retain(|&((time, ..), step)| {
        let stays = !matches!(step, Step::Tick { .. }) || clock < time;
        clock = if stays { time } else { clock };
        stays
    });
    all.into_iter().map(|(_, step)| step).collect()
}

fn time(step: Step) -> u64 {
    match step {
        Step::Event { time, .. } | Step::Coloured { time, .. } | Step::Tick { time } => time,
        Step::Close => panic!("no record is a close"),
    }
}
