//! Random recordings: such as a monitor takes, such as it refuses on the way, and damaged bytes.

use super::Random;
use super::calls::Play;
use crate::questions::Answer;
use crate::recording::recording_bytes;
use crate::steps::Step;
use crate::types::Constraint;

/// The bytes of a recording over an accepted table, with at most this many records. Mostly all of it is accepted; at
/// times the refused calls of a list stand in it too.
pub fn recording(random: &mut Random, rows: &[Constraint], records: usize) -> Vec<u8> {
    let with_refused = random.chance(15);
    let mut play = Play::new(random.fork(), rows, records);
    let taken = std::iter::from_fn(|| play.call()).filter(|(_, answer)| answer.is_ok() || with_refused);
    let steps: Vec<Step> = taken.map(|(call, _)| call).collect();
    let mut bytes = recording_bytes(&steps);
    if random.chance(10) {
        // version 2 without colours is taken, version 1 with colours is refused
        bytes[0] = 3 - bytes[0];
    }
    bytes
}

/// The bytes of a recording of which every record is accepted but the last, if the list has a call that is refused:
/// the first by question 12, or else the last of all.
pub fn refused_recording(random: &mut Random, rows: &[Constraint], records: usize) -> Vec<u8> {
    let mut play = Play::new(random.fork(), rows, records);
    let calls: Vec<(Step, Answer)> =
        std::iter::from_fn(|| play.call()).filter(|(call, _)| *call != Step::Close).collect();
    let crowded = calls.iter().position(|(_, answer)| *answer == Err(12));
    let refused =
        crowded.or_else(|| calls.iter().rposition(|(_, answer)| matches!(answer, Err(9..)))).unwrap_or(calls.len());
    let accepted = calls[..refused].iter().filter(|(_, answer)| answer.is_ok());
    let steps: Vec<Step> = accepted.chain(calls.get(refused)).map(|(call, _)| *call).collect();
    recording_bytes(&steps)
}

/// Bytes that a recording reader mostly has to refuse.
pub fn damaged_recording(random: &mut Random, rows: &[Constraint], records: usize) -> Vec<u8> {
    let mut bytes = recording(random, rows, records);
    super::damage(random, &mut bytes);
    bytes
}
