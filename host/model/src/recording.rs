//! The recording's bytes (§7.1, §7.2) and the recording's questions (§9.4).

use crate::limits::{FIRST_COLOURED, LAST_COLOUR, LAST_KIND, LAST_TIME};
use crate::monitor::Monitor;
use crate::questions::{Refusal, ask};
use crate::steps::Step;
use crate::table::{body_at_start, time_at, with_length};

/// Gives every record of the recording to a fresh monitor (§7.3).
pub fn read_recording(mut monitor: Monitor, bytes: &[u8]) -> Result<Monitor, Refusal> {
    monitor.take(bytes)?;
    Ok(monitor)
}

impl Monitor {
    /// Takes the records of the recording up to the first that is refused: question 13 first, then record by record (§7.24, §9.4).
    pub fn take(&mut self, bytes: &[u8]) -> Result<(), Refusal> {
        let version = bytes.first().copied().unwrap_or(0);
        ask(13, version == 1 || version == 2).map_err(|number| Refusal { number, place: 0 })?;
        let mut place = 1;
        while place < bytes.len() {
            let refused = |number| Refusal { number, place };
            let (step, size) = read_record(version, &bytes[place..]).map_err(refused)?;
            // after 14 the questions of its step
            self.step(step).map_err(refused)?;
            place += size;
        }
        Ok(())
    }
}

/// What is no colour: a recording of version 1 has none (§7.1).
const NO_COLOUR: u8 = 255;

/// Reads the record at the start of the bytes; gives its step and the number of bytes it takes (§7.2), or 14 (§8.14).
pub fn read_record(version: u8, bytes: &[u8]) -> Result<(Step, usize), u8> {
    match body_at_start(bytes) {
        Some(body) if body.len() == 10 => {
            let colour = if version == 1 { NO_COLOUR } else { body[1] };
            Ok((Step::Coloured { kind: body[0], colour, time: time_at(body, 2) }, 12))
        }
        Some(body) if body.len() == 9 => Ok((Step::Event { kind: body[0], time: time_at(body, 1) }, 11)),
        Some(body) if body.len() == 8 => Ok((Step::Tick { time: time_at(body, 0) }, 10)),
        _ => Err(14),
    }
}

/// The recording (§7.1) of any events and ticks, no question put: of version 2 where an event has a colour, else of
/// version 1. A close has no record.
pub fn recording_bytes(steps: &[Step]) -> Vec<u8> {
    let coloured = steps.iter().any(|step| matches!(step, Step::Coloured { .. }));
    std::iter::once(if coloured { 2 } else { 1 }).chain(steps.iter().flat_map(record_bytes)).collect()
}

/// Writes the record of an event or a tick behind the first `size` bytes of a buffer, and answers how many bytes the recording then
/// has (§7.26).
pub fn put_record(buffer: &mut [u8], size: usize, step: Step) -> Result<usize, u8> {
    let version = if size == 0 { 2 } else { buffer.first().copied().unwrap_or(0) };
    ask(13, version == 1 || version == 2)?;
    if let Step::Event { kind, .. } | Step::Coloured { kind, .. } = step {
        ask(9, kind <= LAST_KIND)?;
    }
    match step {
        Step::Event { kind, .. } => ask(19, kind < FIRST_COLOURED)?,
        Step::Coloured { kind, colour, .. } => {
            ask(19, FIRST_COLOURED <= kind && colour <= LAST_COLOUR && version != 1)?;
        }
        _ => (),
    }
    ask(10, crate::beside::time_of(step).is_none_or(|time| time <= LAST_TIME))?;
    let (place, record) = (size.max(1), record_bytes(&step));
    let end = place.checked_add(record.len()).filter(|end| *end <= buffer.len()).ok_or(16)?;
    if size == 0 {
        buffer[0] = 2;
    }
    buffer[place..end].copy_from_slice(&record);
    Ok(end)
}

/// The bytes of one record (§7.2). A close has none.
pub fn record_bytes(step: &Step) -> Vec<u8> {
    match step {
        Step::Event { kind, time } => with_length(&[&[*kind], &time.to_be_bytes()[..]].concat()),
        Step::Coloured { kind, colour, time } => with_length(&[&[*kind, *colour], &time.to_be_bytes()[..]].concat()),
        Step::Tick { time } => with_length(&time.to_be_bytes()),
        Step::Close => Vec::new(),
    }
}
