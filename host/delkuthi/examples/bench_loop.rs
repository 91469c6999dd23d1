//! A bench loop over a recorded drive: `cargo run --example bench_loop TABLE RECORDING [LAG [LATE]]`.
//!
//! It gives the monitor each record as it arrives, and a tick if the clock of the drive passes a deadline by `LAG` before
//! the next record arrives. `LAG` is the longest time from a stamp to its arrival: a tick says that every earlier event
//! has been given. A record arrives `LATE` after its stamp. Both are 0 if they are not given. The loop prints each row
//! when the row breaks.

use delkuthi::{Monitor, NO_LIMIT, ROW_LIMIT, Refusal};
use std::process::exit;
use std::{env, fs};

/// A record: an event, one with a colour, or a tick, and its time.
struct Record {
    kind: Option<u8>,
    colour: Option<u8>,
    time: u64,
}

/// The record at the start of the bytes and its size, if it is whole. Version 1 has no colours; 255 is not a colour.
fn record(version: u8, bytes: &[u8]) -> Option<(Record, usize)> {
    let size = usize::from(*bytes.get(1)?);
    let body = bytes.get(2..2 + size).filter(|_| bytes[0] == 0 && (8..=10).contains(&size))?;
    let time = body[size - 8..].iter().fold(0, |time, byte| time << 8 | u64::from(*byte));
    let colour = if version == 1 { 255 } else { body[1] };
    let record = Record { kind: (size > 8).then_some(body[0]), colour: (size > 9).then_some(colour), time };
    Some((record, 2 + size))
}

fn take(monitor: &mut Monitor, record: &Record) -> Result<(), Refusal> {
    match (record.kind, record.colour) {
        (None, _) => monitor.tick(record.time),
        (Some(kind), None) => monitor.event(kind, record.time),
        (Some(kind), Some(colour)) => monitor.coloured_event(kind, colour, record.time),
    }
}

/// Prints each row that has broken since; returns all that are broken now.
fn say(monitor: &Monitor, before: u32) -> u32 {
    let now = monitor.broken_rows();
    for row in (0..ROW_LIMIT).filter(|row| (now & !before) >> row & 1 == 1) {
        println!("{}: row {row} broken", monitor.clock());
    }
    now
}

/// Times in the drive.
struct Delays {
    lag: u64,
    late: u64,
}

impl Delays {
    /// Does the bench's clock pass a time by the lag before a record arrives?
    fn pass(&self, until: u64, stamp: u64) -> bool {
        let wake = until.saturating_add(self.lag);
        wake != NO_LIMIT && stamp.saturating_add(self.late) > wake
    }
}

/// The rows that are broken in the end, or the refusal of a step.
fn bench(monitor: &mut Monitor, recording: &[u8], delays: &Delays) -> Result<u32, Refusal> {
    let (mut place, mut broken) = (1, 0);
    while place < recording.len() {
        let (next, size) = record(recording[0], &recording[place..]).unwrap_or_else(|| exit(4));
        let answer = match monitor.deadline() {
            Some(deadline) if delays.pass(deadline + 1, next.time) => monitor.tick(deadline + 1),
            _ => {
                place += size;
                take(monitor, &next)
            }
        };
        broken = say(monitor, broken);
        answer?;
    }
    monitor.close()?;
    Ok(say(monitor, broken))
}

/// The two files and the delays that the arguments name.
fn arguments() -> Option<(Vec<u8>, Vec<u8>, Delays)> {
    let words: Vec<String> = env::args().skip(1).collect();
    let number = |place: usize| words.get(place).map_or(Some(0), |word| word.parse().ok());
    let (table, recording) = (words.first()?, words.get(1).filter(|_| words.len() <= 4)?);
    Some((fs::read(table).ok()?, fs::read(recording).ok()?, Delays { lag: number(2)?, late: number(3)? }))
}

fn main() {
    let Some((table, recording, delays)) = arguments() else {
        eprintln!("usage: bench_loop TABLE RECORDING [LAG [LATE]]");
        exit(4)
    };
    if !matches!(recording.first(), Some(1 | 2)) {
        eprintln!("not a recording of version 1 or 2");
        exit(4)
    }
    let mut monitor = Monitor::fresh(&table).unwrap_or_else(|refusal| {
        println!("table refused with {} at byte {}", refusal.number(), refusal.place().unwrap_or(0));
        exit(2)
    });
    match bench(&mut monitor, &recording, &delays) {
        Ok(0) => println!("every row kept"),
        Ok(_) => exit(1),
        Err(refusal) => {
            println!("step refused with {}", refusal.number());
            exit(2)
        }
    }
}
