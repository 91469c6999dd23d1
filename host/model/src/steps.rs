//! Steps, and what a list of accepted steps has recorded (§1.3 to §1.7).

use crate::limits::{FIRST_COLOURED, STREAMS, stream};
use std::fmt;
use std::str::FromStr;

/// A step, or a call that asks for one: any kind and time can stand in it, the questions say which is accepted.
///
/// It is written and read as in the contract: "0@10", "48/1@10", "tick 13", "close".
#[derive(Clone, Copy, Debug, PartialEq, Eq)]
pub enum Step {
    /// An event (§1.3).
    Event { kind: u8, time: u64 },
    /// An event of a coloured kind, with its colour (§1.3).
    Coloured { kind: u8, colour: u8, time: u64 },
    /// A tick (§1.4).
    Tick { time: u64 },
    /// The close (§1.5).
    Close,
}

impl fmt::Display for Step {
    fn fmt(&self, f: &mut fmt::Formatter) -> fmt::Result {
        match self {
            Step::Event { kind, time } => write!(f, "{kind}@{time}"),
            Step::Coloured { kind, colour, time } => write!(f, "{kind}/{colour}@{time}"),
            Step::Tick { time } => write!(f, "tick {time}"),
            Step::Close => write!(f, "close"),
        }
    }
}

impl FromStr for Step {
    type Err = String;

    fn from_str(text: &str) -> Result<Step, String> {
        let number = |digits: &str| digits.parse::<u64>().map_err(|_| format!("no number in {text:?}"));
        if text == "close" {
            Ok(Step::Close)
        } else if let Some(time) = text.strip_prefix("tick ") {
            Ok(Step::Tick { time: number(time)? })
        } else {
            let (kind, time) = text.split_once('@').ok_or_else(|| format!("no step: {text:?}"))?;
            let byte = |digits: &str| digits.parse().map_err(|_| format!("no kind in {text:?}"));
            match kind.split_once('/') {
                None => Ok(Step::Event { kind: byte(kind)?, time: number(time)? }),
                Some((kind, colour)) => {
                    Ok(Step::Coloured { kind: byte(kind)?, colour: byte(colour)?, time: number(time)? })
                }
            }
        }
    }
}

impl Step {
    /// The event of a stream (§1.9) at a time.
    pub fn of_stream(stream: u8, time: u64) -> Step {
        if stream < FIRST_COLOURED {
            return Step::Event { kind: stream, time };
        }
        let beyond = stream - FIRST_COLOURED;
        Step::Coloured { kind: FIRST_COLOURED + beyond / 8, colour: beyond % 8, time }
    }

    /// The kind of the event, if it is one.
    pub fn kind(self) -> Option<u8> {
        match self {
            Step::Event { kind, .. } | Step::Coloured { kind, .. } => Some(kind),
            Step::Tick { .. } | Step::Close => None,
        }
    }
}

/// All events together, by stream, and the clock that they close at: what a row's definition speaks of.
pub trait Events {
    /// The times of the events of one stream. They rise strictly.
    fn times(&self, stream: u8) -> &[u64];
    /// The clock after all of them.
    fn clock(&self) -> u64;
}

/// What a list of accepted steps has recorded: the events, the clock, the count, and whether it was closed.
#[derive(Clone, Debug, PartialEq, Eq)]
pub struct History {
    times: Vec<Vec<u64>>,
    clock: u64,
    count: u64,
    closed: bool,
}

impl Default for History {
    /// What a fresh monitor has recorded (§1.6).
    fn default() -> History {
        History { times: vec![Vec::new(); usize::from(STREAMS)], clock: 0, count: 0, closed: false }
    }
}

impl History {
    /// Nothing recorded, with a step count to start from: no test can take as many steps as the count allows.
    pub fn counting_from(count: u64) -> History {
        History { count, ..History::default() }
    }

    /// What the steps have recorded, from nothing on.
    pub fn of(steps: &[Step]) -> History {
        let mut history = History::default();
        steps.iter().for_each(|step| history.record(*step));
        history
    }

    /// Adds an accepted step: one more is counted, an event is put to its stream's, and the clock goes to the step's time. Only
    /// a step that is not accepted, and of which it is asked what it would do, can come after the last count.
    pub fn record(&mut self, step: Step) {
        self.count = self.count.saturating_add(1);
        match step {
            Step::Event { kind, time } => self.record_event(kind, time),
            Step::Coloured { kind, colour, time } => self.record_event(stream(kind, colour), time),
            Step::Tick { time } => self.clock = time,
            Step::Close => self.closed = true,
        }
    }

    fn record_event(&mut self, stream: u8, time: u64) {
        self.times[usize::from(stream)].push(time);
        self.clock = time;
    }

    /// What is recorded once this step is accepted too.
    pub fn after(&self, step: Step) -> History {
        let mut after = self.clone();
        after.record(step);
        after
    }

    pub fn clock(&self) -> u64 {
        self.clock
    }

    /// How many steps were accepted, with the close (§1.7).
    pub fn count(&self) -> u64 {
        self.count
    }

    pub fn closed(&self) -> bool {
        self.closed
    }

    /// Is an event of this stream and time in order (§1.3)?
    pub fn event_in_order(&self, stream: u8, time: u64) -> bool {
        time >= self.clock && self.times(stream).iter().all(|&earlier| time > earlier)
    }
}

impl Events for History {
    fn times(&self, stream: u8) -> &[u64] {
        self.times.get(usize::from(stream)).map_or(&[], Vec::as_slice)
    }

    fn clock(&self) -> u64 {
        self.clock
    }
}
