//! ExecutionTime (§5.8): from each start to its stop, without what lies from preempt to resume.

use super::{Constraint, RowType, row_type};
use crate::continuation::Event;
use crate::random::Random;
use crate::random::tables::{Draw, odd_kind, odd_time};
use crate::steps::{Events, History};

row_type! {
    /// A row of type 8.
    ExecutionTime { start: Kind, stop: Kind, preempt: Kind, resume: Kind, lower: Time, upper: Time }
    lower <= upper
}

impl ExecutionTime {
    /// The kinds in the order of the fields, each with what it is to the row.
    pub fn parts(&self) -> [(u8, Part); 4] {
        let (start, stop) = ((self.start, Part::Start), (self.stop, Part::Stop));
        [start, stop, (self.preempt, Part::Preempt), (self.resume, Part::Resume)]
    }
}

impl RowType for ExecutionTime {
    /// The events are those of whole executions, one after the other, each of which runs for lower to upper.
    fn meets(&self, events: &dyn Events) -> bool {
        let executions = Executions::of(self, events);
        executions.rise() && executions.run_for(self.lower, self.upper)
    }

    /// What ends an execution that is begun: its stop, once it has run for lower, and before that its resume where it is
    /// preempted. Both are as early as they can be, so it runs no longer than it must.
    ///
    /// Whole executions that are right stay so with what follows, and further whole ones are not needed. Each more pair of
    /// preempt and resume would only let the one that is begun run longer.
    fn earliest_continuation(&self, recorded: &History) -> Vec<Event> {
        let executions = Executions::of(self, recorded);
        let Some((last, part)) = executions.begun().last().copied() else { return Vec::new() };
        let left = self.lower.saturating_sub(executions.ran());
        let next = recorded.clock().max(last + 1);
        let stop = |time: u64| Event { stream: self.stop, time };
        if part == Part::Preempt {
            return vec![Event { stream: self.resume, time: next }, stop(next + left.max(1))];
        }
        vec![stop(next.max(last + left))]
    }

    /// Of a continuation that meets the row keep what ends the execution that is begun, without further pairs: a resume, right
    /// after the clock at the latest, and a stop once it has run for lower.
    fn reach(&self, recorded: &History) -> u64 {
        recorded.clock() + 1 + self.lower.max(1)
    }

    fn random(draw: &mut Draw) -> ExecutionTime {
        let kinds = draw.different(4);
        let (lower, upper) = draw.bounds;
        ExecutionTime { start: kinds[0], stop: kinds[1], preempt: kinds[2], resume: kinds[3], lower, upper }
    }

    fn damage(&mut self, random: &mut Random) {
        let ExecutionTime { start, stop, preempt, resume, lower, upper } = self;
        match random.below(5) {
            0 => *[start, stop, preempt, resume][random.place(4)] = odd_kind(random),
            1 => *resume = *random.pick(&[*start, *stop, *preempt]),
            2 => *lower = odd_time(random),
            3 => *upper = odd_time(random),
            _ => (*lower, *upper) = (*upper, *lower),
        }
    }
}

/// For tests: start 0, stop 1, preempt 2 and resume 3.
pub fn execution_time(lower: u64, upper: u64) -> Constraint {
    ExecutionTime { start: 0, stop: 1, preempt: 2, resume: 3, lower, upper }.into()
}

/// What an event of the row's is to it.
#[derive(Clone, Copy, Debug, PartialEq, Eq, PartialOrd, Ord)]
pub enum Part {
    Start,
    Stop,
    Preempt,
    Resume,
}

/// The events of the row's four kinds, each with its time, in the order of time.
///
/// That is the order in which they were recorded, but for two at the same time; these break the row in either order.
pub struct Executions {
    events: Vec<(u64, Part)>,
}

impl Executions {
    /// The executions of a row among all events.
    pub fn of(row: &ExecutionTime, all: &dyn Events) -> Executions {
        let timed = |(kind, part): (u8, Part)| all.times(kind).iter().map(move |time| (*time, part));
        let mut events: Vec<(u64, Part)> = row.parts().into_iter().flat_map(timed).collect();
        events.sort_by_key(|(time, _)| *time);
        Executions { events }
    }

    /// Is each event later than the one before it?
    pub fn rise(&self) -> bool {
        self.events.windows(2).all(|pair| pair[0].0 < pair[1].0)
    }

    /// Are the events those of whole executions, each of which runs for lower to upper?
    pub fn run_for(&self, lower: u64, upper: u64) -> bool {
        let executions = self.events.split_inclusive(|(_, part)| *part == Part::Stop);
        executions.map(running_time).all(|time| time.is_some_and(|time| (lower..=upper).contains(&time)))
    }

    /// The time of the last event.
    pub fn last_time(&self) -> Option<u64> {
        self.events.last().map(|(time, _)| *time)
    }

    /// The events after the last stop: those of an execution that is begun, if there are any.
    pub fn begun(&self) -> &[(u64, Part)] {
        self.events.rsplit(|(_, part)| *part == Part::Stop).next().unwrap_or(&[])
    }

    /// How long the execution that is begun has run up to its last event.
    pub fn ran(&self) -> u64 {
        let running = self.begun().windows(2).filter(|pair| pair[0].1 != Part::Preempt);
        running.map(|pair| pair[1].0 - pair[0].0).sum()
    }
}

/// The running time of an execution, if the events are those of one: a start, pairs of preempt and resume, a stop.
fn running_time(events: &[(u64, Part)]) -> Option<u64> {
    let [(start, Part::Start), pauses @ .., (stop, Part::Stop)] = events else { return None };
    let pause = |pair: &[(u64, Part)]| match pair {
        [(preempt, Part::Preempt), (resume, Part::Resume)] => Some(resume - preempt),
        _ => None,
    };
    let paused: u64 = pauses.chunks(2).map(pause).sum::<Option<u64>>()?;
    (stop - start).checked_sub(paused)
}
