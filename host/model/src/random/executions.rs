//! Random lists of calls over one ExecutionTime: such as keep it open for long, and such as break it in every way.

use super::Random;
use crate::steps::{History, Step};
use crate::types::{ExecutionTime, Executions, Part};
use std::collections::BTreeMap;

/// Where an execution stands.
#[derive(Clone, Copy, Debug, PartialEq, Eq, PartialOrd, Ord)]
pub enum Phase {
    Idle,
    Running,
    Preempted,
}

/// How a step breaks an ExecutionTime (§5.8.1 to §5.8.6).
#[derive(Clone, Copy, Debug, PartialEq, Eq, PartialOrd, Ord)]
pub enum Way {
    /// An event of the row's at the time of another.
    SameTime,
    /// An event that may not come next.
    Wrong(Phase, Part),
    /// A stop before lower.
    TooShort,
    /// The running time goes past upper: by a tick, an event of another kind, or one of the row's.
    TooLongAtTick,
    TooLongAtOther,
    TooLongAtOwn,
    /// A preempt at upper.
    NoTimeLeft,
    /// A start where upper is 0.
    NoTime,
    /// A close in a running execution, or in a preempted one.
    Closed(Phase),
}

/// Every way.
pub const WAYS: [Way; 17] = [
    Way::SameTime,
    Way::Wrong(Phase::Idle, Part::Stop),
    Way::Wrong(Phase::Idle, Part::Preempt),
    Way::Wrong(Phase::Idle, Part::Resume),
    Way::Wrong(Phase::Running, Part::Start),
    Way::Wrong(Phase::Running, Part::Resume),
    Way::Wrong(Phase::Preempted, Part::Start),
    Way::Wrong(Phase::Preempted, Part::Stop),
    Way::Wrong(Phase::Preempted, Part::Preempt),
    Way::TooShort,
    Way::TooLongAtTick,
    Way::TooLongAtOther,
    Way::TooLongAtOwn,
    Way::NoTimeLeft,
    Way::NoTime,
    Way::Closed(Phase::Running),
    Way::Closed(Phase::Preempted),
];

/// What a list of steps has come to: the phase, the row's last time, and how long the execution begun has run up to it.
struct Standing {
    phase: Phase,
    last: Option<u64>,
    ran: u64,
}

impl Standing {
    fn of(row: &ExecutionTime, recorded: &History) -> Standing {
        let executions = Executions::of(row, recorded);
        let phase = match executions.begun().last() {
            None => Phase::Idle,
            Some((_, Part::Preempt)) => Phase::Preempted,
            Some(_) => Phase::Running,
        };
        Standing { phase, last: executions.last_time(), ran: executions.ran() }
    }
}

/// How a step breaks the row, which it leaves broken and found open.
pub fn way(row: &ExecutionTime, before: &History, step: Step) -> Way {
    let Standing { phase, last, ran } = Standing::of(row, before);
    let Step::Event { kind, time } = step else {
        return if step == Step::Close { Way::Closed(phase) } else { Way::TooLongAtTick };
    };
    let Some((_, part)) = row.parts().into_iter().find(|(one, _)| *one == kind) else { return Way::TooLongAtOther };
    if phase == Phase::Running && last.is_some_and(|last| ran + (time - last) > row.upper) {
        return Way::TooLongAtOwn;
    }
    match (phase, part) {
        _ if last == Some(time) => Way::SameTime,
        (Phase::Idle, Part::Start) => Way::NoTime,
        (Phase::Running, Part::Stop) => Way::TooShort,
        (Phase::Running, Part::Preempt) => Way::NoTimeLeft,
        _ => Way::Wrong(phase, part),
    }
}

/// How often each way was seen.
#[derive(Clone, Debug, Default)]
pub struct SeenWays {
    ways: BTreeMap<Way, u64>,
}

impl SeenWays {
    /// Counts a way.
    pub fn way(&mut self, way: Way) {
        *self.ways.entry(way).or_default() += 1;
    }

    /// Fails the test if one was not seen.
    ///
    /// # Panics
    /// With the ways that are missing.
    pub fn demand_all(&self) {
        let missing: Vec<Way> = WAYS.into_iter().filter(|way| !self.ways.contains_key(way)).collect();
        assert!(missing.is_empty(), "ways never seen: {missing:?}, of {:?}", self.ways);
    }
}

/// An accepted row of four kinds from 0 to 9: with no time to run, with little, or with much.
pub fn row(random: &mut Random) -> ExecutionTime {
    let kinds = super::tables::different(random, &[0, 1, 2, 3, 4, 5, 6, 7, 8, 9], 4);
    let (lower, upper) = match random.below(12) {
        0 => (0, 0),
        1..=4 => {
            let (one, other) = (random.below(5), random.below(5));
            (one.min(other), one.max(other))
        }
        _ => (random.below(6), random.from_to(6, 200)),
    };
    ExecutionTime { start: kinds[0], stop: kinds[1], preempt: kinds[2], resume: kinds[3], lower, upper }
}

/// A next step over the row that can be accepted: mostly one that keeps it open, now and then any, as often as
/// `wrong` says in a thousand.
pub fn next_step(random: &mut Random, row: &ExecutionTime, recorded: &History, wrong: u64) -> Step {
    let standing = Standing::of(row, recorded);
    if random.below(1000) < wrong {
        return any_step(random, row, recorded, &standing);
    }
    let next = standing.last.map_or(0, |last| last + 1).max(recorded.clock());
    let event = |part: Part, time: u64| {
        let kind = row.parts().into_iter().find(|(_, one)| *one == part).map_or(0, |(kind, _)| kind);
        Step::Event { kind, time }
    };
    match standing.phase {
        _ if random.chance(15) => beside(random, row, recorded, &standing),
        Phase::Idle => event(Part::Start, next + random.below(3)),
        Phase::Preempted => event(Part::Resume, next + random.below(9)),
        Phase::Running => {
            // the stop at the end of the time that is left, or soon; a preempt before it
            let last = standing.last.unwrap_or(0);
            let latest = last + row.upper.saturating_sub(standing.ran);
            let longest = random.chance(20);
            let time = if longest { latest.max(next) } else { (next + random.below(4)).min(latest.max(next)) };
            let run = standing.ran + (time - last);
            let stops = row.lower <= run && (run >= row.upper || random.chance(40));
            let short = run >= row.upper;
            if stops {
                event(Part::Stop, time)
            } else if short {
                event(Part::Stop, latest.max(next))
            } else {
                event(Part::Preempt, time)
            }
        }
    }
}

/// A step that is none of the row's: a tick or another kind's event, not after its time to run.
fn beside(random: &mut Random, row: &ExecutionTime, recorded: &History, standing: &Standing) -> Step {
    let clock = recorded.clock();
    let latest = match standing.phase {
        Phase::Running => standing.last.unwrap_or(0) + row.upper.saturating_sub(standing.ran),
        _ => clock + 20,
    };
    let time = (clock + random.below(3)).min(latest.max(clock));
    let other = 10 + random.below(38) as u8;
    if time > clock && random.chance(50) || !recorded.event_in_order(other, time) {
        return Step::Tick { time: time.max(clock + 1) };
    }
    Step::Event { kind: other, time }
}

/// Any step: an event of the row's, right at the row's last time, soon, or about the end of the time to run; a tick or
/// another kind's event past it; the close.
fn any_step(random: &mut Random, row: &ExecutionTime, recorded: &History, standing: &Standing) -> Step {
    let clock = recorded.clock();
    let end = standing.last.unwrap_or(clock) + row.upper.saturating_sub(standing.ran);
    let past = (end + 1 + random.below(3)).max(clock + 1);
    let kind = random.pick(&row.parts()).0;
    let time = (*random.pick(&[clock, clock, clock + 1, clock + 2, end, past])).max(clock);
    match random.below(10) {
        0 => Step::Close,
        1 => Step::Tick { time: past },
        2 => Step::Event { kind: 10 + random.below(38) as u8, time: past },
        _ if recorded.event_in_order(kind, time) => Step::Event { kind, time },
        _ => Step::Event { kind, time: past },
    }
}
