//! A row's constraint with what it keeps of the events so far, changed in place.

use super::later::{self, Later};
use super::ring::{Ends, Ring};
use model::limits::stream;
use model::types::{
    Burst, Delay, ExecutionTime, Order, Reaction, Repeat, Repetition, Sporadic, StrongDelay, StrongSynchronization,
    Synchronization,
};
use model::{Constraint, NO_LIMIT};

/// The last type that the plain monitor has, and the edition of the table that ends with it.
pub const LAST_TYPE: u8 = 17;
pub const LAST_EDITION: u8 = 2;

/// No time: later than all.
const NEVER: u64 = u64::MAX;
/// No kind, in a list of fewer than four.
const NO_KIND: u8 = u8::MAX;

/// A row type with its fields and its state.
#[derive(Clone, Debug)]
pub enum Rule {
    /// The waiting sources, and the last target.
    Delay { source: u8, lower: u64, upper: u64, waiting: Ring, target: u64 },
    /// The sources beyond the targets, or the one target beyond the sources.
    StrongDelay { source: u8, lower: u64, upper: u64, waiting: Ring, early: u64 },
    /// The last events, as many as the span; a Burst too.
    Repeat { span: usize, lower: u64, upper: u64, minimum: u64, events: Ring, last: u64 },
    /// From where to where the last hidden point can be.
    Sporadic { stride: u64, upper: u64, jitter: u64, minimum: u64, low: u64, high: u64, last: u64 },
    /// How many sources are beyond the targets, or the one target beyond the sources.
    Order { source: u8, ahead: u64, early: u64 },
    /// The first times of the groups begun, and how many of these groups have an event of each kind.
    StrongSynchronization { kinds: [u8; 4], n: usize, tolerance: u64, begun: Ring, counts: [u8; 4] },
    /// The phase of the execution, its last event, and how long it has run up to that event.
    ExecutionTime { kinds: [u8; 4], lower: u64, upper: u64, phase: Phase, last: u64, ran: u64 },
    /// For each colour where its first response has to come, or when it came.
    Reaction { stimuli: u8, minimum: u64, maximum: u64, colours: [Colour; 8] },
    /// From where to where each of the last hidden points can be, as many as the span: low and high in turn.
    Repetition { span: u64, lower: u64, upper: u64, jitter: u64, places: Ring },
    /// The first time that is too late for a window with the last event of each kind, and the oldest event in no full window.
    Synchronization { kinds: [u8; 4], tolerance: u64, over: [u64; 4], owed: u64 },
    /// Types 12 to 17.
    Later(Later),
}

/// What an event changes of a rule, as it was before: of each type only its own part counts.
#[derive(Clone, Copy, Debug, Default)]
pub struct Before {
    ends: Ends,
    marks: [u64; 3],
    counts: [u8; 4],
    phase: Phase,
    colour: Colour,
    later: later::Before,
}

/// What an event leaves of a row that is still open: the last clock at which it is open if none of its events comes, and
/// whether 64 wait.
#[derive(Clone, Copy, Debug)]
pub struct Left {
    pub due: u64,
    pub full: bool,
}

/// Between two executions, in a running one, or in a preempted one.
#[derive(Clone, Copy, Debug, Default, PartialEq, Eq)]
pub enum Phase {
    #[default]
    Idle,
    Running,
    Preempted,
}

/// A colour of a Reaction.
#[derive(Clone, Copy, Debug, Default)]
pub enum Colour {
    #[default]
    Quiet,
    /// The first response has to come from here to there.
    Waits {
        from: u64,
        to: u64,
    },
    Answered(u64),
}

impl Rule {
    /// The rule before any event.
    ///
    /// # Panics
    /// If the row's type has no rule.
    pub fn new(row: &Constraint) -> Rule {
        match *row {
            Constraint::Delay(Delay { source, lower, upper, .. }) => {
                Rule::Delay { source, lower, upper, waiting: Ring::default(), target: NEVER }
            }
            Constraint::StrongDelay(StrongDelay { source, lower, upper, .. }) => {
                Rule::StrongDelay { source, lower, upper, waiting: Ring::default(), early: NEVER }
            }
            Constraint::Repeat(Repeat { span, lower, upper, .. }) => repeat(span, lower, upper, 0),
            Constraint::Burst(Burst { maximum, length, minimum, .. }) => repeat(maximum, length, NO_LIMIT, minimum),
            Constraint::Sporadic(Sporadic { lower, upper, jitter, minimum, .. }) => {
                Rule::Sporadic { stride: lower.max(1), upper, jitter, minimum, low: 0, high: 0, last: NEVER }
            }
            Constraint::Order(Order { source, .. }) => Rule::Order { source, ahead: 0, early: NEVER },
            Constraint::StrongSynchronization(StrongSynchronization { kinds: ref list, tolerance }) => {
                let (kinds, n) = (four(list), list.len());
                Rule::StrongSynchronization { kinds, n, tolerance, begun: Ring::default(), counts: [0; 4] }
            }
            Constraint::ExecutionTime(ExecutionTime { start, stop, preempt, resume, lower, upper }) => {
                let kinds = [start, stop, preempt, resume];
                Rule::ExecutionTime { kinds, lower, upper, phase: Phase::Idle, last: NEVER, ran: 0 }
            }
            Constraint::Reaction(Reaction { stimulus, minimum, maximum, .. }) => {
                Rule::Reaction { stimuli: stream(stimulus, 0), minimum, maximum, colours: [Colour::Quiet; 8] }
            }
            Constraint::Repetition(Repetition { span, lower, upper, jitter, .. }) => {
                Rule::Repetition { span: span.into(), lower, upper, jitter, places: Ring::default() }
            }
            Constraint::Synchronization(Synchronization { kinds: ref list, tolerance }) => {
                let kinds = four(list);
                Rule::Synchronization { kinds, tolerance, over: kinds.map(over_before), owed: NEVER }
            }
            ref later => Rule::Later(Later::new(later).expect("a type that has a rule")),
        }
    }

    /// Would more than 64 wait after an event of one of its kinds?
    pub fn crowded(&self, kind: u8, time: u64) -> bool {
        match self {
            Rule::Delay { source, lower, waiting, target, .. } => {
                kind == *source && waiting.is_full() && !(*lower == 0 && *target == time)
            }
            Rule::StrongDelay { source, waiting, .. } => kind == *source && waiting.is_full(),
            Rule::StrongSynchronization { kinds, begun, counts, .. } => {
                begun.is_full() && usize::from(counts[place(kinds, kind)]) == begun.length()
            }
            _ => false,
        }
    }

    /// Takes an event of one of its streams, before which it was not overdue, and keeps what that changes. What it leaves, if the row
    /// is still open. The type is asked for once.
    #[inline]
    pub fn event(&mut self, kind: u8, time: u64, before: &mut Before) -> Option<Left> {
        match self {
            Rule::Delay { source, lower, upper, waiting, target } => {
                (before.ends, before.marks[0]) = (waiting.ends(), *target);
                delay_event(kind == *source, *lower, waiting, target, time);
                Some(Left { due: due(waiting, *upper), full: waiting.is_full() })
            }
            Rule::StrongDelay { source, lower, upper, waiting, early } => {
                (before.ends, before.marks[0]) = (waiting.ends(), *early);
                if !strong_delay_event(kind == *source, *lower, waiting, early, time) {
                    return None;
                }
                let due = waiting.first().map_or(*early, |first| first + *upper);
                Some(Left { due, full: waiting.is_full() })
            }
            Rule::Order { source, ahead, early } => {
                (before.marks[0], before.marks[1]) = (*ahead, *early);
                order_event(kind == *source, ahead, early, time);
                Some(Left { due: *early, full: false })
            }
            Rule::StrongSynchronization { kinds, n, tolerance, begun, counts } => {
                (before.ends, before.counts) = (begun.ends(), *counts);
                group_event(place(kinds, kind), &mut counts[..*n], begun, time);
                Some(Left { due: due(begun, *tolerance), full: begun.is_full() })
            }
            Rule::Reaction { stimuli, minimum, maximum, colours } => {
                let colour = &mut colours[usize::from(kind % 8)];
                before.colour = *colour;
                let open = if kind - kind % 8 == *stimuli {
                    stimulus(colour, *minimum, *maximum, time)
                } else {
                    response(colour, time)
                };
                open.then(|| Left { due: colours.iter().map(last_moment).min().unwrap_or(NEVER), full: false })
            }
            Rule::Synchronization { kinds, tolerance, over, owed } => {
                let one = &mut over[place(kinds, kind)];
                (before.marks[0], before.marks[1]) = (*one, *owed);
                *one = time + *tolerance + 1;
                *owed = if over.iter().all(|over| time < *over) { NEVER } else { time.min(*owed) };
                Some(Left { due: owed.saturating_add(*tolerance), full: false })
            }
            Rule::Repeat { .. } => self.repeat_event(time, before),
            Rule::Sporadic { .. } => self.sporadic_event(time, before),
            Rule::ExecutionTime { .. } => self.execution_event(kind, time, before),
            Rule::Repetition { .. } => self.repetition_event(time, before),
            Rule::Later(rule) => rule.event(kind, time, &mut before.later).map(|due| Left { due, full: false }),
        }
    }

    /// Goes back to before an event of a stream, the last that it took.
    pub fn withdraw(&mut self, stream: u8, before: &Before) {
        let [first, second, third] = before.marks;
        match self {
            Rule::Delay { waiting: ring, target: mark, .. } | Rule::StrongDelay { waiting: ring, early: mark, .. } => {
                ring.restore(before.ends);
                *mark = first;
            }
            Rule::Repeat { events, last, .. } => {
                events.restore_all(before.ends, second);
                *last = first;
            }
            Rule::Sporadic { low, high, last, .. } => [*low, *high, *last] = [first, second, third],
            Rule::Order { ahead, early, .. } => [*ahead, *early] = [first, second],
            Rule::StrongSynchronization { begun, counts, .. } => {
                begun.restore(before.ends);
                *counts = before.counts;
            }
            Rule::ExecutionTime { phase, last, ran, .. } => (*phase, *last, *ran) = (before.phase, first, second),
            Rule::Reaction { colours, .. } => colours[usize::from(stream % 8)] = before.colour,
            Rule::Repetition { places, .. } => places.restore(before.ends),
            Rule::Synchronization { kinds, over, owed, .. } => (over[place(kinds, stream)], *owed) = (first, second),
            Rule::Later(rule) => rule.withdraw(stream, &before.later),
        }
    }

    /// A Repeat's or a Burst's event: it is far enough from the last one, and from the one a span before.
    fn repeat_event(&mut self, time: u64, before: &mut Before) -> Option<Left> {
        let Rule::Repeat { span, lower, upper, minimum, events, last } = self else { return None };
        before.ends = events.ends();
        (before.marks[0], before.marks[1]) = (*last, events.at_head());
        let far_enough = *last == NEVER || time - *last >= *minimum;
        *last = time;
        let gap = if events.length() == *span { events.pop().map(|first| time - first) } else { None };
        events.push(time);
        if !(far_enough && gap.is_none_or(|gap| *lower <= gap)) {
            return None;
        }
        Some(Left { due: due(events, *upper), full: false })
    }

    /// A Sporadic's event: the places for the next point are those a stride to an upper behind the places for the last.
    fn sporadic_event(&mut self, time: u64, before: &mut Before) -> Option<Left> {
        let Rule::Sporadic { stride, upper, jitter, minimum, low, high, last } = self else { return None };
        before.marks = [*low, *high, *last];
        let first = *last == NEVER;
        let fits = first || (time - *last >= *minimum && *stride <= *upper);
        let near = time.saturating_sub(*jitter);
        *low = if first { near } else { near.max(low.saturating_add(*stride)) };
        *high = if first { time } else { time.min(high.saturating_add(*upper)) };
        *last = time;
        if !(fits && *low <= *high) {
            return None;
        }
        Some(Left { due: high.saturating_add(*upper).saturating_add(*jitter), full: false })
    }

    /// An ExecutionTime's event: the next phase, if the event is one that may come.
    fn execution_event(&mut self, kind: u8, time: u64, before: &mut Before) -> Option<Left> {
        let Rule::ExecutionTime { kinds, lower, upper, phase, last, ran } = self else { return None };
        (before.phase, before.marks[0], before.marks[1]) = (*phase, *last, *ran);
        let [start, stop, preempt, resume] = *kinds;
        let run = if *phase == Phase::Running { *ran + (time - *last) } else { *ran };
        let (next, fits) = match *phase {
            Phase::Idle if kind == start => (Phase::Running, *upper > 0),
            Phase::Running if kind == stop => (Phase::Idle, *lower <= run),
            Phase::Running if kind == preempt => (Phase::Preempted, run < *upper),
            Phase::Preempted if kind == resume => (Phase::Running, true),
            _ => return None,
        };
        let later = *last != time;
        (*phase, *last) = (next, time);
        *ran = if next == Phase::Idle { 0 } else { run };
        let due = || if next == Phase::Running { time + (*upper - *ran) } else { NEVER };
        (fits && later).then(|| Left { due: due(), full: false })
    }

    /// A Repetition's event: a point is lower to upper behind the one span places before; while there is none, it leaves
    /// a place for each that is still to come before the first one's upper.
    fn repetition_event(&mut self, time: u64, before: &mut Before) -> Option<Left> {
        let Rule::Repetition { span, lower, upper, jitter, places } = self else { return None };
        before.ends = places.ends();
        let number = places.length() as u64 / 2;
        let near = time.saturating_sub(*jitter);
        let first = if number > 0 { places.two() } else { (0, time) };
        let low = if number < *span { near } else { near.max(first.0.saturating_add(*lower)) };
        let high = time.min(first.1.saturating_add(upper.saturating_sub(*span)).saturating_add(number));
        if number == *span {
            places.pop();
            places.pop();
        }
        places.push(low);
        places.push(high);
        (number < *span || (*span <= *upper && low <= high)).then_some(Left { due: NEVER, full: false })
    }

    /// Is it kept if the recording is closed now?
    pub fn kept(&self) -> bool {
        match self {
            Rule::Delay { waiting, .. } => waiting.is_empty(),
            Rule::StrongDelay { waiting, early, .. } => waiting.is_empty() && *early == NEVER,
            Rule::Order { ahead, early, .. } => *ahead == 0 && *early == NEVER,
            Rule::StrongSynchronization { begun, .. } => begun.is_empty(),
            Rule::Synchronization { owed, .. } => *owed == NEVER,
            Rule::ExecutionTime { phase, .. } => *phase == Phase::Idle,
            Rule::Reaction { colours, .. } => !colours.iter().any(|colour| matches!(colour, Colour::Waits { .. })),
            Rule::Later(rule) => rule.kept(),
            Rule::Repeat { .. } | Rule::Sporadic { .. } | Rule::Repetition { .. } => true,
        }
    }
}

/// The last clock at which a row is open whose oldest time is due so long after it.
fn due(ring: &Ring, upper: u64) -> u64 {
    ring.first().map_or(NEVER, |first| first.saturating_add(upper))
}

/// The last moment for a colour's first response.
fn last_moment(colour: &Colour) -> u64 {
    if let Colour::Waits { to, .. } = colour { *to } else { NEVER }
}

/// A Reaction's stimulus: the first of its colour opens the interval, a later one moves its start.
fn stimulus(colour: &mut Colour, minimum: u64, maximum: u64, time: u64) -> bool {
    let from = time + minimum;
    match *colour {
        Colour::Quiet => *colour = Colour::Waits { from, to: time + maximum },
        Colour::Waits { to, .. } => *colour = Colour::Waits { from, to },
        Colour::Answered(_) => {}
    }
    match *colour {
        Colour::Waits { to, .. } => from <= to,
        Colour::Answered(at) => from <= at,
        Colour::Quiet => true,
    }
}

/// A Reaction's response: the first of its colour is the one that counts.
fn response(colour: &mut Colour, time: u64) -> bool {
    match *colour {
        Colour::Answered(_) => true,
        Colour::Quiet => {
            *colour = Colour::Answered(time);
            true
        }
        Colour::Waits { from, .. } => {
            *colour = Colour::Answered(time);
            from <= time
        }
    }
}

fn repeat(span: u8, lower: u64, upper: u64, minimum: u64) -> Rule {
    Rule::Repeat { span: span.into(), lower, upper, minimum, events: Ring::default(), last: NEVER }
}

/// The kinds of a list, and behind them no kind.
fn four(list: &[u8]) -> [u8; 4] {
    std::array::from_fn(|place| list.get(place).copied().unwrap_or(NO_KIND))
}

/// Before any event no window has one of the kind; where there is no kind, none is missing.
fn over_before(kind: u8) -> u64 {
    if kind == NO_KIND { NEVER } else { 0 }
}

/// The place of a kind in a row's list, which has it.
fn place(kinds: &[u8; 4], kind: u8) -> usize {
    kinds.iter().position(|one| *one == kind).unwrap_or(0)
}

/// A Delay's source waits, unless the last target is its own; a target answers all sources that are far enough back.
fn delay_event(source: bool, lower: u64, waiting: &mut Ring, target: &mut u64, time: u64) {
    if source {
        if lower != 0 || *target != time {
            waiting.push(time);
        }
        return;
    }
    while waiting.first().is_some_and(|first| time - first >= lower) {
        waiting.pop();
    }
    *target = time;
}

/// A StrongDelay's source is the partner of the target beyond, or waits; a target is the oldest source's, or beyond.
fn strong_delay_event(source: bool, lower: u64, waiting: &mut Ring, early: &mut u64, time: u64) -> bool {
    if source {
        if *early == NEVER {
            waiting.push(time);
        }
        *early = NEVER;
        return true;
    }
    match waiting.pop() {
        Some(first) => time - first >= lower,
        None => {
            *early = time;
            lower == 0
        }
    }
}

/// An Order's source is one more ahead, or the partner of the target beyond; a target is one less ahead, or beyond.
fn order_event(source: bool, ahead: &mut u64, early: &mut u64, time: u64) {
    match (source, *early == NEVER) {
        (true, true) => *ahead += 1,
        (true, false) => *early = NEVER,
        (false, _) if *ahead > 0 => *ahead -= 1,
        (false, _) => *early = time,
    }
}

/// An event of a group: the next group of its kind has it, and may be complete by it; or it begins a group.
fn group_event(place: usize, counts: &mut [u8], begun: &mut Ring, time: u64) {
    if usize::from(counts[place]) == begun.length() {
        begun.push(time);
    }
    counts[place] += 1;
    if counts.iter().all(|count| *count > 0) {
        begun.pop();
        counts.iter_mut().for_each(|count| *count -= 1);
    }
}
