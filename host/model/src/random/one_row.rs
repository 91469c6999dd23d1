//! Random lists of calls over one row of types 12 to 17: such as keep it open for long, and such as break it in every way there is.

use super::Random;
use super::tables::different;
use crate::limits::{FIRST_COLOURED, LAST_COLOUR, NO_LIMIT, stream};
use crate::open::open;
use crate::steps::{Events, History, Step};
use crate::types::{Age, Arbitrary, Comparison, Constraint, InputSynchronization, OutputSynchronization, Pattern};
use std::collections::BTreeMap;

/// The types of which there are such lists.
pub const FIRST: u8 = 12;
pub const LAST: u8 = 17;
/// A kind that no row here has.
const STRANGER: u8 = 40;
/// How many steps are tried before any is taken.
const TRIES: u64 = 30;

/// A time from 0 to 4, 12 or 40.
fn small(random: &mut Random) -> u64 {
    let most = *random.pick(&[4, 12, 40]);
    random.from_to(0, most)
}

/// Different coloured kinds among the first six.
fn coloured(random: &mut Random, number: usize) -> Vec<u8> {
    let kinds: Vec<u8> = (FIRST_COLOURED..FIRST_COLOURED + 6).collect();
    different(random, &kinds, number)
}

fn age(random: &mut Random) -> Age {
    let kinds = coloured(random, 2);
    let minimum = if random.chance(50) { 0 } else { small(random) };
    Age { stimulus: kinds[0], response: kinds[1], minimum, maximum: minimum + small(random) }
}

fn pattern(random: &mut Random) -> Pattern {
    let number = if random.chance(60) { 1 + random.place(3) } else { 1 + random.place(8) };
    let mut offsets: Vec<u64> = Vec::new();
    for _ in 0..number {
        let after = offsets.last().map_or(0, |last| last + 1);
        offsets.push(after + small(random));
    }
    let last = offsets[number - 1];
    let period = match random.below(10) {
        0 => 0,
        1 => small(random),
        _ => last + small(random),
    };
    let minimum = if random.chance(60) { 0 } else { small(random) / 2 };
    let jitter = if random.chance(30) { random.below(3) } else { small(random) };
    Pattern { event: random.below(9) as u8, period, jitter, minimum, offsets }
}

/// Pairs for events that are a number of places apart, mostly such as go together; at times the first ones ask for nothing.
fn arbitrary(random: &mut Random) -> Arbitrary {
    let (number, step) = (*random.pick(&[1, 2, 3, 4, 5, 6, 7, 8, 8, 8]), 1 + small(random));
    let free = if random.chance(40) { random.place(number) } else { 0 };
    let mut pairs = vec![(0, NO_LIMIT); free];
    for span in free as u64 + 1..=number as u64 {
        let middle = if random.chance(95) { span * step } else { small(random) };
        let minimum = middle.saturating_sub(random.below(step + 2));
        pairs.push((minimum, if random.chance(25) { NO_LIMIT } else { middle + random.below(step + 2) }));
    }
    Arbitrary { event: random.below(9) as u8, pairs }
}

/// An accepted row of one of these types, with small numbers.
///
/// # Panics
/// Where the type is none of these.
pub fn row(random: &mut Random, type_byte: u8) -> Constraint {
    let (tolerance, number) = (small(random), 2 + random.place(3));
    match type_byte {
        12 => age(random).into(),
        13 => {
            let kinds = coloured(random, 1 + number);
            OutputSynchronization { stimulus: kinds[0], responses: kinds[1..].to_vec(), tolerance }.into()
        }
        14 => {
            let kinds = coloured(random, 1 + number);
            InputSynchronization { stimuli: kinds[1..].to_vec(), response: kinds[0], tolerance }.into()
        }
        15 => pattern(random).into(),
        16 => arbitrary(random).into(),
        17 => Comparison { operator: 1, left: tolerance, right: tolerance + random.below(2) }.into(),
        _ => panic!("no such type: {type_byte}"),
    }
}

/// Times at which something may change for the row, and times next to them.
fn times(row: &Constraint, recorded: &History) -> Vec<u64> {
    let clock = recorded.clock();
    let far: Vec<u64> = match row {
        Constraint::Pattern(row) => {
            let (events, jitter) = (recorded.times(row.event), i128::from(row.jitter));
            let (starts, place) = (row.starts(events), row.place(events.len()));
            let starts = [*starts.start(), (*starts.end()).min(i128::from(clock) + 9)];
            let near = starts.into_iter().flat_map(|start| [start + place, start + place + jitter]);
            let apart = events.last().map(|last| i128::from(last + row.minimum));
            near.chain(apart).filter_map(|time| u64::try_from(time).ok()).collect()
        }
        Constraint::Arbitrary(row) => {
            let events = recorded.times(row.event).iter().rev().zip(&row.pairs);
            events.flat_map(|(event, (minimum, maximum))| [event + minimum, event.saturating_add(*maximum)]).collect()
        }
        row => {
            let late = row.streams().into_iter().filter_map(|stream| recorded.times(stream).last());
            late.flat_map(|time| row.times().into_iter().map(move |field| time + field)).collect()
        }
    };
    let near = |time: u64| [time.saturating_sub(1), time, time.saturating_add(1)];
    let soon = [clock, clock, clock + 1, clock + 2];
    far.into_iter().flat_map(near).chain(soon).filter(|time| (clock..clock + 500).contains(time)).collect()
}

/// A step that can be accepted: an event of the row's or of another kind, a tick or, at times, the close.
fn any_step(random: &mut Random, row: &Constraint, recorded: &History, colours: u8) -> Option<Step> {
    let near = |stream: &u8| *stream < FIRST_COLOURED || stream % 8 <= colours;
    let streams: Vec<u8> = row.streams().into_iter().filter(near).collect();
    let time = *random.pick(&times(row, recorded));
    let stream = if streams.is_empty() || random.chance(15) { STRANGER } else { *random.pick(&streams) };
    match random.below(40) {
        0 => Some(Step::Close),
        1..=6 => (time > recorded.clock()).then_some(Step::Tick { time }),
        _ => recorded.event_in_order(stream, time).then_some(Step::of_stream(stream, time)),
    }
}

/// A next step over an open row: one that leaves it open before the close or, if it is to break, one that breaks it; where no try
/// finds such a one, a tick.
pub fn next_step(random: &mut Random, row: &Constraint, recorded: &History, breaks: bool) -> Step {
    let colours = if random.chance(70) { 1 } else { LAST_COLOUR };
    for _ in 0..TRIES {
        let Some(step) = any_step(random, row, recorded, colours) else { continue };
        if (breaks || step != Step::Close) && open(row, &recorded.after(step)) != breaks {
            return step;
        }
    }
    Step::Tick { time: recorded.clock() + 1 }
}

/// The sort of a step that breaks a row.
fn sort(row: &Constraint, step: Step) -> &'static str {
    match step {
        Step::Tick { .. } => "a tick",
        Step::Close => "the close",
        _ if crate::beside::is_own(row, step) => "an own event",
        _ => "another event",
    }
}

/// How a step breaks an Age: what is wrong with the event itself, or the response that has no stimulus when the clock moves on.
fn way_of_age(row: &Age, before: &History, kind: u8, colour: u8, time: u64) -> Option<&'static str> {
    let (stimuli, responses) = (before.times(stream(row.stimulus, colour)), before.times(stream(row.response, colour)));
    match stimuli.last() {
        _ if kind == row.stimulus && !responses.is_empty() => Some("a stimulus after a response"),
        _ if kind == row.stimulus => None,
        Some(latest) if !responses.is_empty() && time > latest + row.maximum => Some("a further response too late"),
        _ if !responses.is_empty() || row.minimum == 0 => None,
        None => Some("a response without a stimulus"),
        Some(latest) if time < latest + row.minimum => Some("a response too early"),
        Some(_) => Some("a response too late"),
    }
}

/// The same of a row with several kinds: a stimulus after a response, or what is missing or too far apart when the clock moves on.
fn way_of_chain(
    stimuli: &[u8],
    responses: &[u8],
    before: &History,
    kind: u8,
    colour: u8,
    time: u64,
) -> Option<&'static str> {
    let first = responses.iter().filter_map(|kind| before.times(stream(*kind, colour)).first()).min();
    (stimuli.contains(&kind) && first.is_some_and(|first| *first < time)).then_some("a stimulus after a response")
}

/// What a chain lacks that is broken by the clock or the close: a kind in some colour, or only that the kinds are together.
fn lack(asking: u8, kinds: &[u8], recorded: &History) -> &'static str {
    let asked = (0..=LAST_COLOUR).filter(|colour| !recorded.times(stream(asking, *colour)).is_empty());
    let number = |colour: u8| kinds.iter().filter(|kind| !recorded.times(stream(**kind, colour)).is_empty()).count();
    match asked.map(number).min() {
        Some(0) => "no kind",
        Some(number) if number < kinds.len() => "not every kind",
        _ => "too far apart",
    }
}

fn way_of_pattern(row: &Pattern, before: &History, time: u64) -> &'static str {
    let events = before.times(row.event);
    let starts = row.starts(events);
    let (first, last) =
        (starts.start() + row.place(events.len()), starts.end().saturating_add(row.place(events.len())));
    let second = events.len() >= row.offsets.len();
    match i128::from(time) {
        _ if second && row.period == 0 => "a second group without a period",
        time if time < first && events.is_empty() => "below its offset",
        time if time < first && second => "too early in a later group",
        time if time < first => "too early in the first group",
        time if time > last.saturating_add(row.jitter.into()) && second => "too late in a later group",
        time if time > last.saturating_add(row.jitter.into()) => "too late in the first group",
        _ if events.last().is_some_and(|last| time < last + row.minimum) => "too close to the event before",
        // the events are right, and the next one should have come before the last
        _ => "the next event overdue at once",
    }
}

/// The first pair of an Arbitrary whose minimum is not met by an event, if there is one.
fn too_early(row: &Arbitrary, before: &History, time: u64) -> Option<usize> {
    let events = before.times(row.event).iter().rev().zip(&row.pairs);
    events.enumerate().find(|(_, (event, (minimum, _)))| time < **event + minimum).map(|(pair, _)| pair + 1)
}

/// The first pair of an Arbitrary whose maximum has passed at a time.
fn too_late(row: &Arbitrary, before: &History, time: u64) -> usize {
    let events: Vec<u64> = before.times(row.event).iter().rev().copied().collect();
    let due = |(place, (_, maximum)): (usize, &(u64, u64))| {
        events.get(place).or(events.last()).map(|event| event.saturating_add(*maximum))
    };
    row.pairs.iter().enumerate().position(|pair| due(pair).is_some_and(|due| time > due)).map_or(0, |pair| pair + 1)
}

/// How a step breaks the row, which it leaves broken and found open.
pub fn way(row: &Constraint, before: &History, step: Step) -> String {
    let sort = sort(row, step);
    let after = before.after(step);
    let (kind, colour, time) = match step {
        Step::Coloured { kind, colour, time } => (kind, colour, time),
        Step::Event { kind, time } => (kind, 0, time),
        _ => (STRANGER, 0, after.clock()),
    };
    let itself = match row {
        Constraint::Age(row) if sort == "an own event" => way_of_age(row, before, kind, colour, time),
        Constraint::OutputSynchronization(row) => {
            way_of_chain(&[row.stimulus], &row.responses, before, kind, colour, time)
        }
        Constraint::InputSynchronization(row) => {
            way_of_chain(&row.stimuli, &[row.response], before, kind, colour, time)
        }
        Constraint::Pattern(row) if sort == "an own event" => Some(way_of_pattern(row, before, time)),
        _ => None,
    };
    let lacking = || match row {
        // a colour without responses is only broken by the close
        Constraint::OutputSynchronization(_) if step != Step::Close => "not every kind".to_string(),
        Constraint::OutputSynchronization(row) => lack(row.stimulus, &row.responses, before).to_string(),
        Constraint::InputSynchronization(row) => lack(row.response, &row.stimuli, before).to_string(),
        Constraint::Arbitrary(row) => match too_early(row, before, time).filter(|_| sort == "an own event") {
            Some(pair) => format!("minimum {pair}"),
            None => format!("maximum {}", too_late(row, before, time)),
        },
        _ => "silence".to_string(),
    };
    itself.map_or_else(|| format!("{}, {sort}", lacking()), str::to_string)
}

/// Every way that there is to break a row of a type.
pub fn ways(type_byte: u8) -> Vec<String> {
    let with = |what: &str, sorts: &[&str]| sorts.iter().map(|sort| format!("{what}, {sort}")).collect::<Vec<String>>();
    let (moving, all) =
        (["a tick", "an own event", "another event"], ["a tick", "an own event", "another event", "the close"]);
    let named = |names: &[&str]| names.iter().map(ToString::to_string).collect::<Vec<String>>();
    match type_byte {
        12 => [
            named(&["a stimulus after a response", "a further response too late", "a response without a stimulus"]),
            named(&["a response too early", "a response too late"]),
            with("silence", &all),
        ]
        .concat(),
        13 => [named(&["a stimulus after a response"]), with("no kind", &["the close"]), with("not every kind", &all)]
            .concat(),
        14 => [
            named(&["a stimulus after a response"]),
            with("no kind", &all),
            with("not every kind", &all),
            with("too far apart", &all),
        ]
        .concat(),
        15 => [
            named(&["a second group without a period", "below its offset", "too close to the event before"]),
            named(&["too early in the first group", "too late in the first group"]),
            named(&["too early in a later group", "too late in a later group", "the next event overdue at once"]),
            with("silence", &["a tick", "another event"]),
        ]
        .concat(),
        16 => {
            let pair = |pair: usize| {
                let maximum = with(&format!("maximum {pair}"), &moving);
                [with(&format!("minimum {pair}"), &["an own event"]), maximum].concat()
            };
            (1..=8).flat_map(pair).collect()
        }
        _ => Vec::new(),
    }
}

/// How often each way was seen, by type.
#[derive(Clone, Debug, Default)]
pub struct SeenWays {
    ways: BTreeMap<(u8, String), u64>,
}

impl SeenWays {
    /// Counts how a step broke a row.
    pub fn way(&mut self, row: &Constraint, before: &History, step: Step) {
        *self.ways.entry((row.type_byte(), way(row, before, step))).or_default() += 1;
    }

    /// Fails the test if one was not seen, or one that is not known.
    ///
    /// # Panics
    /// With those that are missing, and those that are not known.
    pub fn demand_all(&self, type_byte: u8) {
        let known = ways(type_byte);
        let seen: Vec<&String> = self.ways.keys().filter(|(one, _)| *one == type_byte).map(|(_, way)| way).collect();
        let missing: Vec<&String> = known.iter().filter(|way| !seen.contains(way)).collect();
        let other: Vec<&&String> = seen.iter().filter(|way| !known.contains(way)).collect();
        assert!(
            missing.is_empty() && other.is_empty(),
            "missing: {missing:?}, not known: {other:?}, of {:?}",
            self.ways
        );
    }
}
