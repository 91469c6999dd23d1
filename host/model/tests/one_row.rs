//! Types 12 to 17 beside a brute force: every continuation up to some places later is tried against the definition, which is written
//! here once more, word by word. Lists of calls with withdrawals; the rows stay open for long, and break in every way there is.
//! Clauses: §2.3 to §2.7, §3.13, §5.12 to §5.17.

mod common;

use common::fresh;
use model::continuation::{Event, Together};
use model::limits::stream;
use model::random::Random;
use model::random::one_row::{SeenWays, next_step, row};
use model::types::{Age, Arbitrary, Comparison, InputSynchronization, OutputSynchronization, Pattern};
use model::{Constraint, Events, History, LAST_COLOUR, NO_LIMIT, Step, Verdict};

/// One of the parts that a definition has: the streams that it is about, and whether it is true of some events at a clock.
type Part<'a> = (Vec<u8>, Box<dyn Fn(&dyn Events) -> bool + 'a>);

/// Each response has a stimulus, and is minimum to maximum after the latest stimulus of all.
fn age(row: &Age, colour: u8, events: &dyn Events) -> bool {
    let (stimuli, responses) = (events.times(stream(row.stimulus, colour)), events.times(stream(row.response, colour)));
    for response in responses {
        let mut found = false;
        for (place, stimulus) in stimuli.iter().enumerate() {
            let is_latest = stimuli.iter().all(|other| other <= stimulus) && place + 1 == stimuli.len();
            found |= is_latest && stimulus + row.minimum <= *response && *response <= stimulus + row.maximum;
        }
        if !found {
            return false;
        }
    }
    true
}

/// For each stimulus and any two kinds: the one has a first response, the stimulus is not after it, and it is at most tolerance after
/// that of the other.
fn output(row: &OutputSynchronization, colour: u8, events: &dyn Events) -> bool {
    let responses = |kind: u8| events.times(stream(kind, colour));
    for stimulus in events.times(stream(row.stimulus, colour)) {
        for one in &row.responses {
            for other in &row.responses {
                let (Some(one), Some(other)) = (responses(*one).first(), responses(*other).first()) else {
                    return false;
                };
                if stimulus > one || *one > other + row.tolerance {
                    return false;
                }
            }
        }
    }
    true
}

/// For each response and any two kinds: the one has a latest stimulus, it is not after the response, and at most tolerance after that
/// of the other.
fn input(row: &InputSynchronization, colour: u8, events: &dyn Events) -> bool {
    let latest = |kind: u8| events.times(stream(kind, colour)).iter().max();
    for response in events.times(stream(row.response, colour)) {
        for one in &row.stimuli {
            for other in &row.stimuli {
                let (Some(one), Some(other)) = (latest(*one), latest(*other)) else { return false };
                if one > response || *one > other + row.tolerance {
                    return false;
                }
            }
        }
    }
    true
}

/// Some start is tried after the other: the events come one after the other in groups, 0 to jitter after their places.
fn pattern(row: &Pattern, events: &dyn Events) -> bool {
    let (times, n) = (events.times(row.event), row.offsets.len());
    let suits = |start: u64| {
        let (mut point, mut number) = (start, 0);
        for time in times {
            let place = point + row.offsets[number];
            if *time < place || *time > place + row.jitter {
                return false;
            }
            number += 1;
            if number == n {
                (point, number) = (point + row.period, 0);
            }
        }
        times.is_empty() || events.clock() <= point + row.offsets[number] + row.jitter
    };
    let last = times.first().copied().unwrap_or(0);
    let apart = times.iter().zip(times.iter().skip(1)).all(|(one, next)| one + row.minimum <= *next);
    (0..=last).any(suits) && apart && (times.len() <= n || row.period != 0)
}

/// For each i: an event and the one i places on, where there is one, or the clock.
fn arbitrary(row: &Arbitrary, events: &dyn Events) -> bool {
    let (times, clock) = (events.times(row.event), events.clock());
    for (place, (minimum, maximum)) in row.pairs.iter().enumerate() {
        for first in 0..times.len() {
            let in_time = |time: u64| *maximum == NO_LIMIT || time - times[first] <= *maximum;
            let right = match times.get(first + place + 1) {
                Some(last) => last - times[first] >= *minimum && in_time(*last),
                None => in_time(clock),
            };
            if !right {
                return false;
            }
        }
    }
    true
}

fn comparison(row: &Comparison) -> bool {
    let (left, right) = (row.left, row.right);
    [left <= right, left < right, left >= right, left > right, left == right][usize::from(row.operator) - 1]
}

/// What a row asks, in parts about different streams.
fn parts(row: &Constraint) -> Vec<Part<'_>> {
    let colours = 0..=LAST_COLOUR;
    let of_colour = |kinds: &[u8], colour: u8| kinds.iter().map(|kind| stream(*kind, colour)).collect::<Vec<u8>>();
    let kinds = row.kinds();
    match row {
        Constraint::Age(row) => {
            let part =
                |colour| -> Part { (of_colour(&kinds, colour), Box::new(move |events| age(row, colour, events))) };
            colours.map(part).collect()
        }
        Constraint::OutputSynchronization(row) => {
            let part =
                |colour| -> Part { (of_colour(&kinds, colour), Box::new(move |events| output(row, colour, events))) };
            colours.map(part).collect()
        }
        Constraint::InputSynchronization(row) => {
            let part =
                |colour| -> Part { (of_colour(&kinds, colour), Box::new(move |events| input(row, colour, events))) };
            colours.map(part).collect()
        }
        Constraint::Pattern(row) => vec![(kinds, Box::new(|events| pattern(row, events)))],
        Constraint::Arbitrary(row) => vec![(kinds, Box::new(|events| arbitrary(row, events)))],
        Constraint::Comparison(row) => vec![(kinds, Box::new(|_| comparison(row)))],
        _ => panic!("none of the types here: {row:?}"),
    }
}

/// Is there for each of these streams a list of further times, up to a last one, with which the part is true? Every list is tried.
fn found(part: &dyn Fn(&dyn Events) -> bool, streams: &[u8], last: u64, together: &mut Together) -> bool {
    let Some((&stream, others)) = streams.split_first() else { return part(together) };
    let without = found(part, others, last, together);
    without
        || (together.first_free(stream)..=last).any(|time| {
            together.push(Event { stream, time });
            let found = found(part, streams, last, together);
            together.pop(stream);
            found
        })
}

/// Is there a continuation with which the row is met? Events of other streams only move the clock, which asks for more.
fn open_by_force(row: &Constraint, recorded: &History, places: u64) -> bool {
    parts(row).iter().all(|(streams, part)| {
        let streams: &[u8] = if recorded.closed() { &[] } else { streams };
        found(part, streams, recorded.clock() + places, &mut Together::of(recorded, &[]))
    })
}

/// The steps that are left, and whether the row was open after each, by brute force.
struct Force {
    row: Constraint,
    recorded: Vec<(Step, History, bool)>,
    places: u64,
}

impl Force {
    fn step(&mut self, step: Step) {
        let after = self.recorded.last().map_or_else(History::default, |(_, recorded, _)| recorded.clone()).after(step);
        let open = open_by_force(&self.row, &after, self.places);
        self.recorded.push((step, after, open));
    }

    fn verdict(&self) -> Verdict {
        match self.recorded.iter().position(|(_, _, open)| !open) {
            Some(step) => Verdict::Broken(step as u64 + 1),
            None if self.recorded.last().is_some_and(|(step, _, _)| *step == Step::Close) => Verdict::Kept,
            None => Verdict::Open,
        }
    }
}

/// Plays a list with withdrawals on the model and beside it by brute force; after each call both read the same. The row breaks once it
/// has had this many steps, or stays open up to the close.
fn play(random: &mut Random, row: &Constraint, places: u64, length: u64, ways: &mut SeenWays) -> Verdict {
    let mut model = fresh(std::slice::from_ref(row));
    let mut force = Force { row: row.clone(), recorded: Vec::new(), places };
    let breaks = random.chance(80);
    while !model.closed() && model.verdict(0) == Ok(Verdict::Open) && model.count() < length + 12 {
        let before = model.recorded().clone();
        let step = next_step(random, row, &before, breaks && before.count() >= length);
        for turn in 0..=u8::from(random.chance(20)) {
            if turn > 0 {
                assert_eq!((model.withdraw(), model.withdraw()), (Ok(()), Err(21)), "{step} over {row:?}");
                force.recorded.pop();
                assert_eq!(model.verdict(0), Ok(force.verdict()), "{step} withdrawn, over {row:?} after {before:?}");
            }
            assert_eq!(model.step(step), Ok(()), "{step} over {row:?} after {before:?}");
            force.step(step);
            assert_eq!(model.verdict(0), Ok(force.verdict()), "{step} over {row:?} after {before:?}");
        }
        if matches!(model.verdict(0), Ok(Verdict::Broken(_))) {
            ways.way(row, &before, step);
            return force.verdict();
        }
    }
    if !model.closed() {
        force.step(Step::Close);
        assert_eq!((model.close(), model.verdict(0)), (Ok(()), Ok(force.verdict())), "the close of {row:?}");
    }
    force.verdict()
}

/// This many lists over rows of a type, with continuations of this many places.
fn compare(type_byte: u8, lists: u64, places: u64) {
    let mut random = Random::new(1200 + u64::from(type_byte));
    let (mut ways, mut ends, mut long) = (SeenWays::default(), [0; 2], 0);
    for _ in 0..lists {
        let row = row(&mut random, type_byte);
        let length = *random.pick(&[1, 2, 3, 5, 8, 12, 16]);
        let end = play(&mut random, &row, places, length, &mut ways);
        ends[usize::from(end == Verdict::Kept)] += 1;
        long += u64::from(!matches!(end, Verdict::Broken(0..=15)));
    }
    ways.demand_all(type_byte);
    assert!(
        ends[1] > lists / 20 && (type_byte == 17 || ends[0] > lists / 5 && long > lists / 20),
        "{ends:?}, {long} long"
    );
}

#[test]
fn age_by_brute_force() {
    compare(12, 10_000, 3);
}

#[test]
fn output_synchronization_by_brute_force() {
    compare(13, 10_000, 1);
}

#[test]
fn input_synchronization_by_brute_force() {
    compare(14, 10_000, 1);
}

#[test]
fn pattern_by_brute_force() {
    compare(15, 10_000, 5);
}

#[test]
fn arbitrary_by_brute_force() {
    compare(16, 10_000, 5);
}

#[test]
fn comparison_by_brute_force() {
    compare(17, 10_000, 3);
}
