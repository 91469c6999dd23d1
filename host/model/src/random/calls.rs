//! Random lists of calls: events, ticks and closes, accepted and refused.

use super::Random;
use crate::continuation::{Event, Together};
use crate::limits::{EARLIER_LAST_TIME, FIRST_COLOURED, LAST_COLOUR, LAST_KIND, LAST_TIME, STREAMS};
use crate::monitor::{Monitor, Verdict};
use crate::open::earliest_continuation;
use crate::questions::Answer;
use crate::steps::{Events, Step};
use crate::types::Constraint;

/// How the calls of a list are chosen.
#[derive(Clone, Copy, Debug)]
enum Manner {
    /// Any call, whatever it breaks.
    Careless,
    /// Of a few calls the one that breaks the fewest rows.
    Careful,
    /// Mostly events of one kind, so that 64 come to wait.
    Crowding(u8),
}

/// A random list of calls, made while a model monitor plays it: each call is chosen by what is recorded so far.
///
/// ```
/// use model::random::{Random, calls::Play, tables::any_table};
///
/// let mut random = Random::new(1);
/// let rows = any_table(&mut random);
/// let mut play = Play::new(random.fork(), &rows, 100);
/// while let Some((call, answer)) = play.call() {
///     // give the call to the monitor under test, compare its answer with this one,
///     // and its verdicts with those of the model
///     let _ = (call, answer, play.monitor().verdicts());
/// }
/// ```
#[derive(Clone, Debug)]
pub struct Play {
    random: Random,
    monitor: Monitor,
    manner: Manner,
    /// How many calls are still to come, and how many after the close.
    left: usize,
    after_close: usize,
}

impl Play {
    /// A list of this many calls from a fresh monitor over an accepted table. The last are a close and some calls after
    /// it.
    pub fn new(random: Random, rows: &[Constraint], calls: usize) -> Play {
        Play::counting_from(random, rows, calls, 0)
    }

    /// The same, with a step count to start from.
    pub fn counting_from(mut random: Random, rows: &[Constraint], calls: usize, count: u64) -> Play {
        let monitor = Monitor::counting_from(rows, count).expect("an accepted table");
        let manner = manner(&mut random, rows);
        let after_close = random.place(5);
        Play { random, monitor, manner, left: calls, after_close }
    }

    /// The next call and its right answer. The model has then taken the call too.
    pub fn call(&mut self) -> Option<(Step, Answer)> {
        self.left = self.left.checked_sub(1)?;
        let call = self.choose();
        Some((call, self.monitor.step(call)))
    }

    /// The model after the calls made so far.
    pub fn monitor(&self) -> &Monitor {
        &self.monitor
    }

    fn choose(&mut self) -> Step {
        let closed = self.monitor.recorded().closed();
        if self.left == self.after_close || self.random.below(3000) == 0 || closed && self.random.chance(30) {
            return Step::Close;
        }
        if self.monitor.steps().is_empty() && self.random.chance(10) {
            let end = *self.random.pick(&[EARLIER_LAST_TIME, LAST_TIME]);
            return Step::Tick { time: end - self.random.below(3000) };
        }
        match self.manner {
            _ if self.random.chance(6) => self.refusable(),
            Manner::Careless => self.proposal(),
            Manner::Careful => self.careful(),
            Manner::Crowding(kind) => self.crowding(kind),
        }
    }

    /// Of a few proposals the first that breaks no row, or else the one that breaks the fewest.
    fn careful(&mut self) -> Step {
        let mut best = (usize::MAX, Step::Close);
        let ending = self.left < self.after_close + 20;
        for _ in 0..8 {
            let call = if ending { self.missing() } else { self.proposal() };
            let broken = self.monitor.would_break(call).unwrap_or(usize::MAX - 1);
            if broken < best.0 {
                best = (broken, call);
            }
            if broken == 0 {
                break;
            }
        }
        best.1
    }

    /// Mostly the next event of one kind, as soon as it can come.
    fn crowding(&mut self, kind: u8) -> Step {
        if self.random.chance(8) {
            return self.careful();
        }
        let time = self.first_free(kind) + self.random.below(8) / 7;
        Step::Event { kind, time }
    }

    /// A call that a row might be interested in, mostly one that can be accepted.
    fn proposal(&mut self) -> Step {
        let Some(row) = self.some_row() else {
            return self.unconcerned();
        };
        match self.random.below(20) {
            0..=6 => self.wanted(&row),
            7..=10 => self.edge_event(&row),
            11..=15 => self.near_event(&row),
            16 => Step::Tick { time: self.edge(&row) },
            17 | 18 => Step::Tick { time: self.monitor.recorded().clock() + 1 + self.random.below(4) },
            _ => self.unconcerned(),
        }
    }

    /// A row of the table that has kinds, of those not broken where there is one.
    fn some_row(&mut self) -> Option<Constraint> {
        let Play { random, monitor, .. } = self;
        let open = open_rows(monitor);
        let mut rows = if open.is_empty() { monitor.rows().iter().collect() } else { open };
        rows.retain(|row| !row.kinds().is_empty());
        if rows.is_empty() { None } else { Some((*random.pick(&rows)).clone()) }
    }

    /// An event that an open row must still have to be kept, or a tick where none must.
    fn missing(&mut self) -> Step {
        let Play { random, monitor, .. } = self;
        let first = |row: &Constraint| earliest_continuation(row, monitor.recorded()).first().copied();
        let missing: Vec<Event> = open_rows(monitor).into_iter().filter_map(first).collect();
        if missing.is_empty() {
            return Step::Tick { time: monitor.recorded().clock() + 1 };
        }
        let Event { stream, time } = *random.pick(&missing);
        Step::of_stream(stream, time)
    }

    /// The first event of the continuation that the row is open by, at times a bit later.
    fn wanted(&mut self, row: &Constraint) -> Step {
        match earliest_continuation(row, self.monitor.recorded()).first() {
            Some(event) => {
                let later = if self.random.chance(30) { self.random.below(4) } else { 0 };
                Step::of_stream(event.stream, event.time + later)
            }
            None => self.edge_event(row),
        }
    }

    /// One of the row's streams: of a coloured kind mostly one of the first two colours, so that events meet.
    fn stream_of(&mut self, row: &Constraint) -> u8 {
        let streams = row.streams();
        let last = if self.random.chance(80) { 1 } else { LAST_COLOUR };
        let near: Vec<u8> =
            streams.iter().copied().filter(|stream| *stream < FIRST_COLOURED || stream % 8 <= last).collect();
        *self.random.pick(&near)
    }

    /// An event of the row's at one of its edges.
    fn edge_event(&mut self, row: &Constraint) -> Step {
        let stream = self.stream_of(row);
        Step::of_stream(stream, self.edge(row).max(self.first_free(stream)))
    }

    /// An event of the row's soon.
    fn near_event(&mut self, row: &Constraint) -> Step {
        let stream = self.stream_of(row);
        let later = *self.random.pick(&[0, 0, 0, 1, 1, 2, 5]);
        Step::of_stream(stream, self.first_free(stream) + later)
    }

    /// A time where the row's verdict may change: a late event of the row's + one of its fields, or one off; mostly in
    /// range and after the clock.
    fn edge(&mut self, row: &Constraint) -> u64 {
        let stream = self.stream_of(row);
        let late: Vec<u64> = self.monitor.recorded().times(stream).iter().rev().take(5).copied().collect();
        let base = if late.is_empty() { self.monitor.recorded().clock() } else { *self.random.pick(&late) };
        let fields: Vec<u64> = row.times().into_iter().filter(|field| *field <= LAST_TIME).collect();
        let field = if fields.is_empty() { 0 } else { *self.random.pick(&fields) };
        let time = (base + field + self.random.below(3)).saturating_sub(1);
        let soon = self.monitor.recorded().clock() + 1 + self.random.below(20);
        match self.random.below(100) {
            0..5 => time,
            5..95 if time > soon + 10_000 => soon,
            _ => time.clamp(self.monitor.recorded().clock() + 1, LAST_TIME.max(soon)),
        }
    }

    /// An event of any kind, or now and then a leap of the clock.
    fn unconcerned(&mut self) -> Step {
        let clock = self.monitor.recorded().clock();
        if self.random.chance(4) {
            return Step::Tick { time: self.random.from_to(clock, LAST_TIME) };
        }
        let stream = self.random.below(STREAMS.into()) as u8;
        Step::of_stream(stream, self.first_free(stream) + self.random.below(2))
    }

    /// A call that is mostly to be refused, by one or more of questions 9, 19, 10 and 11.
    fn refusable(&mut self) -> Step {
        let clock = self.monitor.recorded().clock();
        let any_kind = self.random.number() as u8;
        let kind = self.random.from_to(0, LAST_KIND.into()) as u8;
        let last = self.monitor.recorded().times(kind).last().copied();
        let too_large = *self.random.pick(&[LAST_TIME + 1, LAST_TIME + 1 + clock, 1 << 63, u64::MAX]);
        let earlier = self.random.from_to(0, clock);
        let any_colour = *self.random.pick(&[0, LAST_COLOUR, LAST_COLOUR + 1, 255]);
        match self.random.below(12) {
            8 => Step::Coloured { kind: any_kind, colour: any_colour, time: too_large },
            9 => Step::Coloured { kind, colour: any_colour, time: clock },
            10 => Step::Coloured { kind: kind | FIRST_COLOURED, colour: any_colour, time: earlier },
            11 => Step::Event { kind: kind | FIRST_COLOURED, time: clock },
            0 => Step::Event { kind: any_kind, time: too_large },
            1 => Step::Event { kind: any_kind, time: earlier },
            2 => Step::Event { kind: any_kind | 64, time: clock },
            3 => Step::Event { kind, time: too_large },
            4 => Step::Event { kind, time: earlier },
            5 => Step::Event { kind, time: last.unwrap_or(clock) },
            6 => Step::Tick { time: too_large },
            _ => Step::Tick { time: *self.random.pick(&[clock, earlier]) },
        }
    }

    /// The first time that an event of this kind can have.
    fn first_free(&self, kind: u8) -> u64 {
        Together::of(self.monitor.recorded(), &[]).first_free(kind)
    }
}

/// The rows not yet broken.
fn open_rows(monitor: &Monitor) -> Vec<&Constraint> {
    let not_broken = |(_, verdict): &(&Constraint, Verdict)| !matches!(verdict, Verdict::Broken(_));
    monitor.rows().iter().zip(monitor.verdicts()).filter(not_broken).map(|(row, _)| row).collect()
}

/// Crowding only where something of the table can wait.
fn manner(random: &mut Random, rows: &[Constraint]) -> Manner {
    let kinds: Vec<u8> = rows.iter().filter_map(|row| row.as_type().crowding_kind()).collect();
    match random.below(8) {
        0 => Manner::Careless,
        1 | 2 if !kinds.is_empty() => Manner::Crowding(*random.pick(&kinds)),
        _ => Manner::Careful,
    }
}

/// A random list of this many calls over an accepted table.
pub fn calls(random: &mut Random, rows: &[Constraint], number: usize) -> Vec<Step> {
    let mut play = Play::new(random.fork(), rows, number);
    std::iter::from_fn(|| play.call()).map(|(call, _)| call).collect()
}
