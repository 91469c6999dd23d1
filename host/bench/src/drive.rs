//! Tables of 32 rows, of all types of the first edition or of one of the second, with signals on which every row stays open until
//! the close.

use model::limits::stream;
use model::types::{
    Age, Arbitrary, Burst, Comparison, Delay, ExecutionTime, InputSynchronization, Order, OutputSynchronization,
    Pattern, Reaction, Repeat, Repetition, Sporadic, StrongDelay, StrongSynchronization, Synchronization,
};
use model::{Constraint, FIRST_COLOURED, LAST_TIME, NO_LIMIT, Step};

/// A signal comes once in a round of this length.
const PERIOD: u64 = 1_000;
/// How far the signals of one round are apart, and how late at most each can be.
const APART: u64 = 15;
const WOBBLE: u64 = 10;
/// How many wait in a row that is full.
const WAITING: u64 = 64;
/// In how many rounds a rare signal comes once.
const RARELY: u64 = 64;

/// The events of one stream: one in each round, or in every n-th round, from the round `lag` on.
#[derive(Clone, Copy)]
struct Signal {
    stream: u8,
    /// Its place among the signals of a round.
    place: u64,
    lag: u64,
    every: u64,
}

impl Signal {
    fn event(self, round: u64) -> Step {
        let late = (7 * round + 3 * self.place) % WOBBLE;
        Step::of_stream(self.stream, round * PERIOD + self.place * APART + late)
    }

    fn comes_in(self, round: u64) -> bool {
        self.lag <= round && round.is_multiple_of(self.every)
    }

    /// How long the first event is after another signal's first, give or take a wobble.
    fn after(self, other: Signal) -> u64 {
        (self.lag * PERIOD + self.place * APART) - (other.lag * PERIOD + other.place * APART)
    }
}

/// The signals so far, in the order of a round.
#[derive(Default)]
struct Signals {
    list: Vec<Signal>,
    /// In how many rounds each new signal comes once, if not in every one.
    every: Option<u64>,
    /// Whatever the lag, 64 sources wait from each source on to the next target, which is earlier in its round than the source.
    full: bool,
}

impl Signals {
    fn of_stream(&mut self, stream: u8, lag: u64) -> Signal {
        let signal = Signal { stream, place: self.list.len() as u64, lag, every: self.every.unwrap_or(1) };
        self.list.push(signal);
        signal
    }

    /// The signal of the next plain kind.
    fn next(&mut self, lag: u64) -> Signal {
        self.of_stream(self.list.iter().filter(|signal| signal.stream < FIRST_COLOURED).count() as u8, lag)
    }

    /// The runs of a chain: stimuli of some colours, and responses of as many others.
    fn chain(&mut self, colours: u8) -> Constraint {
        let (stimulus, response) = (FIRST_COLOURED, FIRST_COLOURED + 1);
        (0..colours).for_each(|colour| _ = self.of_stream(stream(stimulus, colour), 0));
        (0..colours).for_each(|colour| _ = self.of_stream(stream(response, 7 - colour), 0));
        Constraint::Reaction(Reaction { stimulus, response, minimum: APART, maximum: LAST_TIME / 2 })
    }

    /// A source, and several targets a number of rounds behind it.
    fn group(&mut self, number: usize, lag: u64) -> Vec<Signal> {
        if self.full {
            let mut targets: Vec<Signal> = (0..number).map(|_| self.next(WAITING)).collect();
            targets.insert(0, self.next(0));
            return targets;
        }
        (0..=number).map(|place| self.next(if place == 0 { 0 } else { lag })).collect()
    }

    /// A source, and a target a number of rounds behind it.
    fn pair(&mut self, lag: u64) -> (Signal, Signal) {
        let group = self.group(1, lag);
        (group[0], group[1])
    }

    /// The events of a round.
    fn round(&self, round: u64) -> impl Iterator<Item = Step> {
        self.list.iter().filter(move |signal| signal.comes_in(round)).map(move |signal| signal.event(round))
    }
}

fn delay((source, target): (Signal, Signal)) -> Constraint {
    let (lower, upper) = (target.after(source) - WOBBLE, target.after(source) + WOBBLE);
    Constraint::Delay(Delay { source: source.stream, target: target.stream, lower, upper })
}

fn strong_delay((source, target): (Signal, Signal)) -> Constraint {
    let (lower, upper) = (target.after(source) - WOBBLE, target.after(source) + WOBBLE);
    Constraint::StrongDelay(StrongDelay { source: source.stream, target: target.stream, lower, upper })
}

fn order((source, target): (Signal, Signal)) -> Constraint {
    Constraint::Order(Order { source: source.stream, target: target.stream })
}

/// The kinds of a list of signals, and from the first to the last of them.
fn kinds_and_tolerance(signals: &[Signal]) -> (Vec<u8>, u64) {
    let kinds = signals.iter().map(|signal| signal.stream).collect();
    (kinds, signals[signals.len() - 1].after(signals[0]) + WOBBLE)
}

fn strong_synchronization(signals: &[Signal]) -> Constraint {
    let (kinds, tolerance) = kinds_and_tolerance(signals);
    Constraint::StrongSynchronization(StrongSynchronization { kinds, tolerance })
}

fn synchronization(signals: &[Signal]) -> Constraint {
    let (kinds, tolerance) = kinds_and_tolerance(signals);
    Constraint::Synchronization(Synchronization { kinds, tolerance })
}

/// An execution from a start to a stop, with a pause.
fn execution_time(start: Signal, (preempt, resume): (Signal, Signal), stop: Signal) -> Constraint {
    let running = stop.after(start) - resume.after(preempt);
    Constraint::ExecutionTime(ExecutionTime {
        start: start.stream,
        stop: stop.stream,
        preempt: preempt.stream,
        resume: resume.stream,
        lower: running.saturating_sub(2 * WOBBLE),
        upper: running + 2 * WOBBLE,
    })
}

fn repeat(event: Signal, span: u8) -> Constraint {
    let length = u64::from(span) * PERIOD;
    Constraint::Repeat(Repeat { event: event.stream, span, lower: length - WOBBLE, upper: length + WOBBLE })
}

fn burst(event: Signal, maximum: u8) -> Constraint {
    let length = u64::from(maximum) * PERIOD - WOBBLE;
    Constraint::Burst(Burst { event: event.stream, maximum, length, minimum: PERIOD - WOBBLE })
}

/// Points in a rhythm, or with room for a few times more or less, or with no limit above.
fn sporadic(event: Signal, upper: u64) -> Constraint {
    let lower = if upper == PERIOD { PERIOD } else { PERIOD - 3 };
    Constraint::Sporadic(Sporadic { event: event.stream, lower, upper, jitter: WOBBLE, minimum: PERIOD - WOBBLE })
}

/// Points in a rhythm, a number of places apart.
fn repetition(event: Signal, span: u8) -> Constraint {
    let length = u64::from(span) * PERIOD;
    Constraint::Repetition(Repetition { event: event.stream, span, lower: length, upper: length, jitter: WOBBLE })
}

/// The lags, spans, maxima and uppers of the rows of one type.
const LAGS: [u64; 5] = [0, 4, 16, 40, 60];
const SPANS: [u8; 5] = [1, 2, 8, 32, 64];
const MAXIMA: [u8; 3] = [1, 16, 64];
const UPPERS: [u64; 4] = [PERIOD, PERIOD + 3, 2 * PERIOD, NO_LIMIT];

/// A table with the signals of its rows.
pub struct Table {
    pub rows: Vec<Constraint>,
    signals: Signals,
}

impl Table {
    /// This many events of the signals, round by round.
    pub fn drive(&self, events: usize) -> Vec<Step> {
        (0..).flat_map(|round| self.signals.round(round)).take(events).collect()
    }

    /// How many events come before as many wait as can.
    pub fn before_full(&self) -> usize {
        (0..WAITING).map(|round| self.signals.round(round).count()).sum()
    }
}

/// Each row has its own kinds, except that a Burst or a Sporadic shares a Repeat's, and the ExecutionTime's start is a
/// Sporadic's event: an event concerns one row, or two. All plain kinds are used, and all colours of the Reaction's. A
/// full table has 64 sources or groups waiting in each row in which they can, but between a target and the next source.
pub fn sparse(full: bool) -> Table {
    let mut signals = Signals { full, ..Signals::default() };
    let mut rows: Vec<Constraint> = LAGS.iter().map(|lag| delay(signals.pair(*lag))).collect();
    rows.extend(LAGS.map(|lag| strong_delay(signals.pair(lag))));
    rows.extend(LAGS[..2].iter().map(|lag| order(signals.pair(*lag))));
    let repeated = SPANS.map(|span| (signals.next(0), span));
    rows.extend(repeated.map(|(event, span)| repeat(event, span)));
    rows.extend(repeated.iter().zip(MAXIMA).map(|((event, _), maximum)| burst(*event, maximum)));
    let rhythms = [repeated[4].0, signals.next(0), signals.next(0), signals.next(0)];
    rows.extend(rhythms.iter().zip(UPPERS).map(|(event, upper)| sporadic(*event, upper)));
    rows.extend(LAGS.into_iter().zip([1, 1, 2, 1, 2]).map(|(lag, n)| strong_synchronization(&signals.group(n, lag))));
    let [preempt, resume, stop] = [0; 3].map(|lag| signals.next(lag));
    rows.push(execution_time(rhythms[3], (preempt, resume), stop));
    rows.push(repetition(signals.next(0), 8));
    rows.push(signals.chain(4));
    Table { rows, signals }
}

/// Nearly all rows share two kinds, of which an event concerns 24 rows or 25. An execution and a run through a chain,
/// which need their own kinds, come once in a number of rounds. Full as the sparse one is.
pub fn dense(full: bool) -> Table {
    let mut signals = Signals { full, ..Signals::default() };
    let pair = signals.pair(40);
    let either = |place: usize| if place.is_multiple_of(2) { pair.0 } else { pair.1 };
    let mut rows = vec![delay(pair); 5];
    rows.extend(vec![strong_delay(pair); 5]);
    rows.extend(vec![order(pair); 4]);
    rows.extend(vec![strong_synchronization(&[pair.0, pair.1]); 5]);
    rows.extend(SPANS[1..].iter().enumerate().map(|(place, span)| repeat(either(place), *span)));
    rows.extend(MAXIMA.iter().enumerate().map(|(place, maximum)| burst(either(place), *maximum)));
    rows.extend(UPPERS[..3].iter().enumerate().map(|(place, upper)| sporadic(either(place + 1), *upper)));
    rows.push(repetition(pair.0, 8));
    signals.every = Some(RARELY);
    let [start, preempt, resume, stop] = [0; 4].map(|lag| signals.next(lag));
    rows.push(execution_time(start, (preempt, resume), stop));
    rows.push(signals.chain(1));
    Table { rows, signals }
}

/// Synchronizations alone, over all plain kinds: pairs, and above them groups of three or four. An event concerns one row or two.
pub fn sparse_synchronizations() -> Table {
    let mut signals = Signals::default();
    let list: Vec<Signal> = (0..FIRST_COLOURED).map(|_| signals.next(0)).collect();
    let mut rows: Vec<Constraint> = list.chunks(2).map(synchronization).collect();
    rows.extend(list.chunks(6).enumerate().map(|(place, six)| synchronization(&six[..3 + place % 2])));
    Table { rows, signals }
}

/// Synchronizations alone, of the first two, three or all of four kinds: an event concerns 10, 21 or 32 rows.
pub fn dense_synchronizations() -> Table {
    let mut signals = Signals::default();
    let four = [0; 4].map(|lag| signals.next(lag));
    let rows = (0..32).map(|place| synchronization(&four[..2 + place % 3])).collect();
    Table { rows, signals }
}

/// How many coloured kinds are stimuli, and as many are responses.
const CHAINS: u8 = 8;

/// The signals of chains that stay open: in two colours stimuli, again and again; in two others responses, again and again, if it is
/// so asked with stimuli before them, once.
fn chains(signals: &mut Signals, with_stimuli: bool) {
    let mut add = |first: u8, colours: [u8; 2], every: Option<u64>| {
        signals.every = every;
        let kinds = first..first + CHAINS;
        kinds.flat_map(|kind| colours.map(|colour| stream(kind, colour))).for_each(|one| _ = signals.of_stream(one, 0));
    };
    add(FIRST_COLOURED, [0, 1], None);
    if with_stimuli {
        add(FIRST_COLOURED, [4, 5], Some(u64::MAX));
    }
    add(FIRST_COLOURED + CHAINS, [4, 5], None);
}

/// The stimulus or the response of a row in this place.
fn chain_kind(place: usize, response: bool) -> u8 {
    FIRST_COLOURED + (place % usize::from(CHAINS)) as u8 + if response { CHAINS } else { 0 }
}

/// Two to four such kinds.
fn chain_kinds(place: usize, response: bool) -> Vec<u8> {
    (place..place + 2 + place % 3).map(|place| chain_kind(place, response)).collect()
}

/// Events at the multiples of a period, one to eight of them.
fn multiples(place: usize) -> impl Iterator<Item = u64> {
    (1..=1 + place as u64 % 8).map(|number| number * PERIOD)
}

/// 32 rows of one type alone. Those of types 1 to 10 are over the same kinds, and each event concerns all of them. An event of a chain
/// of types 12 to 14 concerns four rows or up to 15, one of the later types one row or none.
///
/// # Panics
/// Where the type is none of these.
pub fn alone(type_byte: u8) -> Table {
    if type_byte <= 10 { alike(type_byte) } else { apart(type_byte) }
}

/// Rows of types 1 to 10, over the same kinds.
fn alike(type_byte: u8) -> Table {
    let mut signals = Signals::default();
    let rows: Vec<Constraint> = match type_byte {
        1 => vec![delay(signals.pair(40))],
        2 => vec![strong_delay(signals.pair(40))],
        3 => with_each(signals.next(0), &SPANS[1..], repeat),
        4 => with_each(signals.next(0), &UPPERS, sporadic),
        5 => with_each(signals.next(0), &MAXIMA, burst),
        6 => vec![order(signals.pair(40))],
        7 => vec![strong_synchronization(&signals.group(1, 40))],
        8 => {
            let [start, preempt, resume, stop] = [0; 4].map(|lag| signals.next(lag));
            vec![execution_time(start, (preempt, resume), stop)]
        }
        9 => vec![signals.chain(4)],
        10 => vec![repetition(signals.next(0), 8)],
        _ => panic!("no load of type {type_byte} alone"),
    };
    Table { rows: rows.into_iter().cycle().take(32).collect(), signals }
}

/// A row of the signal with each of the values.
fn with_each<T: Copy>(event: Signal, values: &[T], row: impl Fn(Signal, T) -> Constraint) -> Vec<Constraint> {
    values.iter().map(|value| row(event, *value)).collect()
}

/// Rows of types 12 to 17, over kinds apart.
fn apart(type_byte: u8) -> Table {
    let mut signals = Signals::default();
    match type_byte {
        12 | 14 => chains(&mut signals, true),
        13 => chains(&mut signals, false),
        _ => (0..32).for_each(|_| _ = signals.next(0)),
    }
    let (minimum, far) = (PERIOD - WOBBLE, LAST_TIME / 2);
    let row = |place: usize| -> Constraint {
        let event = place as u8;
        let (stimulus, response) = (chain_kind(place, false), chain_kind(place + place / 8, true));
        match type_byte {
            12 => Age { stimulus, response, minimum: APART, maximum: far }.into(),
            13 => OutputSynchronization { stimulus, responses: chain_kinds(place, true), tolerance: PERIOD }.into(),
            14 => InputSynchronization { stimuli: chain_kinds(place, false), response, tolerance: PERIOD }.into(),
            15 => {
                let offsets: Vec<u64> = multiples(place).map(|time| time - PERIOD).collect();
                Pattern { event, period: offsets.len() as u64 * PERIOD, jitter: WOBBLE, minimum, offsets }.into()
            }
            16 => {
                let pairs = multiples(place).map(|time| (time - WOBBLE, time + WOBBLE)).collect();
                Arbitrary { event, pairs }.into()
            }
            17 => Comparison { operator: 1, left: place as u64, right: PERIOD }.into(),
            _ => panic!("no load of type {type_byte} alone"),
        }
    };
    Table { rows: (0..32).map(row).collect(), signals }
}
