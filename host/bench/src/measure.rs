//! The measurements: the library, plain Rust inlined and plain Rust behind calls in turn, on the same calls.

use crate::clock::thread_time;
use crate::line::{Line, Sort};
use crate::load::{Call, Load};
use crate::plain::{self, Called, Plain};
use delkuthi::Monitor;
use model::{Answer, Step, Verdict};
use std::hint::black_box;
use std::time::Duration;

/// What one measurement found on each.
#[derive(Clone, Copy, Debug)]
pub struct Each<T> {
    pub library: T,
    /// Plain Rust, inlined into the loop that calls it.
    pub plain: T,
    /// Plain Rust behind calls that are not inlined, as those of a library are not.
    pub called: T,
}

/// How long a line's calls took, in several runs of each in turn.
pub struct Times {
    pub number: usize,
    pub runs: Vec<Each<Duration>>,
}

/// The library's time divided by another, each run for itself.
pub struct Ratios {
    pub plain: Spread,
    pub called: Spread,
}

/// The least, the middle and the greatest of several numbers.
#[derive(Clone, Copy, Debug, PartialEq)]
pub struct Spread {
    pub least: f64,
    pub middle: f64,
    pub greatest: f64,
}

impl Spread {
    /// Of an odd number of numbers the middle one is the median.
    pub fn of(mut numbers: Vec<f64>) -> Spread {
        numbers.sort_by(f64::total_cmp);
        Spread { least: numbers[0], middle: numbers[numbers.len() / 2], greatest: numbers[numbers.len() - 1] }
    }
}

impl Times {
    /// How many times as long the library took, each run for itself.
    pub fn ratios(&self) -> Ratios {
        let over = |side: fn(&Each<Duration>) -> Duration| {
            Spread::of(self.runs.iter().map(|run| run.library.as_secs_f64() / side(run).as_secs_f64()).collect())
        };
        Ratios { plain: over(|run| run.plain), called: over(|run| run.called) }
    }

    /// Nanoseconds of a call.
    pub fn nanoseconds(&self) -> Each<Spread> {
        let each = |time: Duration| time.as_secs_f64() * 1e9 / self.number as f64;
        let spread = |side: fn(&Each<Duration>) -> Duration| Spread::of(self.runs.iter().map(side).map(each).collect());
        Each { library: spread(|run| run.library), plain: spread(|run| run.plain), called: spread(|run| run.called) }
    }
}

/// A monitor that takes the calls of a load.
trait Played {
    fn call(&mut self, call: Call) -> Answer;
}

impl Played for Monitor {
    fn call(&mut self, call: Call) -> Answer {
        let answer = match call {
            Call::Step(Step::Event { kind, time }) => self.event(kind, time),
            Call::Step(Step::Coloured { kind, colour, time }) => self.coloured_event(kind, colour, time),
            Call::Step(Step::Tick { time }) => self.tick(time),
            Call::Step(Step::Close) => self.close(),
            Call::Withdraw => self.withdraw(),
        };
        answer.map_err(|refusal| refusal.number())
    }
}

impl Played for Plain {
    fn call(&mut self, call: Call) -> Answer {
        match call {
            Call::Step(step) => self.step(step),
            Call::Withdraw => self.withdraw(),
        }
    }
}

impl Played for Called {
    fn call(&mut self, call: Call) -> Answer {
        match call {
            Call::Step(Step::Event { kind, time }) => self.event(kind, time),
            Call::Step(Step::Coloured { kind, colour, time }) => self.coloured_event(kind, colour, time),
            Call::Step(Step::Tick { time }) => self.tick(time),
            Call::Step(Step::Close) => self.close(),
            Call::Withdraw => self.withdraw(),
        }
    }
}

/// Gives the calls to a monitor.
///
/// # Panics
/// If one is refused that is to be taken, or taken that is to be refused.
fn play(monitor: &mut impl Played, calls: &[Call], refused: bool) {
    for call in calls {
        let answer = monitor.call(*call);
        assert!(answer.is_err() == refused, "{call:?}: {answer:?}");
    }
}

/// What the rows of the library's monitor read.
fn verdicts(monitor: &Monitor) -> Vec<Verdict> {
    let as_model = |verdict| match verdict {
        delkuthi::Verdict::Open => Verdict::Open,
        delkuthi::Verdict::Kept => Verdict::Kept,
        delkuthi::Verdict::Broken(step) => Verdict::Broken(step),
    };
    monitor.verdicts().map(as_model).collect()
}

/// The monitors as they are before the calls of a load that are measured.
fn ready(load: &Load) -> (Monitor, Plain) {
    let mut library = Monitor::fresh(&load.table()).expect("an accepted table");
    let mut plain = Plain::new(&load.rows);
    play(&mut library, &load.ahead, false);
    play(&mut plain, &load.ahead, false);
    (library, plain)
}

/// Plays the load on both: the answers are the same, every row is open until the close, and the verdicts agree, before it
/// and after. The reports on the load's drive are the same too.
///
/// # Panics
/// If it is not so.
pub fn agree(load: &Load) {
    let (mut library, mut plain) = ready(load);
    for call in &load.calls {
        let answer = library.call(*call);
        assert_eq!(answer, plain.call(*call), "{}: {call:?}", load.name);
        assert_eq!(answer.is_err(), load.refused, "{}: {call:?}", load.name);
    }
    assert_eq!(verdicts(&library), vec![Verdict::Open; load.rows.len()], "{}: open until the close", load.name);
    assert_eq!(plain.verdicts(), verdicts(&library), "{}: before the close", load.name);
    play(&mut library, &[Call::Step(Step::Close)], false);
    play(&mut plain, &[Call::Step(Step::Close)], false);
    assert_eq!(plain.verdicts(), verdicts(&library), "{}: at the close", load.name);
    let (table, recording) = (load.table(), load.recording());
    let mut buffers = [[0; delkuthi::REPORT_LIMIT]; 2];
    delkuthi::report(&table, &recording, &mut buffers[0]);
    plain::report::report(&table, &recording, &mut buffers[1]);
    assert!(buffers[0] == buffers[1] && buffers[0].starts_with(b"closed "), "{}: the reports", load.name);
}

/// Has the line's calls on the library, and those on plain Rust, run by the meter: nothing else is done in it. A report is one call of either.
pub fn each<T: Copy>(line: &Line, load: &Load, meter: impl Fn(&mut dyn FnMut()) -> T) -> Each<T> {
    if line.sort == Sort::Records {
        let (table, recording) = (load.table(), load.recording());
        let mut buffer = [0; delkuthi::REPORT_LIMIT];
        let library = meter(&mut || _ = black_box(delkuthi::report(&table, &recording, &mut buffer)));
        let plain = meter(&mut || _ = black_box(plain::report::report(&table, &recording, &mut buffer)));
        return Each { library, plain, called: plain };
    }
    let (mut library, mut plain) = ready(load);
    let mut called = Called(plain.clone());
    let each = Each {
        library: meter(&mut || play(&mut library, &load.calls, load.refused)),
        plain: meter(&mut || play(&mut plain, &load.calls, load.refused)),
        called: meter(&mut || play(&mut called, &load.calls, load.refused)),
    };
    black_box((library, plain, called));
    each
}

/// The processor time that something takes.
fn time(act: &mut dyn FnMut()) -> Duration {
    let start = thread_time();
    act();
    thread_time() - start
}

/// Times a line of calls, on which both agree, in a number of runs.
pub fn times(line: &Line, calls: usize, runs: usize) -> Times {
    let load = line.load(calls);
    agree(&load);
    Times { number: load.number(), runs: (0..runs).map(|_| each(line, &load, time)).collect() }
}
