//! A monitor of the library beside the model: the same calls, and everything compared after each.

use crate::words::untouched;
use delkuthi::{Monitor, Recording, WORDS};
use model::random::Random;
use model::random::calls::Play;
use model::random::seen::Seen;
use model::{Answer, Constraint, Step, Verdict, table_bytes};

/// The library's fresh monitor over rows that are accepted.
///
/// # Panics
/// If they are refused.
pub fn fresh(rows: &[Constraint]) -> Monitor {
    Monitor::fresh(&table_bytes(rows)).unwrap_or_else(|refusal| panic!("{refusal}: {rows:?}"))
}

/// The place of the count among the words of a monitor: the word that counts the first ticks.
fn place_of_count() -> usize {
    let mut monitor = fresh(&[]);
    let mut words = vec![*monitor.words()];
    for time in [10, 20, 30] {
        monitor.tick(time).expect("a tick in order");
        words.push(*monitor.words());
    }
    let counts = |place: &usize| words.iter().zip(0..).all(|(words, count)| words[*place] == count);
    let found: Vec<usize> = (0..WORDS).filter(counts).collect();
    assert_eq!(found.len(), 1, "words that count: {found:?}");
    found[0]
}

/// A fresh monitor with a step count to start from: no test can take as many steps as the count allows.
pub fn counting_from(rows: &[Constraint], count: u64) -> Monitor {
    let mut words = *fresh(rows).words();
    words[place_of_count()] = count;
    Monitor::from_words(words)
}

/// Gives a call to the library's monitor.
pub fn take(monitor: &mut Monitor, call: Step) -> Answer {
    let answer = match call {
        Step::Event { kind, time } => monitor.event(kind, time),
        Step::Coloured { kind, colour, time } => monitor.coloured_event(kind, colour, time),
        Step::Tick { time } => monitor.tick(time),
        Step::Close => monitor.close(),
    };
    answer.map_err(|refusal| refusal.number())
}

/// Writes a step with the library's writer of recordings.
///
/// # Panics
/// If it is the close, which has no record.
pub fn put(recording: &mut Recording, step: Step) -> Answer {
    let answer = match step {
        Step::Event { kind, time } => recording.event(kind, time),
        Step::Coloured { kind, colour, time } => recording.coloured_event(kind, colour, time),
        Step::Tick { time } => recording.tick(time),
        Step::Close => panic!("a close has no record"),
    };
    answer.map_err(|refusal| refusal.number())
}

/// Gives calls to the library's monitor, one after the other, and gives its answers.
pub fn take_all(monitor: &mut Monitor, calls: &[Step]) -> Vec<Answer> {
    calls.iter().map(|call| take(monitor, *call)).collect()
}

/// A row's verdict as the model has it.
pub fn verdict(monitor: &Monitor, row: usize) -> Result<Verdict, u8> {
    match monitor.verdict(row) {
        Ok(delkuthi::Verdict::Open) => Ok(Verdict::Open),
        Ok(delkuthi::Verdict::Kept) => Ok(Verdict::Kept),
        Ok(delkuthi::Verdict::Broken(step)) => Ok(Verdict::Broken(step)),
        Err(refusal) => Err(refusal.number()),
    }
}

/// A random list of calls, played by the library's monitor and by the model.
pub struct Beside {
    play: Play,
    monitor: Monitor,
}

impl Beside {
    /// A list of this many calls from a fresh monitor over an accepted table.
    pub fn new(random: &mut Random, rows: &[Constraint], calls: usize) -> Beside {
        let beside = Beside { play: Play::new(random.fork(), rows, calls), monitor: fresh(rows) };
        beside.compare("fresh", &mut Seen::default());
        beside
    }

    /// The same, with a step count to start from.
    pub fn counting_from(random: &mut Random, rows: &[Constraint], calls: usize, count: u64) -> Beside {
        let play = Play::counting_from(random.fork(), rows, calls, count);
        Beside { play, monitor: counting_from(rows, count) }
    }

    /// Makes the next call, if there is one: the answer must be the model's, and so must all verdicts after it. A
    /// refused call must leave every bit of the monitor as it was.
    pub fn call(&mut self, seen: &mut Seen) -> bool {
        let Some((call, expected)) = self.play.call() else { return false };
        let before = self.monitor.clone();
        let answer = seen.answer(take(&mut self.monitor, call));
        assert_eq!(answer, expected, "{}", self.told(&call.to_string()));
        if answer.is_err() {
            untouched(&before, &self.monitor, &call.to_string());
        }
        self.compare(&call.to_string(), seen);
        if answer.is_ok() {
            seen.silence(self.play.monitor());
        }
        true
    }

    /// Makes all calls that are left.
    pub fn play(mut self, seen: &mut Seen) {
        while self.call(seen) {}
    }

    /// The number of rows and the verdicts are the model's, and there is no row behind the last.
    fn compare(&self, call: &str, seen: &mut Seen) {
        let rows = self.play.monitor().rows();
        assert_eq!(self.monitor.rows(), rows.len(), "the number of rows");
        for (number, (row, expected)) in rows.iter().zip(self.play.monitor().verdicts()).enumerate() {
            let verdict = seen.answer(verdict(&self.monitor, number));
            assert_eq!(verdict, Ok(expected), "row {number}, {}", self.told(call));
            seen.verdict(row, expected);
        }
        for behind in [rows.len(), rows.len() + 1, 32, 33, 64, 1 << 32, usize::MAX] {
            assert_eq!(seen.answer(verdict(&self.monitor, behind)), Err(15), "row {behind} of {}", rows.len());
        }
    }

    /// The call, the steps so far and the table, for a test that fails.
    fn told(&self, call: &str) -> String {
        let steps: Vec<String> = self.play.monitor().steps().iter().map(ToString::to_string).collect();
        format!("at {call}, accepted so far: {}, over {:?}", steps.join(", "), self.play.monitor().rows())
    }
}
