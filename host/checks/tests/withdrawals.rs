//! Lists of calls in which steps are withdrawn, beside the model that removes them and takes the rest again. Clauses:
//! §3.12 to §3.15, §8.21, §9.2.

use checks::beside::{counting_from, fresh, take, take_all, verdict};
use checks::words::{Differing, differing, full_after, untouched, withdrawn};
use delkuthi::Monitor;
use model::random::Random;
use model::random::calls::calls;
use model::random::seen::Seen;
use model::random::tables::{any_table, table};
use model::types::{Delay, Reaction, Repeat, StrongDelay, strong_synchronization};
use model::{Answer, Constraint, LAST_COUNT, Step, Verdict};

fn withdraw(monitor: &mut Monitor) -> Answer {
    monitor.withdraw().map_err(|refusal| refusal.number())
}

/// What the lists of a test have come across.
#[derive(Default)]
struct Found {
    seen: Seen,
    differing: Differing,
    /// How many closes were withdrawn.
    closes: usize,
}

/// A monitor of the library beside the model, both with a step count to start from.
struct Beside<'a> {
    rows: &'a [Constraint],
    count: u64,
    monitor: Monitor,
    /// The monitor before the last step, while that can be withdrawn.
    last: Option<Monitor>,
    model: model::Monitor,
}

impl<'a> Beside<'a> {
    fn new(rows: &'a [Constraint], count: u64) -> Beside<'a> {
        let model = model::Monitor::counting_from(rows, count).expect("an accepted table");
        Beside { rows, count, monitor: counting_from(rows, count), last: None, model }
    }

    /// Takes a step, or withdraws the last one where there is none to take, and compares: the answer, the verdicts, and word for
    /// word the memory of a monitor that took only the steps that are left. A refusal changes no word at all.
    fn ask(&mut self, request: Option<Step>, found: &mut Found) {
        let before = self.monitor.clone();
        let closed = self.model.steps().last() == Some(&Step::Close);
        let what = request.map_or("withdraw".into(), |step| step.to_string());
        let (answer, expected) = match request {
            Some(step) => (take(&mut self.monitor, step), self.model.step(step)),
            None => (withdraw(&mut self.monitor), self.model.withdraw()),
        };
        assert_eq!(answer, expected, "{what} after {:?}", self.model.steps());
        match found.seen.answer(answer) {
            Err(_) => untouched(&before, &self.monitor, &what),
            Ok(()) => {
                found.closes += usize::from(closed);
                self.compare_words(before, request, &what);
            }
        }
        for (row, expected) in self.model.verdicts().into_iter().enumerate() {
            assert_eq!(verdict(&self.monitor, row), Ok(expected), "row {row} after {what}");
            found.seen.verdict(&self.rows[row], expected);
        }
        let mut left = counting_from(self.rows, self.count);
        assert!(take_all(&mut left, self.model.steps()).iter().all(Answer::is_ok));
        found.differing.compare(&self.monitor, &left, &what);
    }

    /// The words after a step or a withdrawal that was taken: a withdrawal puts back exactly those before the step that do not say
    /// what may be withdrawn.
    fn compare_words(&mut self, before: Monitor, request: Option<Step>, what: &str) {
        if let Some(step) = request {
            let event = matches!(step, Step::Event { .. } | Step::Coloured { .. });
            full_after(&before, &self.monitor, event);
            self.last = Some(before);
        } else {
            let last = self.last.take().expect("a step that can be withdrawn");
            let places = differing(&withdrawn(&last, &before), &self.monitor);
            assert!(places.is_empty(), "other words after {what}: {places:?}");
        }
    }
}

/// Plays this many random calls, and about half as many withdrawals between them.
fn play(random: &mut Random, rows: &[Constraint], number: usize, count: u64, found: &mut Found) {
    let mut beside = Beside::new(rows, count);
    for call in calls(random, rows, number) {
        let request = if random.below(3) == 0 { None } else { Some(call) };
        beside.ask(request, found);
    }
}

#[test]
fn thousands_of_lists() {
    let mut random = Random::new(121);
    let mut found = Found::default();
    for _ in 0..1_500 {
        let rows = any_table(&mut random);
        let number = 60 + random.place(60);
        play(&mut random, &rows, number, 0, &mut found);
    }
    found.seen.demand_refusals((8..=11).chain([19, 21]));
    found.seen.demand_verdicts();
    found.differing.demand_all();
    assert!(found.closes > 0);
}

#[test]
fn long_lists() {
    let mut random = Random::new(122);
    let mut found = Found::default();
    for _ in 0..8 {
        let number = 1 + random.place(4);
        let rows = table(&mut random, number);
        play(&mut random, &rows, 500, 0, &mut found);
    }
    found.seen.demand_refusals([11, 21]);
}

/// Lists that run into the end of the count, and come back from it.
#[test]
fn at_the_end_of_the_count() {
    let mut random = Random::new(123);
    let mut found = Found::default();
    for _ in 0..300 {
        let rows = any_table(&mut random);
        let count = LAST_COUNT - random.below(20);
        play(&mut random, &rows, 60, count, &mut found);
    }
    found.seen.demand_refusals((8..=11).chain([19, 21, 24]));
}

/// Rows in which something waits, with the kinds 0 to 3 at most, and far from being due.
fn waiting_rows() -> Vec<Constraint> {
    vec![
        Constraint::Delay(Delay { source: 0, target: 1, lower: 0, upper: 5_000 }),
        Constraint::Delay(Delay { source: 0, target: 1, lower: 60, upper: 5_000 }),
        Constraint::StrongDelay(StrongDelay { source: 0, target: 1, lower: 0, upper: 5_000 }),
        strong_synchronization(2, 5_000),
        strong_synchronization(3, 5_000),
        strong_synchronization(4, 5_000),
    ]
}

/// A request where 64 or nearly 64 wait: a source mostly, another kind, a tick, or a withdrawal.
fn near_the_limit(random: &mut Random, clock: u64) -> Option<Step> {
    let time = clock + random.below(2);
    match random.below(10) {
        0..=3 => Some(Step::Event { kind: 0, time: clock + 1 }),
        4..=5 => Some(Step::Event { kind: 1 + random.below(3) as u8, time }),
        6 => Some(Step::Tick { time }),
        _ => None,
    }
}

/// Rows in which 64 wait, among others: steps refused with 12, answers taken and withdrawn, and sources that find room again.
#[test]
fn where_sixty_four_wait() {
    let mut random = Random::new(124);
    let mut found = Found::default();
    for waiting in waiting_rows() {
        for _ in 0..6 {
            let mut rows = table(&mut random, 2);
            rows.insert(random.place(3), waiting.clone());
            let mut beside = Beside::new(&rows, 0);
            let sources = (1..=62).map(|time| Step::Event { kind: 0, time });
            sources.for_each(|source| beside.ask(Some(source), &mut found));
            for _ in 0..60 {
                let request = near_the_limit(&mut random, beside.model.recorded().clock());
                beside.ask(request, &mut found);
            }
        }
        assert!(found.seen.refusals(12) > 5, "{waiting:?}");
        found.seen = Seen::default();
    }
}

/// Plays a list in words: a call, or "withdraw".
fn answers(monitor: &mut Monitor, list: &str) -> Vec<u8> {
    let one = |word: &str| match word {
        "withdraw" => withdraw(monitor),
        call => take(monitor, call.parse().expect("a call")),
    };
    list.split(", ").map(one).map(|answer| answer.err().unwrap_or(0)).collect()
}

#[test]
fn the_examples() {
    let delay = Constraint::Delay(Delay { source: 0, target: 1, lower: 2, upper: 3 });
    let wide = Constraint::Delay(Delay { source: 0, target: 1, lower: 0, upper: 1000 });
    let repeat = Constraint::Repeat(Repeat { event: 0, span: 1, lower: 4, upper: 4 });
    let reaction = Constraint::Reaction(Reaction { stimulus: 48, response: 49, minimum: 4, maximum: 6 });
    let check = |row: &Constraint, list: &str, expected: &[u8], reads: Verdict| {
        let mut monitor = fresh(std::slice::from_ref(row));
        assert_eq!(answers(&mut monitor, list), expected, "{list}");
        assert_eq!(verdict(&monitor, 0), Ok(reads), "{list}");
    };
    check(&delay, "withdraw", &[21], Verdict::Open);
    check(&delay, "0@10, tick 14", &[0, 0], Verdict::Broken(2));
    check(&delay, "0@10, tick 14, withdraw, tick 13", &[0; 4], Verdict::Open);
    check(&delay, "0@10, tick 14, withdraw, tick 13, tick 14", &[0; 5], Verdict::Broken(3));
    check(&delay, "0@10, 1@12, withdraw, withdraw", &[0, 0, 0, 21], Verdict::Open);
    check(&delay, "0@10, withdraw, 0@10", &[0; 3], Verdict::Open);
    check(&delay, "0@10, close, withdraw, 1@12, close", &[0; 5], Verdict::Kept);
    check(&delay, "0@10, 0@10, withdraw, withdraw", &[0, 11, 0, 21], Verdict::Open);
    check(&delay, "0@10, 1@12, withdraw, 0@9, withdraw", &[0, 0, 0, 11, 21], Verdict::Open);
    check(&delay, "close, 0@1, withdraw, 0@1", &[0, 8, 0, 0], Verdict::Open);
    check(&repeat, "0@0, 0@4, withdraw, 0@5", &[0; 4], Verdict::Broken(2));
    check(&reaction, "48/1@10, 49/1@15, withdraw, tick 16, 49/1@16, close", &[0; 6], Verdict::Kept);
    let mut full = fresh(std::slice::from_ref(&wide));
    for time in 1..=64 {
        assert_eq!(full.event(0, time), Ok(()));
    }
    assert_eq!(answers(&mut full, "1@65, withdraw, 0@65"), [0, 0, 12]);
}
