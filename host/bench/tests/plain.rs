//! The plain monitor is held to the model too: a benchmark beside a wrong one would say nothing.

use bench::plain::{LAST_EDITION, LAST_TYPE, Plain};
use model::random::Random;
use model::random::calls::{Play, calls};
use model::random::one_row;
use model::random::seen::Seen;
use model::random::tables::any_table_in;
use model::types::{Burst, Delay, Repeat, Repetition, StrongDelay, StrongSynchronization, Synchronization};
use model::{Answer, Constraint, Monitor, Step, Verdict};

#[test]
fn lists_of_calls_beside_the_model() {
    let mut random = Random::new(601);
    let mut seen = Seen::default();
    for _ in 0..3_000 {
        let rows = any_table_in(LAST_EDITION, &mut random);
        let mut plain = Plain::new(&rows);
        let mut play = Play::new(random.fork(), &rows, 150);
        while let Some((call, answer)) = play.call() {
            assert_eq!(seen.answer(plain.step(call)), answer, "{call}, {rows:?}");
            assert_eq!(plain.verdicts(), play.monitor().verdicts(), "{call}, {rows:?}");
            if answer.is_ok() {
                seen.silence(play.monitor());
            }
            rows.iter().zip(plain.verdicts()).for_each(|(row, verdict)| seen.verdict(row, verdict));
        }
        assert_eq!(plain.count(), play.monitor().recorded().count());
    }
    seen.demand_refusals((8..=12).chain([19]));
    seen.demand_verdicts_of(1..=LAST_TYPE);
    seen.demand_silences();
}

/// The model of a monitor that can withdraw: the model over the accepted steps that are left.
struct Left {
    monitor: Monitor,
    may: bool,
}

impl Left {
    fn new(rows: &[Constraint]) -> Left {
        Left { monitor: Monitor::fresh(rows).expect("an accepted table"), may: false }
    }

    fn step(&mut self, step: Step) -> Answer {
        self.monitor.step(step)?;
        self.may = true;
        Ok(())
    }

    /// Strikes the last step out, and replays the others.
    fn withdraw(&mut self) -> Answer {
        let Some((_, left)) = self.monitor.steps().split_last().filter(|_| self.may) else { return Err(21) };
        let mut monitor = Monitor::fresh(self.monitor.rows()).expect("an accepted table");
        left.iter().for_each(|step| assert_eq!(monitor.step(*step), Ok(())));
        *self = Left { monitor, may: false };
        Ok(())
    }
}

/// A plain monitor and the model of one that can withdraw.
struct Beside {
    plain: Plain,
    left: Left,
}

impl Beside {
    fn new(rows: &[Constraint]) -> Beside {
        Beside { plain: Plain::new(rows), left: Left::new(rows) }
    }

    fn step(&mut self, step: Step) -> Answer {
        let answer = self.plain.step(step);
        assert_eq!(answer, self.left.step(step), "{step}, {:?}", self.left.monitor);
        self.alike();
        answer
    }

    fn withdraw(&mut self) -> Answer {
        let answer = self.plain.withdraw();
        assert_eq!(answer, self.left.withdraw(), "withdraw, {:?}", self.left.monitor);
        self.alike();
        answer
    }

    fn alike(&self) {
        let Beside { plain, left } = self;
        assert_eq!(plain.verdicts(), left.monitor.verdicts(), "{:?}", left.monitor);
        let rows = 0..left.monitor.rows().len();
        rows.for_each(|row| assert_eq!(plain.cause(row), left.monitor.row_cause(row), "{:?}", left.monitor));
        assert_eq!(plain.count(), left.monitor.recorded().count());
    }

    /// Gives the calls to both, with withdrawals as a third of all calls; some withdrawn steps are then given again.
    fn play(&mut self, random: &mut Random, calls: Vec<Step>, seen: &mut Withdrawals) {
        let mut coming = calls;
        coming.reverse();
        while !coming.is_empty() {
            if !random.chance(33) {
                let answer = coming.pop().map_or(Ok(()), |call| self.step(call));
                let _ = seen.refusals.answer(answer);
                continue;
            }
            let (last, before) = (self.left.monitor.steps().last().copied(), self.plain.verdicts());
            if let (Ok(()), Some(step)) = (seen.refusals.answer(self.withdraw()), last) {
                seen.count(step, before != self.plain.verdicts());
                coming.extend(random.chance(70).then_some(step));
            }
        }
    }
}

/// What was withdrawn, by the sort of step, and how often a verdict went back by that; refusals, 21 among them.
#[derive(Default)]
struct Withdrawals {
    steps: [u64; 4],
    verdicts: u64,
    refusals: Seen,
}

impl Withdrawals {
    fn count(&mut self, step: Step, verdicts_went_back: bool) {
        let sort = match step {
            Step::Event { .. } => 0,
            Step::Coloured { .. } => 1,
            Step::Tick { .. } => 2,
            Step::Close => 3,
        };
        self.steps[sort] += 1;
        self.verdicts += u64::from(verdicts_went_back);
    }
}

#[test]
fn lists_with_withdrawals_beside_the_model() {
    let mut random = Random::new(603);
    let mut seen = Withdrawals::default();
    for _ in 0..400 {
        let rows = any_table_in(LAST_EDITION, &mut random);
        let mut beside = Beside::new(&rows);
        let list = calls(&mut random, &rows, 60);
        beside.play(&mut random, list, &mut seen);
        rows.iter().zip(beside.plain.verdicts()).for_each(|(row, verdict)| seen.refusals.verdict(row, verdict));
    }
    seen.refusals.demand_refusals((8..=11).chain([19, 21]));
    assert!(seen.steps.iter().all(|times| *times > 50) && seen.verdicts > 200, "{:?}, {}", seen.steps, seen.verdicts);
}

/// Rows that keep many times: what a step takes away of them comes back, also in a ring that is full.
#[test]
fn long_rows_with_withdrawals() {
    let rows = [
        Constraint::Repeat(Repeat { event: 0, span: 64, lower: 128, upper: 130 }),
        Constraint::Burst(Burst { event: 0, maximum: 64, length: 128, minimum: 1 }),
        Constraint::Repetition(Repetition { event: 0, span: 8, lower: 16, upper: 17, jitter: 1 }),
        Constraint::Delay(Delay { source: 0, target: 1, lower: 80, upper: 500 }),
        Constraint::StrongDelay(StrongDelay { source: 0, target: 1, lower: 0, upper: 500 }),
        Constraint::StrongSynchronization(StrongSynchronization { kinds: vec![0, 1], tolerance: 500 }),
        Constraint::Synchronization(Synchronization { kinds: vec![0, 1], tolerance: 90 }),
    ];
    let mut random = Random::new(604);
    for _ in 0..8 {
        let early = random.from_to(150, 190);
        let event = |i| {
            let source = Step::Event { kind: 0, time: 2 * i - u64::from(i == early) };
            let target = (i > 40).then_some(Step::Event { kind: 1, time: 2 * i + 1 });
            [source].into_iter().chain(target)
        };
        let list: Vec<Step> = (1..200).flat_map(event).chain([Step::Close]).collect();
        let mut beside = Beside::new(&rows);
        beside.play(&mut random, list, &mut Withdrawals::default());
    }
}

/// 64 wait again after their answer was withdrawn, and one less after the last of them was.
#[test]
fn sixty_four_wait_again() {
    let mut beside = Beside::new(&[Constraint::Delay(Delay { source: 0, target: 1, lower: 0, upper: 1_000 })]);
    let source = |time| Step::Event { kind: 0, time };
    (1..=64).for_each(|time| assert_eq!(beside.step(source(time)), Ok(())));
    assert_eq!(beside.step(source(65)), Err(12));
    assert_eq!(beside.step(Step::Event { kind: 1, time: 65 }), Ok(()));
    assert_eq!(beside.withdraw(), Ok(()));
    assert_eq!(beside.withdraw(), Err(21));
    assert_eq!(beside.step(source(65)), Err(12));
    assert_eq!(beside.step(Step::Tick { time: 1_002 }), Ok(()));
    assert_eq!(beside.step(source(1_002)), Ok(()));
    assert_eq!(beside.withdraw(), Ok(()));
    let mut beside =
        Beside::new(&[Constraint::StrongDelay(StrongDelay { source: 0, target: 1, lower: 0, upper: 1_000 })]);
    (1..=64).for_each(|time| assert_eq!(beside.step(source(time)), Ok(())));
    assert_eq!(beside.withdraw(), Ok(()));
    assert_eq!((beside.step(source(64)), beside.step(source(65))), (Ok(()), Err(12)));
}

/// Rows of types 12 to 17 that stay open for long, and break in every way there is; steps are withdrawn and given again.
#[test]
fn one_row_of_each_later_type() {
    let mut random = Random::new(605);
    for type_byte in one_row::FIRST..=LAST_TYPE {
        let mut ways = one_row::SeenWays::default();
        for _ in 0..4_000 {
            let row = one_row::row(&mut random, type_byte);
            let mut beside = Beside::new(std::slice::from_ref(&row));
            let length = *random.pick(&[1, 2, 4, 8, 16, 30]);
            while beside.left.monitor.verdict(0) == Ok(Verdict::Open) && beside.plain.count() < length + 10 {
                let before = beside.left.monitor.recorded().clone();
                let step = one_row::next_step(&mut random, &row, &before, before.count() >= length);
                assert_eq!(beside.step(step), Ok(()));
                if random.chance(15) {
                    assert_eq!((beside.withdraw(), beside.step(step)), (Ok(()), Ok(())));
                }
                if matches!(beside.left.monitor.verdict(0), Ok(Verdict::Broken(_))) {
                    ways.way(&row, &before, step);
                }
            }
            let _ = beside.step(Step::Close);
        }
        if type_byte != 16 {
            ways.demand_all(type_byte);
        }
    }
}
