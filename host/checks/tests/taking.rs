//! Records taken on a running monitor, steps withdrawn by their numbers, and records written, beside the model. Clauses: §3.17, §7.24,
//! §7.26, §8.26, §9.2.

use checks::beside::{counting_from, fresh, put, take, verdict};
use checks::refusals::refusal;
use checks::words::untouched;
use delkuthi::{Monitor, Recording, WORDS};
use model::random::Random;
use model::random::calls::calls;
use model::random::recordings::{damaged_recording, recording, refused_recording};
use model::random::seen::Seen;
use model::random::tables::any_table;
use model::recording::{put_record, read_record};
use model::{Constraint, LAST_COUNT, NO_LIMIT, Step, recording_bytes};

/// A monitor of the library beside the model.
struct Beside {
    monitor: Monitor,
    model: model::Monitor,
}

impl Beside {
    fn new(rows: &[Constraint]) -> Beside {
        Beside { monitor: fresh(rows), model: model::Monitor::fresh(rows).expect("an accepted table") }
    }

    /// Takes a recording and compares: the answer with its place, the verdicts, and word for word the memory of a monitor that took the
    /// records one by one.
    fn take(&mut self, recording: &[u8], seen: &mut Seen) {
        let by_steps = one_by_one(&self.monitor, recording);
        let answer = self.model.take(recording).err();
        assert_eq!(self.monitor.take(recording).err().map(refusal), answer, "{recording:02x?}");
        untouched(&by_steps, &self.monitor, "records taken one by one");
        answer.into_iter().for_each(|refusal| seen.refusal(refusal.number));
        self.compare();
    }

    /// Withdraws a step by its number. A refusal changes no word.
    fn withdraw(&mut self, step: u64, seen: &mut Seen) {
        let mut expected = self.monitor.clone();
        let answer = self.model.withdraw_step(step);
        if answer.is_ok() {
            expected.withdraw().expect("a step that may be withdrawn");
        }
        assert_eq!(self.monitor.withdraw_step(step).map_err(|refusal| refusal.number()), answer, "step {step}");
        untouched(&expected, &self.monitor, "a withdrawal by number");
        answer.err().into_iter().for_each(|number| seen.refusal(number));
        self.compare();
    }

    fn compare(&self) {
        assert_eq!((self.monitor.steps(), self.monitor.clock()), (self.model.count(), self.model.clock()));
        for (row, expected) in self.model.verdicts().into_iter().enumerate() {
            assert_eq!(verdict(&self.monitor, row), Ok(expected), "row {row} after {:?}", self.model.steps());
        }
    }
}

/// The monitor after the records up to the first that is refused, each given by its own call.
fn one_by_one(monitor: &Monitor, recording: &[u8]) -> Monitor {
    let mut left = monitor.clone();
    let known = matches!(recording.first(), Some(1 | 2));
    let mut place = 1;
    while known && place < recording.len() {
        let Ok((step, size)) = read_record(recording[0], &recording[place..]) else { return left };
        if take(&mut left, step).is_err() {
            return left;
        }
        place += size;
    }
    left
}

/// A recording for a monitor whose clock stands at a time: calls with their times moved on.
fn later(random: &mut Random, rows: &[Constraint], clock: u64) -> Vec<u8> {
    let number = random.place(12);
    let moved = |step| match step {
        Step::Event { kind, time } => Step::Event { kind, time: time + clock },
        Step::Coloured { kind, colour, time } => Step::Coloured { kind, colour, time: time + clock },
        Step::Tick { time } => Step::Tick { time: time + clock },
        Step::Close => Step::Close,
    };
    recording_bytes(&calls(random, rows, number).into_iter().map(moved).collect::<Vec<Step>>())
}

/// Thousands of recordings in parts, whole, damaged and refused, with withdrawals by number and now and then a close between them.
#[test]
fn thousands_of_parts() {
    let mut random = Random::new(301);
    let mut seen = Seen::default();
    for _ in 0..600 {
        let rows = any_table(&mut random);
        let mut beside = Beside::new(&rows);
        for _ in 0..8 {
            let part = match random.below(5) {
                0 => recording(&mut random, &rows, 12),
                1 => damaged_recording(&mut random, &rows, 8),
                2 => refused_recording(&mut random, &rows, 12),
                _ => later(&mut random, &rows, beside.model.clock().min(1 << 40)),
            };
            beside.take(&part, &mut seen);
            let near = (beside.model.count() + 2).saturating_sub(random.below(5));
            beside.withdraw(if random.chance(4) { random.number() } else { near }, &mut seen);
            if random.chance(4) {
                assert_eq!(take(&mut beside.monitor, Step::Close), beside.model.step(Step::Close));
            }
        }
    }
    seen.demand_refusals((8..=11).chain([13, 14, 19, 21, 26]));
}

/// At the end of the count a record is refused with 24, and the last step has the last number.
#[test]
fn at_the_end_of_the_count() {
    let mut monitor = counting_from(&[], LAST_COUNT - 1);
    let ticks = recording_bytes(&[Step::Tick { time: 5 }, Step::Tick { time: 6 }]);
    let refused = monitor.take(&ticks).expect_err("a step beyond the last");
    assert_eq!((refused.number(), refused.place(), monitor.steps()), (24, Some(11), LAST_COUNT));
    assert_eq!(monitor.withdraw_step(0).map_err(|refusal| refusal.number()), Err(26));
    assert_eq!(monitor.withdraw_step(NO_LIMIT), Ok(()));
    assert_eq!((monitor.steps(), monitor.clock()), (LAST_COUNT - 1, 0));
}

/// Memory of zeros is a closed monitor: an empty recording is taken, a record is refused with 8, and nothing changes.
#[test]
fn on_zeros() {
    let mut monitor = Monitor::from_words([0; WORDS]);
    assert_eq!(monitor.take(&[1]), Ok(()));
    let refused = monitor.take(&recording_bytes(&[Step::Tick { time: 5 }])).expect_err("a closed monitor");
    assert_eq!((refused.number(), refused.place()), (8, Some(1)));
    assert_eq!(monitor.withdraw_step(0).map_err(|refusal| refusal.number()), Err(21));
    assert!(monitor.words().iter().all(|word| *word == 0));
}

/// Random records into buffers of any length that hold anything; each that is taken reads back, and no other byte changes.
#[test]
fn thousands_of_records_written() {
    let mut random = Random::new(302);
    let mut seen = Seen::default();
    for _ in 0..4_000 {
        let room = random.place(40);
        let mut modelled: Vec<u8> = (0..room).map(|_| random.below(4) as u8).collect();
        let mut buffer = modelled.clone();
        let mut size = if random.chance(60) { 0 } else { random.place(44) };
        for _ in 0..4 {
            let (kind, colour) = (random.below(70) as u8, random.below(10) as u8);
            let time = if random.chance(80) { random.below(1 << 40) } else { random.number() };
            let step = match random.below(3) {
                0 => Step::Event { kind, time },
                1 => Step::Coloured { kind, colour, time },
                _ => Step::Tick { time },
            };
            let expected = put_record(&mut modelled, size, step);
            let mut recording = Recording::continued(&mut buffer, size);
            let answer = put(&mut recording, step);
            assert_eq!(answer, expected.map(|_| ()), "{step:?} behind {size} bytes of {room}");
            if let Ok(end) = expected {
                assert_eq!(recording.bytes(), &modelled[..end]);
                let (read, length) =
                    read_record(modelled[0], &modelled[size.max(1)..end]).expect("the record that was written");
                assert_eq!((read, length), (step, end - size.max(1)));
                size = end;
            }
            assert_eq!(buffer, modelled, "{step:?} behind {size} bytes of {room}");
            answer.err().into_iter().for_each(|number| seen.refusal(number));
        }
    }
    seen.demand_refusals([9, 10, 13, 16, 19]);
}
