//! Two recordings joined: the exported function beside the model.
//! Clauses: §8.16, §8.20, §13.1 to §13.8.

use checks::contract::{blocks, text};
use checks::places::example;
use checks::reports::report_in;
use delkuthi::REPORT_LIMIT;
use model::join::{Input, JoinRefusal, join, joined_steps};
use model::notation::steps;
use model::random::{Random, damage};
use model::types::Delay;
use model::{Constraint, LAST_TIME, Refusal, Step, recording_bytes, table_bytes};
use std::collections::HashSet;
use std::fs;

/// What stands in a lent buffer before the call, so that a byte that is written is seen.
const BEFORE: u8 = 0xA5;

/// The library's answer, as the model gives it, in a buffer of this size. Bytes that are not written stay.
fn library(first: &[u8], second: &[u8], room: usize) -> Result<Vec<u8>, JoinRefusal> {
    let mut buffer = vec![BEFORE; room];
    match delkuthi::join(first, second, &mut buffer) {
        Ok(length) => {
            assert!(buffer[length..].iter().all(|&byte| byte == BEFORE), "bytes behind the joined recording");
            buffer.truncate(length);
            Ok(buffer)
        }
        Err(refused) => {
            assert!(buffer.iter().all(|&byte| byte == BEFORE), "a refused join wrote");
            let input = refused.input().map(|input| match input {
                delkuthi::Input::First => Input::First,
                delkuthi::Input::Second => Input::Second,
            });
            let place = usize::try_from(refused.refusal().place().expect("a place")).expect("a place in memory");
            Err(JoinRefusal { input, refusal: Refusal { number: refused.refusal().number(), place } })
        }
    }
}

/// The recording of some steps, in a version that has their colours or a higher one.
fn recording(random: &mut Random, steps: &[Step]) -> Vec<u8> {
    let mut bytes = recording_bytes(steps);
    if random.chance(30) {
        bytes[0] = 2;
    }
    bytes
}

/// Steps in order, of kinds that the other recording has or not.
fn random_steps(random: &mut Random, kinds: &[u8]) -> Vec<Step> {
    let mut taken = model::Monitor::fresh(&[]).expect("no rows");
    let mut time = random.below(3);
    for _ in 0..random.below(9) {
        let step = match *random.pick(kinds) {
            _ if random.chance(35) => Step::Tick { time },
            kind if kind < 48 => Step::Event { kind, time },
            kind => Step::Coloured { kind, colour: random.below(3) as u8, time },
        };
        let _ = taken.step(step);
        time += *random.pick(&[0, 0, 1, 1, 2]);
    }
    taken.steps().to_vec()
}

#[test]
fn random_pairs() {
    let mut random = Random::new(801);
    let mut seen = HashSet::new();
    for _ in 0..60_000 {
        let one = random_steps(&mut random, &[0, 2, 48, 50]);
        let kinds = if random.chance(80) { [1, 3, 49] } else { [1, 2, 50] };
        let two = random_steps(&mut random, &kinds);
        let (mut first, mut second) = (recording(&mut random, &one), recording(&mut random, &two));
        for bytes in [&mut first, &mut second] {
            if random.chance(6) {
                damage(&mut random, bytes);
            }
        }
        let most = first.len() + second.len();
        let room = if random.chance(80) { most } else { random.below(most as u64 + 1) as usize };
        let expected = join(&first, &second, room);
        assert_eq!(library(&first, &second, room), expected, "{one:?} {two:?} {first:?} {second:?} {room}");
        match expected {
            Err(refused) => {
                seen.insert((refused.input, refused.refusal.number));
            }
            Ok(bytes) => {
                let all = joined_steps(&one, &two).len();
                let sort = if all < one.len() + two.len() { 101 } else { 100 };
                seen.insert((None, sort));
                seen.insert((None, 110 + bytes[0] + if first[0] == second[0] { 0 } else { 10 }));
            }
        }
    }
    for number in [9, 10, 11, 13, 14, 19] {
        for input in [Input::First, Input::Second] {
            assert!(seen.contains(&(Some(input), number)), "{number} was not seen at {input:?}");
        }
    }
    assert!(seen.contains(&(Some(Input::Second), 20)) && !seen.contains(&(Some(Input::First), 20)));
    // 16, all records left, a tick fell away, version 1, version 2, different versions
    for number in [16, 100, 101, 111, 112, 122] {
        assert!(seen.contains(&(None, number)), "{number} was not seen");
    }
    assert!(seen.iter().all(|&(_, number)| number != 8 && number != 12 && number != 17));
}

/// The ticks that are dropped, counted: none of the first, and of the second the ticks at a time of which the first has a record.
#[test]
fn ticks_that_fall_away() {
    let mut random = Random::new(802);
    let mut fallen = 0;
    for _ in 0..20_000 {
        let one = random_steps(&mut random, &[0, 2]);
        let two = random_steps(&mut random, &[1, 3]);
        let time = |step: &Step| match *step {
            Step::Event { time, .. } | Step::Coloured { time, .. } | Step::Tick { time } => time,
            Step::Close => unreachable!(),
        };
        let times: HashSet<u64> = one.iter().map(time).collect();
        let falls = two.iter().filter(|step| matches!(step, Step::Tick { .. }) && times.contains(&time(step))).count();
        let (first, second) = (recording_bytes(&one), recording_bytes(&two));
        let joined = library(&first, &second, 1000).expect("a join");
        assert_eq!(joined.len(), first.len() + second.len() - 1 - 10 * falls);
        fallen += falls;
    }
    assert!(fallen > 1000, "{fallen}");
}

/// The refusal that the contract's line says: its number, the recording and the place.
fn refusal(said: &str) -> Option<JoinRefusal> {
    let mut parts = said.strip_prefix("refused ")?.split(", ");
    let number = parts.next()?.parse().expect("a number");
    let input = match parts.next() {
        None => None,
        Some("first") => Some(Input::First),
        Some("second") => Some(Input::Second),
        Some(other) => panic!("{other}"),
    };
    let place =
        parts.next().map_or(0, |place| place.strip_prefix("place ").expect("a place").parse().expect("a number"));
    Some(JoinRefusal { input, refusal: Refusal { number, place } })
}

/// The examples of section 13 of the contract.
#[test]
fn the_contract_s_examples() {
    let list = |text: &str| if text == "nothing" { Vec::new() } else { steps(text) };
    let mut said = 0;
    for line in blocks(&text(), "join").concat() {
        let (inputs, expected) = line.split_once(" = ").expect("an answer");
        let (one, two) = inputs.split_once(" + ").expect("two recordings");
        let (first, second) = (recording_bytes(&list(one)), recording_bytes(&list(two)));
        match refusal(expected) {
            Some(refused) => assert_eq!(library(&first, &second, 1000), Err(refused), "{line}"),
            None => {
                let bytes = library(&first, &second, 1000).expect("a join");
                assert_eq!(bytes[0], first[0].max(second[0]), "{line}");
                assert_eq!(bytes[1..], recording_bytes(&list(expected))[1..], "{line}");
            }
        }
        said += 1;
    }
    assert!(said >= 10, "{said}");
}

#[test]
fn questions_in_their_order() {
    let (one, two) = (recording_bytes(&steps("0@10")), recording_bytes(&steps("0@10, 0@10")));
    let at = |input, number, place| Err(JoinRefusal { input, refusal: Refusal { number, place } });
    // the first is asked before the second, its version before all else
    assert_eq!(library(&one[..11], &[9], 0), at(Some(Input::First), 14, 1));
    assert_eq!(library(&[], &[9], 0), at(Some(Input::First), 13, 0));
    assert_eq!(library(&one, &[], 0), at(Some(Input::Second), 13, 0));
    // the whole of the second before 20, and 20 before 16
    assert_eq!(library(&one, &two, 0), at(Some(Input::Second), 11, 12));
    assert_eq!(library(&one, &two[..12], 0), at(Some(Input::Second), 20, 1));
    // the buffer last: one byte too few, and just enough
    let three = recording_bytes(&steps("1@10"));
    assert_eq!(library(&one, &three, 22), at(None, 16, 0));
    assert_eq!(library(&one, &three, 0), at(None, 16, 0));
    assert_eq!(library(&one, &three, 23).map(|bytes| bytes.len()), Ok(23));
    assert_eq!(library(&one, &three, 24).map(|bytes| bytes.len()), Ok(23));
    assert_eq!(library(&[1], &[2], 1), Ok(vec![2]));
}

/// Many records, the last time, and 70 sources that would wait in a row: 12 is not asked.
#[test]
fn long_recordings() {
    let one: Vec<Step> = (1..=4000).map(|time| Step::Event { kind: 0, time }).collect();
    let mut two: Vec<Step> = (1..=4000).map(|time| Step::Tick { time: 2 * time }).collect();
    two.push(Step::Event { kind: 1, time: LAST_TIME });
    let (first, second) = (recording_bytes(&one), recording_bytes(&two));
    let room = first.len() + second.len();
    let expected = join(&first, &second, room).expect("a join");
    assert_eq!(expected.len(), room - 1 - 10 * 2000);
    assert_eq!(library(&first, &second, room), Ok(expected));
}

/// The files of `examples/join`: two recordings, their join, and its report. To write them again after a change here:
/// `JOIN=write cargo test --test join`.
#[test]
fn the_example() {
    let ms = 1_000;
    let (button, light, chime) = (0, 1, 2);
    let rows = [
        Constraint::Delay(Delay { source: button, target: light, lower: 0, upper: 50 * ms }),
        Constraint::Delay(Delay { source: button, target: chime, lower: 0, upper: 20 * ms }),
    ];
    let event = |kind, time| Step::Event { kind, time };
    let bus = recording_bytes(&[
        event(light, 40 * ms),
        event(chime, 60 * ms),
        Step::Tick { time: 100 * ms },
        event(light, 150 * ms),
        event(chime, 150 * ms),
        Step::Tick { time: 200 * ms },
    ]);
    let pressed = recording_bytes(&[
        event(button, 10 * ms),
        Step::Tick { time: 100 * ms },
        event(button, 130 * ms),
        Step::Tick { time: 190 * ms },
    ]);
    let joined = library(&bus, &pressed, bus.len() + pressed.len()).expect("a join");
    assert_eq!(joined.len(), bus.len() + pressed.len() - 1 - 10, "one tick is dropped");
    let report = report_in(&table_bytes(&rows), &joined, REPORT_LIMIT).expect("a report");
    assert_eq!(report, b"closed 10\n0 kept\n1 broken 2\n");
    let files = [
        ("table.bin", table_bytes(&rows)),
        ("bus.bin", bus),
        ("button.bin", pressed),
        ("joined.bin", joined),
        ("report.txt", report),
    ];
    for (name, bytes) in files {
        let path = example(&format!("join/{name}"));
        if std::env::var_os("JOIN").is_some() {
            fs::write(&path, &bytes).expect("examples/join can be written");
        }
        assert_eq!(fs::read(&path).ok(), Some(bytes), "{name}");
    }
}
