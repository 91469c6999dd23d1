//! Lists of calls through the exports, beside the model after every call.
//! Clauses: §1.1 to §1.7, §1.9, §2.1 to §2.6, §3.1 to §3.9, §5.1 to §5.10, §6.1 to §6.5, §8.8 to §8.12, §8.15, §8.19,
//! §8.24, §9.1, §9.2, §9.5, §9.6, §11.2 to §11.4.

use checks::beside::{Beside, counting_from, fresh, take, take_all, verdict};
use delkuthi::{Monitor, WORDS};
use model::random::Random;
use model::random::calls::calls;
use model::random::seen::Seen;
use model::random::tables::{any_table, damaged_table, table};
use model::types::{Delay, Order, Reaction, Repeat, StrongSynchronization};
use model::{Constraint, EARLIER_LAST_TIME, LAST_COUNT, LAST_TIME, Step, Verdict, read_table, table_bytes};

#[test]
fn thousands_of_lists() {
    let mut random = Random::new(101);
    let mut seen = Seen::default();
    for _ in 0..3_000 {
        let rows = any_table(&mut random);
        let number = 60 + random.place(140);
        Beside::new(&mut random, &rows, number).play(&mut seen);
    }
    seen.demand_refusals((8..=12).chain([19]));
    seen.demand_refusals(15..=15);
    seen.demand_verdicts();
    seen.demand_silences();
}

/// Lists of calls that run into the end of the count, from places before it.
#[test]
fn lists_at_the_end_of_the_count() {
    let mut random = Random::new(111);
    let mut seen = Seen::default();
    for _ in 0..2_000 {
        let rows = any_table(&mut random);
        let count = LAST_COUNT - random.below(60);
        Beside::counting_from(&mut random, &rows, 80, count).play(&mut seen);
    }
    seen.demand_refusals((8..=11).chain([19, 24]));
    seen.demand_verdicts();
}

/// The step that makes the count 2^64 − 1 is taken, and nothing after it, the close neither; 8 stands before 24.
#[test]
fn the_end_of_the_count() {
    let rows = [Constraint::Delay(Delay { source: 0, target: 1, lower: 2, upper: 3 })];
    let mut monitor = counting_from(&rows, LAST_COUNT - 2);
    let mut closed = monitor.clone();
    assert_eq!((monitor.event(0, 10), monitor.tick(14)), (Ok(()), Ok(())));
    assert_eq!(verdict(&monitor, 0), Ok(Verdict::Broken(LAST_COUNT)));
    let before = monitor.clone();
    for call in ["tick 15", "close", "1@15", "64@5", "48@5", "0/9@5", "0@1152921504606846976", "tick 3", "0@3"] {
        assert_eq!(take(&mut monitor, call.parse().expect("a step")), Err(24), "{call}");
    }
    assert!(monitor == before);
    assert_eq!((closed.event(1, 10), closed.close()), (Ok(()), Ok(())));
    for call in ["tick 15", "close", "64@5", "0@1152921504606846976"] {
        assert_eq!(take(&mut closed, call.parse().expect("a step")), Err(8), "{call}");
    }
    assert_eq!(verdict(&closed, 0), Ok(Verdict::Kept));
}

#[test]
fn long_lists() {
    let mut random = Random::new(102);
    let mut seen = Seen::default();
    for _ in 0..12 {
        let number = 1 + random.place(4);
        let rows = table(&mut random, number);
        Beside::new(&mut random, &rows, 1_500).play(&mut seen);
    }
    seen.demand_refusals((8..=11).chain([19]));
}

/// A list of calls is at its monitor's place only: others' calls in between change nothing.
#[test]
fn several_monitors_interleaved() {
    let mut random = Random::new(103);
    let mut seen = Seen::default();
    for _ in 0..60 {
        let list = |random: &mut Random| {
            let rows = any_table(random);
            Beside::new(random, &rows, 80)
        };
        let mut playing: Vec<Beside> = (0..7).map(|_| list(&mut random)).collect();
        while !playing.is_empty() {
            let place = random.place(playing.len());
            if !playing[place].call(&mut seen) {
                playing.swap_remove(place);
            }
        }
    }
    seen.demand_refusals((8..=12).chain([19]));
    seen.demand_verdicts();
}

#[test]
fn two_threads_each_its_own() {
    let lists = |seed| {
        let mut random = Random::new(seed);
        let mut seen = Seen::default();
        for _ in 0..300 {
            let rows = any_table(&mut random);
            Beside::new(&mut random, &rows, 100).play(&mut seen);
        }
        seen.demand_refusals((8..=12).chain([19]));
    };
    let threads = [104, 105].map(|seed| std::thread::spawn(move || lists(seed)));
    assert!(threads.into_iter().all(|thread| thread.join().is_ok()));
}

/// A copy of a monitor is an independent monitor, and continues as the first one would have.
#[test]
fn a_copy_goes_its_own_way() {
    let mut random = Random::new(106);
    for _ in 0..200 {
        let rows = any_table(&mut random);
        let list = calls(&mut random, &rows, 60);
        let mut monitor = fresh(&rows);
        let (before, after) = list.split_at(random.place(list.len()));
        take_all(&mut monitor, before);
        let mut copy = Monitor::from_words(*monitor.words());
        assert_eq!(take_all(&mut copy, after), take_all(&mut monitor, after));
        assert_eq!(copy, monitor);
    }
}

/// What a fresh monitor answers to a table's bytes, and that a refusal leaves the memory as it was.
#[test]
fn fresh_from_damaged_tables() {
    let mut random = Random::new(107);
    let mut seen = Seen::default();
    let mut monitor = Monitor::from_words([0; WORDS]);
    for _ in 0..20_000 {
        let bytes = damaged_table(&mut random);
        let before = monitor.clone();
        let answer = monitor.restart(&bytes).map_err(|refusal| (refusal.number(), refusal.place()));
        let expected = read_table(&bytes).map_err(|refusal| (refusal.number, Some(refusal.place as u64)));
        assert_eq!(answer, expected.as_ref().map(|_| ()).map_err(|refusal| *refusal), "{bytes:02x?}");
        match expected {
            Ok(rows) => assert_eq!(monitor.rows(), rows.len()),
            Err((number, _)) => {
                seen.refusal(number);
                assert!(monitor == before, "a refusal changed the memory");
            }
        }
    }
    seen.demand_refusals((1..=7).chain([18]));
}

/// What the memory held before has no say in what a fresh monitor is.
#[test]
fn fresh_in_used_memory() {
    let mut random = Random::new(108);
    for _ in 0..500 {
        let bytes = table_bytes(&any_table(&mut random));
        let mut used = Monitor::from_words(std::array::from_fn(|_| random.number()));
        used.restart(&bytes).expect("an accepted table");
        assert!(used == Monitor::fresh(&bytes).expect("an accepted table"));
    }
}

/// Memory that no calls produced, in four sorts: any bits, few bits, all bits, and a monitor with some words changed.
fn any_memory(random: &mut Random) -> Monitor {
    let words = match random.below(4) {
        0 => std::array::from_fn(|_| random.number()),
        1 => std::array::from_fn(|_| random.number() >> random.below(64)),
        2 => [*random.pick(&[u64::MAX, 1 << 63, LAST_TIME, 1]); WORDS],
        _ => changed_memory(random),
    };
    Monitor::from_words(words)
}

/// The memory of a monitor in use, with some words changed.
fn changed_memory(random: &mut Random) -> [u64; WORDS] {
    let rows = any_table(random);
    let mut monitor = fresh(&rows);
    take_all(&mut monitor, &calls(random, &rows, 50));
    let mut words = *monitor.words();
    for _ in 0..random.from_to(1, 200) {
        // the last words are the monitor's own, the others the rows'
        let place = if random.chance(20) { WORDS - 1 - random.place(80) } else { random.place(WORDS) };
        words[place] = *random.pick(&[0, 1, 64, 65, u64::MAX, random.clone().number()]);
    }
    words
}

/// A monitor with memory around it that is not the library's to touch.
#[repr(C)]
struct Fenced {
    before: [u64; 64],
    monitor: Monitor,
    after: [u64; 64],
}

#[test]
fn any_memory_is_safe() {
    let mut random = Random::new(109);
    let list: Vec<Step> = calls(&mut random, &table(&mut Random::new(110), 32), 400);
    for _ in 0..1_000 {
        let mut fenced = Fenced { before: [7; 64], monitor: any_memory(&mut random), after: [7; 64] };
        for _ in 0..40 {
            let call = *random.pick(&list);
            let _ = take(&mut fenced.monitor, call);
            let row = *random.pick(&[0, 1, 31, 32, 33, usize::MAX]);
            let _ = (verdict(&fenced.monitor, row), fenced.monitor.rows());
        }
        assert!(fenced.before == [7; 64] && fenced.after == [7; 64]);
    }
}

/// Every time and kind at and beyond the ends of their ranges, in a row, on one monitor.
#[test]
fn the_ends_of_the_ranges() {
    let rows = [
        Constraint::Delay(Delay { source: 0, target: 47, lower: LAST_TIME, upper: LAST_TIME }),
        Constraint::Reaction(Reaction { stimulus: 48, response: 63, minimum: LAST_TIME, maximum: LAST_TIME }),
    ];
    let mut monitor = fresh(&rows);
    let mut model = model::Monitor::fresh(&rows).expect("an accepted table");
    let earlier = [EARLIER_LAST_TIME, EARLIER_LAST_TIME + 1];
    let times = [0, 1, earlier[0], earlier[1], LAST_TIME - 1, LAST_TIME, LAST_TIME + 1, 1 << 63, u64::MAX];
    for time in times {
        for kind in [0, 1, 46, 47, 48, 62, 63, 64, 128, 255] {
            let colours = [0, 7, 8, 255].map(|colour| Step::Coloured { kind, colour, time });
            for call in [Step::Event { kind, time }].into_iter().chain(colours) {
                assert_eq!(take(&mut monitor, call), model.step(call), "{call}");
            }
        }
        let call = Step::Tick { time };
        assert_eq!(take(&mut monitor, call), model.step(call), "{call}");
        assert_eq!((verdict(&monitor, 0), verdict(&monitor, 1)), (model.verdict(0), model.verdict(1)));
    }
}

/// The order of 9, 19, 10 and 11, and each way in which a form does not suit its kind.
#[test]
fn forms_of_events() {
    let mut monitor = fresh(&[]);
    let too_late = LAST_TIME + 1;
    let expected = [
        ("64/9@0".to_string(), Err(9)),
        ("64@0".to_string(), Err(9)),
        (format!("48@{too_late}"), Err(19)),
        ("0/0@5".to_string(), Err(19)),
        ("47/7@5".to_string(), Err(19)),
        (format!("48/8@{too_late}"), Err(19)),
        (format!("48/7@{too_late}"), Err(10)),
        ("48/7@5".to_string(), Ok(())),
        ("48/7@5".to_string(), Err(11)),
        ("48/6@5".to_string(), Ok(())),
        ("49/7@5".to_string(), Ok(())),
        ("48/7@4".to_string(), Err(11)),
        ("48@5".to_string(), Err(19)),
        ("0@5".to_string(), Ok(())),
    ];
    for (call, answer) in expected {
        assert_eq!(take(&mut monitor, call.parse().expect("a step")), answer, "{call}");
    }
}

/// Each way in which a row has a kind of the wrong sort, by the reader, fresh and the writer, and what is asked before.
#[test]
fn sorts_of_kinds() {
    let delay = |source, target, lower, upper| Constraint::Delay(Delay { source, target, lower, upper });
    let reaction =
        |stimulus, response, minimum, maximum| Constraint::Reaction(Reaction { stimulus, response, minimum, maximum });
    let expected = [
        (delay(48, 1, 0, 0), 18),
        (delay(0, 63, 2, 1), 18),
        (delay(48, 48, 2, 1), 5),
        (Constraint::Order(Order { source: 47, target: 48 }), 18),
        (Constraint::Repeat(Repeat { event: 48, span: 0, lower: 0, upper: 0 }), 18),
        (Constraint::StrongSynchronization(StrongSynchronization { kinds: vec![0, 1, 2, 48], tolerance: 0 }), 18),
        (reaction(0, 49, 4, 6), 18),
        (reaction(48, 47, 6, 4), 18),
        (reaction(48, 48, 4, 6), 5),
        (reaction(48, 64, 4, 6), 5),
        (reaction(48, 49, 6, u64::MAX), 6),
        (reaction(48, 49, 6, 4), 7),
    ];
    for (row, number) in expected {
        let refusal = delkuthi::Monitor::fresh(&model::table_bytes(std::slice::from_ref(&row))).expect_err("a refusal");
        assert_eq!((refusal.number(), refusal.place()), (number, Some(1)), "{row:?}");
        assert_eq!(checks::rows::write(std::slice::from_ref(&row), &mut [0; 64]), Err(number), "{row:?}");
    }
}
