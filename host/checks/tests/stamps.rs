//! Stamps known within a range: the exported function beside the model, which tries every choice of true times.
//! Clauses: §8.25, §12.1 to §12.6.

use checks::contract::{blocks, text};
use checks::refusals;
use checks::reports::report_in;
use delkuthi::REPORT_LIMIT;
use model::random::Random;
use model::types::{Delay, Reaction, Repeat};
use model::{Constraint, LAST_TIME, NO_LIMIT, Refusal, Stamped, Stamps, Step, recording_bytes, stamped, table_bytes};
use std::collections::HashSet;

/// The library's answer, as the model gives it.
fn library(table: &[u8], recording: &[u8], row: u64, late: u64) -> Result<Stamped, Refusal> {
    let word = |word| match word {
        delkuthi::Stamped::Kept => Stamped::Kept,
        delkuthi::Stamped::Broken => Stamped::Broken,
        delkuthi::Stamped::Unsure => Stamped::Unsure,
    };
    delkuthi::stamped(table, recording, row, late).map(word).map_err(refusals::refusal)
}

/// What else a recording has beside the row's events.
#[derive(Clone, Copy, Debug, PartialEq)]
enum Others {
    None,
    /// A coloured event at each stamp, so that the recording is of version 2.
    Coloured,
}

/// A table of one Repeat of span 1, and a recording of its stamps up to a clock.
fn files(stamps: &Stamps, others: Others) -> (Vec<u8>, Vec<u8>) {
    let row = Constraint::Repeat(Repeat { event: 0, span: 1, lower: stamps.lower, upper: stamps.upper });
    let coloured = |time| (others == Others::Coloured).then_some(Step::Coloured { kind: 48, colour: 1, time });
    let at = |&time: &u64| [Step::Event { kind: 0, time }].into_iter().chain(coloured(time));
    let mut steps: Vec<Step> = stamps.stamps.iter().flat_map(at).collect();
    if stamps.clock > stamps.stamps.last().copied().unwrap_or(0) {
        steps.push(Step::Tick { time: stamps.clock });
    }
    (table_bytes(&[row]), recording_bytes(&steps))
}

/// The library's word, which events of other kinds do not change.
fn word(stamps: &Stamps) -> Stamped {
    let [word, beside_colours] = [Others::None, Others::Coloured].map(|others| {
        let (table, recording) = files(stamps, others);
        library(&table, &recording, 0, stamps.late).expect("a word")
    });
    assert_eq!(word, beside_colours, "{stamps:?}");
    word
}

fn random_stamps(random: &mut Random, most: u64, gap: u64, late: u64) -> Stamps {
    let lower = random.below(gap);
    let upper = if random.chance(15) { NO_LIMIT } else { lower + random.below(gap) };
    let mut time = random.below(gap + 1);
    let mut stamps = Vec::new();
    for _ in 0..random.below(most + 1) {
        stamps.push(time);
        time += 1 + random.below(gap + 1);
    }
    let clock = stamps.last().copied().unwrap_or(0) + if random.chance(50) { 0 } else { random.below(gap) };
    Stamps { lower, upper, stamps, clock, late: random.below(late + 1) }
}

#[test]
fn small_ones_by_every_choice() {
    let mut random = Random::new(1301);
    let mut seen = HashSet::new();
    for _ in 0..40_000 {
        let stamps = random_stamps(&mut random, 5, 4, 5);
        let expected = stamps.word_by_choices();
        assert_eq!(stamps.word(), expected, "{stamps:?}");
        assert_eq!(word(&stamps), expected, "{stamps:?}");
        seen.insert((expected, stamps.late > 0, stamps.upper == NO_LIMIT));
    }
    assert!(seen.len() >= 7, "{seen:?}");
    assert!(seen.iter().all(|(word, late, _)| *late || *word != Stamped::Unsure), "unsure with e = 0");
}

#[test]
fn larger_ones_by_differences() {
    let mut random = Random::new(1302);
    let mut seen = [0; 3];
    for _ in 0..3_000 {
        let near = random.chance(50);
        let stamps = random_stamps(&mut random, 24, if near { 12 } else { 1 << 40 }, if near { 9 } else { 1 << 39 });
        let expected = stamps.word();
        assert_eq!(word(&stamps), expected, "{stamps:?}");
        seen[expected as usize] += 1;
    }
    assert!(seen.iter().all(|&times| times > 20), "{seen:?}");
}

#[test]
fn never_late_is_the_report() {
    let mut random = Random::new(1303);
    for _ in 0..3_000 {
        let stamps = Stamps { late: 0, ..random_stamps(&mut random, 8, 6, 0) };
        let (table, recording) = files(&stamps, *random.pick(&[Others::None, Others::Coloured]));
        let report = report_in(&table, &recording, REPORT_LIMIT).expect("a report");
        let kept = report.ends_with(b"0 kept\n");
        assert_eq!(word(&stamps), if kept { Stamped::Kept } else { Stamped::Broken }, "{stamps:?}");
    }
}

/// Every refusal that the call has, 12 never among them, and the ends of the range.
#[test]
fn refusals_in_their_order() {
    let mut random = Random::new(1304);
    let mut seen = HashSet::new();
    let rows = [
        Constraint::Delay(Delay { source: 0, target: 1, lower: 0, upper: NO_LIMIT }),
        Constraint::Repeat(Repeat { event: 0, span: 2, lower: 1, upper: 3 }),
        Constraint::Repeat(Repeat { event: 0, span: 1, lower: 1, upper: 3 }),
        Constraint::Reaction(Reaction { stimulus: 48, response: 49, minimum: 1, maximum: 3 }),
    ];
    // 70 sources wait in row 0: 12 for a monitor, and nothing here
    let steps: Vec<Step> = (1..=70).map(|time| Step::Event { kind: 0, time }).collect();
    let (table, recording) = (table_bytes(&rows), recording_bytes(&steps));
    assert_eq!(library(&table, &recording, 2, 0), Ok(Stamped::Kept));
    assert_eq!(library(&table, &recording, 2, LAST_TIME), Ok(Stamped::Kept));
    for (row, late, number) in [
        (4, u64::MAX, 15),
        (u64::MAX, 0, 15),
        (32, 0, 15),
        (0, u64::MAX, 25),
        (1, 0, 25),
        (3, 0, 25),
        (2, LAST_TIME + 1, 10),
    ] {
        assert_eq!(library(&table, &recording, row, late), Err(Refusal { number, place: 0 }), "row {row}, e {late}");
    }
    for _ in 0..60_000 {
        let steps: Vec<Step> = (0..random.below(6))
            .map(|_| match random.below(12) {
                0 => Step::Event { kind: 64, time: 5 },
                1 => Step::Tick { time: LAST_TIME + 1 },
                2..4 => Step::Tick { time: random.below(20) },
                4..6 => {
                    let (kind, colour) = (random.from_to(46, 50) as u8, random.below(9) as u8);
                    Step::Coloured { kind, colour, time: random.below(20) }
                }
                _ => Step::Event { kind: random.below(2) as u8, time: random.below(20) },
            })
            .collect();
        let (table, recording) = refusals::files(&mut random, &rows, &steps);
        let row = random.below(6);
        let late = *random.pick(&[0, 1, 3, LAST_TIME, LAST_TIME + 1]);
        let expected = stamped(&table, &recording, row, late);
        assert_eq!(library(&table, &recording, row, late), expected, "{table:?} {recording:?} {row} {late}");
        seen.insert(expected.map_or_else(|refusal| refusal.number, |word| 100 + word as u8));
    }
    refusals::demand(&seen, &[1, 2, 4, 5, 6, 7, 9, 10, 11, 13, 14, 15, 18, 19, 25, 100, 101, 102]);
}

/// The examples of section 12 of the contract.
#[test]
fn the_contract_s_examples() {
    let mut said = 0;
    for line in blocks(&text(), "stamps").concat() {
        let (bounds, rest) = line.split_once(": ").expect("bounds");
        let (lower, upper) = bounds.split_once(" to ").expect("bounds");
        let (list, rest) = rest.split_once("; clock ").expect("stamps");
        let (clock, words) = rest.split_once(": ").expect("a clock");
        let number = |word: &str| if word == "none" { NO_LIMIT } else { word.parse().expect("a number") };
        let list = if list == "none" { Vec::new() } else { list.split(", ").map(number).collect() };
        for told in words.split(", ") {
            let (late, expected) = told.strip_prefix("e ").expect("e").split_once(' ').expect("a word");
            let stamps = Stamps {
                lower: number(lower),
                upper: number(upper),
                stamps: list.clone(),
                clock: number(clock),
                late: number(late),
            };
            assert_eq!(format!("{:?}", word(&stamps)).to_lowercase(), expected, "{line}");
            assert_eq!(stamps.word_by_choices(), stamps.word(), "{line}");
            said += 1;
        }
    }
    assert!(said >= 25, "{said} examples");
}
