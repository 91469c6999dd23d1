//! Vectors from the contract: each recording of its examples, each file and each page, with the clause that they stand under. Where the
//! contract says what is read or printed, the model has to say the same.

use crate::vector::Vector;
use model::contract::{Asked, Block, WRITES_ROOM, every_block, example, file, page, rows_back, takes, writes};
use model::notation::steps;
use model::types::{delay, reaction, repeat, strong_delay};
use model::{Constraint, NO_LIMIT, Step, edition_of, page_text, recording_bytes, report_text, table_bytes};

/// The room of a page or a report: as much as one may need.
pub const ROOM: usize = 4_096;

/// The vectors of the contract.
pub fn vectors(text: &str) -> Vec<Vector> {
    every_block(text).iter().flat_map(block_vectors).collect()
}

fn block_vectors(block: &Block) -> Vec<Vector> {
    let mut made = match block.sort {
        "example" => example_vectors(block),
        "file" => vec![file_vector(block)],
        "page" => vec![page_vector(block)],
        "cause" | "oldest" => example_vectors(block),
        "take" => block.lines.iter().map(|line| take_vector(line)).collect(),
        "row" => block.lines.iter().map(|line| row_vector(line)).collect(),
        "write" => block.lines.iter().map(|line| write_vector(line)).collect(),
        "stamps" => block.lines.iter().map(|line| stamps_vector(line)).collect(),
        "join" => block.lines.iter().map(|line| join_vector(line)).collect(),
        "stretch" => block.lines.iter().map(|line| stretch_vector(line)).collect(),
        sort => panic!("the kit does not know the examples of the contract called {sort}"),
    };
    for vector in &mut made {
        let clause = block.clause.clone().unwrap_or_default();
        vector.source = format!("contract, {}", if clause.is_empty() { "opening" } else { clause.as_str() });
        vector.shows(format!("example {clause}"));
    }
    made
}

fn example_vectors(block: &Block) -> Vec<Vector> {
    let example = example(&block.lines);
    example
        .recordings
        .iter()
        .map(|recording| played(&example.rows, recording.iter().map(|(asked, _)| *asked)))
        .collect()
}

/// A vector of steps and withdrawals over rows, with the page before the close and after, and reports.
pub fn played(rows: &[Constraint], calls: impl Iterator<Item = Asked>) -> Vector {
    let mut vector = Vector::new("");
    let mut model = model::Monitor::fresh(rows).expect("an accepted table");
    vector.table(&table_bytes(rows));
    vector.fresh(2);
    for call in calls {
        match call {
            Asked::Step(step) => {
                vector.step(step);
                let _ = model.step(step);
            }
            Asked::Withdraw => {
                vector.withdraw();
                let _ = model.withdraw();
            }
            Asked::WithdrawStep(step) => {
                vector.withdraw_step(step);
                let _ = model.withdraw_step(step);
            }
        }
    }
    let taken: Vec<Step> = model.steps().iter().copied().filter(|step| *step != Step::Close).collect();
    vector.recording(&recording_bytes(&taken));
    vector.page(ROOM);
    vector.report_of(ROOM);
    vector.report(2, ROOM);
    if edition_of(rows) == 1 {
        vector.report(1, ROOM);
    }
    vector
}

fn file_vector(block: &Block) -> Vector {
    let (table, recording, report) = file(&block.lines);
    assert_eq!(report_text(&table, &recording), report);
    let mut vector = Vector::new("");
    vector.table(&table);
    vector.recording(&recording);
    vector.fresh(2);
    vector.report(2, ROOM);
    vector.report(1, ROOM);
    vector.report_on(2, ROOM);
    vector
}

fn page_vector(block: &Block) -> Vector {
    let page = page(&block.lines);
    let mut model = model::Monitor::fresh(&page.rows).expect("an accepted table");
    page.steps.iter().for_each(|step| model.step(*step).expect("a step that is taken"));
    assert_eq!(page_text(&model), page.printed);
    played(&page.rows, page.steps.iter().copied().map(Asked::Step))
}

/// "0@10, 0@9 = refused 11, place 12; tick 14 = taken: broken 2".
fn take_vector(line: &str) -> Vector {
    let mut vector = Vector::new("");
    vector.table(&table_bytes(&[delay(2, 3)]));
    vector.fresh(2);
    for (recording, _) in takes(line).recordings {
        vector.recording(&recording);
        vector.take();
    }
    vector
}

/// "0@10, tick 14 = 02 0009 ..".
fn write_vector(line: &str) -> Vector {
    let mut vector = Vector::new("");
    vector.recording(&[]);
    for step in writes(line).steps {
        vector.put_record(step, WRITES_ROOM);
    }
    vector
}

fn row_vector(line: &str) -> Vector {
    let back = rows_back(line);
    let mut vector = Vector::new("");
    vector.table(&back.table);
    vector.row_back(false, back.row, back.room);
    vector.fresh(2);
    vector.row_back(true, back.row, back.room);
    vector
}

fn number(word: &str) -> u64 {
    if word == "none" { NO_LIMIT } else { word.parse().unwrap_or_else(|_| panic!("no number: {word}")) }
}

/// "4 to 6: 10, 15, 20; clock 20: e 0 kept, e 2 unsure".
fn stamps_vector(line: &str) -> Vector {
    let parts = || -> Option<_> {
        let (bounds, rest) = line.split_once(": ")?;
        let (stamps, rest) = rest.split_once("; clock ")?;
        let (clock, words) = rest.split_once(": ")?;
        Some((bounds.split_once(" to ")?, stamps, number(clock), words))
    };
    let ((lower, upper), stamps, clock, words) = parts().unwrap_or_else(|| panic!("no stamps: {line}"));
    let times: Vec<u64> = if stamps == "none" { Vec::new() } else { stamps.split(", ").map(number).collect() };
    let mut records: Vec<Step> = times.iter().map(|time| Step::Event { kind: 0, time: *time }).collect();
    if clock > times.last().copied().unwrap_or(0) {
        records.push(Step::Tick { time: clock });
    }
    let mut vector = Vector::new("");
    vector.table(&table_bytes(&[repeat(1, number(lower), number(upper))]));
    vector.recording(&recording_bytes(&records));
    for word in words.split(", ") {
        let (late, _) = word.strip_prefix("e ").and_then(|rest| rest.split_once(' ')).expect("a word for an e");
        vector.stamps(1, 0, number(late));
        vector.stamps(2, 0, number(late));
    }
    vector
}

/// "0@10, tick 20 + 1@10 = ..".
fn join_vector(line: &str) -> Vector {
    let (first, rest) = line.split_once(" + ").expect("two recordings");
    let (second, _) = rest.split_once(" = ").expect("an answer");
    let bytes = |text: &str| recording_bytes(&if text == "nothing" { Vec::new() } else { steps(text) });
    let mut vector = Vector::new("");
    vector.table(&bytes(first));
    vector.recording(&bytes(second));
    vector.join(ROOM);
    vector
}

/// "Delay 2 to 3: 0@10, tick 14: from 0, length 2, tried 5".
fn stretch_vector(line: &str) -> Vector {
    let (row, rest) = line.split_once(": ").expect("a row");
    let (records, _) = rest.split_once(": ").expect("records");
    let row = match row.split(' ').collect::<Vec<&str>>()[..] {
        ["Delay", lower, "to", upper] => delay(number(lower), number(upper)),
        ["StrongDelay", lower, "to", upper] => strong_delay(number(lower), number(upper)),
        ["Reaction", lower, "to", upper] => reaction(number(lower), number(upper)),
        _ => panic!("no row of a stretch: {line}"),
    };
    let mut vector = Vector::new("");
    vector.table(&table_bytes(&[row]));
    vector.recording(&recording_bytes(&if records == "none" { Vec::new() } else { steps(records) }));
    vector.stretch(1, 0);
    vector.stretch(2, 0);
    vector
}
