//! Random lists of calls with the model's answers, for a host in another language: `lists SEED NUMBER CALLS` prints a line
//! of JSON for each list, `{"table": BYTES, "calls": [[KIND, COLOUR, TIME, ANSWER, VERDICTS], ..]}`. The bytes are
//! hexadecimal. A tick has kind -1 and the close kind -2; an event without a colour has colour -1; the answer is 0 or the
//! refusal's number; the verdicts are of all rows after it.

use model::random::Random;
use model::random::calls::Play;
use model::random::tables::any_table;
use model::{Answer, Monitor, Step, table_bytes};
use std::fmt::Write;

/// Kind, colour and time of a call, as they are printed.
fn numbers(call: Step) -> (i16, i16, u64) {
    match call {
        Step::Event { kind, time } => (kind.into(), -1, time),
        Step::Coloured { kind, colour, time } => (kind.into(), colour.into(), time),
        Step::Tick { time } => (-1, -1, time),
        Step::Close => (-2, -1, 0),
    }
}

fn call_text(call: Step, answer: Answer, monitor: &Monitor) -> String {
    let (kind, colour, time) = numbers(call);
    let verdicts: Vec<String> = monitor.verdicts().iter().map(|verdict| format!("\"{verdict}\"")).collect();
    format!("[{kind},{colour},{time},{},[{}]]", answer.err().unwrap_or(0), verdicts.join(","))
}

fn list_text(random: &mut Random, number: usize) -> String {
    let rows = any_table(random);
    let mut table = String::new();
    for byte in table_bytes(&rows) {
        write!(table, "{byte:02x}").expect("a string takes all");
    }
    let mut play = Play::new(random.fork(), &rows, number);
    let mut calls = Vec::new();
    while let Some((call, answer)) = play.call() {
        calls.push(call_text(call, answer, play.monitor()));
    }
    format!("{{\"table\":\"{table}\",\"calls\":[{}]}}", calls.join(","))
}

fn main() {
    let mut given = std::env::args().skip(1).map(|word| word.parse::<u64>().expect("a number"));
    let mut next = |otherwise| given.next().unwrap_or(otherwise);
    let (mut random, number, calls) = (Random::new(next(1)), next(100), next(60));
    for _ in 0..number {
        println!("{}", list_text(&mut random, calls as usize));
    }
}
