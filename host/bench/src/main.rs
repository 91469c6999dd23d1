//! Prints how fast the proved library is, beside plain Rust: `make bench` the times, `make count` the instructions.

use bench::count::{PLAYED, instructions, played};
use bench::line::{Line, all_lines};
use bench::measure::{Each, times};
use std::process::ExitCode;

/// "A million events".
const CALLS: usize = 1_000_000;
const RUNS: usize = 7;

fn print_times(line: &Line) {
    let measured = times(line, CALLS, RUNS);
    let (nanoseconds, ratios) = (measured.nanoseconds(), measured.ratios());
    println!(
        "| {:<43} | {:>7.1} | {:>7.1} | {:>5.2} | {:>5.2} | {:>5.2} | {:>7.1} | {:>5.2} | {:>5.2} | {:>5.2} |",
        line.what(),
        nanoseconds.library.middle,
        nanoseconds.plain.middle,
        ratios.plain.least,
        ratios.plain.middle,
        ratios.plain.greatest,
        nanoseconds.called.middle,
        ratios.called.least,
        ratios.called.middle,
        ratios.called.greatest
    );
}

fn print_counts((line, count): &(Line, Each<f64>)) {
    let Each { library, plain, called } = count;
    println!(
        "| {:<43} | {library:>7.1} | {plain:>7.1} | {:>5.2} | {called:>7.1} | {:>5.2} |",
        line.what(),
        library / plain,
        library / called
    );
}

/// Times every line.
fn bench() {
    println!(
        "nanoseconds of a call, processor time, in the middle of {RUNS} runs of {CALLS} calls on each monitor in turn;"
    );
    println!(
        "times: how many times as long the library took, in each run for itself: least, middle, greatest; called: plain Rust behind"
    );
    println!("calls that are not inlined. All monitors agree on every line.\n");
    println!(
        "| what                                        | library | plain   | times |       |       | called  | times |       |       |"
    );
    println!(
        "|---------------------------------------------|--------:|--------:|------:|------:|------:|--------:|------:|------:|------:|"
    );
    all_lines().iter().for_each(print_times);
}

/// Counts the instructions of every line.
fn count() -> Result<(), String> {
    let counts = instructions()?;
    println!(
        "instructions of a call, by callgrind; called: plain Rust behind calls that are not inlined. All monitors agree on every line.\n"
    );
    println!("| what                                        | library | plain   | times | called  | times |");
    println!("|---------------------------------------------|--------:|--------:|------:|--------:|------:|");
    counts.iter().for_each(print_counts);
    Ok(())
}

fn main() -> ExitCode {
    let word = std::env::args().nth(1);
    let done = match word.as_deref() {
        None => Ok(bench()),
        Some("count") => count(),
        Some(PLAYED) => Ok(played()),
        Some(other) => Err(format!("no such word: {other}; \"count\" counts instructions, no word takes times")),
    };
    done.map_or_else(
        |error| {
            eprintln!("{error}");
            ExitCode::FAILURE
        },
        |()| ExitCode::SUCCESS,
    )
}
