//! Counts instructions: the program runs itself under callgrind, which counts those inside one function.

use crate::line::{Line, all_lines};
use crate::measure::{Each, agree, each};
use std::env;
use std::fs;
use std::hint::black_box;
use std::process::{Command, Stdio};

/// The word that has the program play the lines to be counted, and nothing else.
pub const PLAYED: &str = "played";
/// Instructions hardly depend on how many calls there are.
const CALLS: usize = 20_000;
/// The function inside which callgrind counts, and after which it writes its count down.
const COUNTED: &str = "bench::count::counted";

/// Runs what callgrind is to count, as a separate function with something after the call.
#[inline(never)]
fn counted(act: &mut dyn FnMut()) {
    act();
    black_box(());
}

/// The lines to be counted: all, or those that the variable ONLY names, with ";" between them.
pub fn lines() -> Vec<Line> {
    let only = env::var("ONLY").ok();
    let named = |line: &Line| only.as_ref().is_none_or(|names| names.split(';').any(|name| name == line.what()));
    all_lines().into_iter().filter(named).collect()
}

/// Plays each line once on the library, on plain Rust and on plain Rust behind calls, which agree.
pub fn played() {
    for line in &lines() {
        let load = line.load(CALLS);
        agree(&load);
        each(line, &load, counted);
    }
}

/// The lines with their instructions per call. This program starts itself again under callgrind, and plays the lines there.  #
/// Errors What went wrong, in a line: there is no valgrind, or it did not count.
pub fn instructions() -> Result<Vec<(Line, Each<f64>)>, String> {
    let lines = lines();
    let program = env::current_exe().map_err(|error| format!("the program's own name: {error}"))?;
    let file = env::temp_dir().join(format!("delkuthi-count-{}", std::process::id()));
    let ran = Command::new("valgrind")
        .args(["--tool=callgrind", "--combine-dumps=yes"])
        .args([format!("--toggle-collect={COUNTED}"), format!("--dump-after={COUNTED}")])
        .arg(format!("--callgrind-out-file={}", file.display()))
        .arg(program)
        .arg(PLAYED)
        .stderr(Stdio::null())
        .status();
    let written = fs::read_to_string(&file);
    let _ = fs::remove_file(&file);
    match ran {
        Ok(status) if status.success() => {}
        Ok(status) => return Err(format!("callgrind's run failed ({status}): \"{PLAYED}\" alone says more")),
        Err(error) => return Err(format!("valgrind cannot be run: {error}")),
    }
    let totals = totals(&written.map_err(|error| format!("what callgrind has written: {error}"))?);
    let needed: usize = lines.iter().map(Line::runs).sum();
    if totals.len() < needed {
        return Err(format!("callgrind has counted {} times, not {needed}", totals.len()));
    }
    let mut totals = totals.into_iter();
    let mut of_line = |line: Line| {
        let number = line.load(CALLS).number() as f64;
        let counts: Vec<f64> = totals.by_ref().take(line.runs()).map(|total| total / number).collect();
        (line, Each { library: counts[0], plain: counts[1], called: counts[line.runs() - 1] })
    };
    Ok(lines.into_iter().map(&mut of_line).collect())
}

/// The counts in what callgrind has written, one after the other.
fn totals(written: &str) -> Vec<f64> {
    written.lines().filter_map(|line| line.strip_prefix("totals: ")?.trim().parse().ok()).collect()
}
