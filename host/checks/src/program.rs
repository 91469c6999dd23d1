//! The small programs, each run in a new folder: the proved one, and the one with an exit status.

use crate::hosts::say;
use crate::places::{Folder, root};
use crate::release::make;
use model::{NEWEST_EDITION, program_output_up_to};
use std::path::{Path, PathBuf};
use std::process::Command;
use std::sync::OnceLock;
use std::{env, fs};

/// The proved program: `delkuthi_cli` in the folder that the environment variable `DELKUTHI_LIB` names, or none if that folder
/// does not have it; without the variable `crates/delkuthi_cli/out/delkuthi_cli`, which is proved and built first if something has changed.
///
/// # Panics
/// If it cannot be built.
pub fn program() -> Option<&'static Path> {
    static PROGRAM: OnceLock<Option<PathBuf>> = OnceLock::new();
    let found = || {
        let Some(folder) = env::var_os("DELKUTHI_LIB") else { return Some(built()) };
        let file = Path::new(&folder).join("delkuthi_cli");
        if !file.is_file() {
            say("DELKUTHI_LIB has no delkuthi_cli: the proved program was not run");
        }
        Some(file).filter(|file| file.is_file())
    };
    PROGRAM.get_or_init(found).as_deref()
}

/// Proves and builds the program.
fn built() -> PathBuf {
    let folder = root().join("crates/delkuthi_cli");
    let output = Command::new("rt").arg("run").current_dir(&folder).output();
    let output = output.expect("rt, of the Rattle kit, must be in the PATH");
    let program = folder.join("out/delkuthi_cli");
    assert!(
        output.status.success() && program.is_file(),
        "rt run in crates/delkuthi_cli: {}{}",
        String::from_utf8_lossy(&output.stdout),
        String::from_utf8_lossy(&output.stderr)
    );
    program
}

/// The program with an exit status, `delkuthi`, built by `make`.
///
/// # Panics
/// If it cannot be built.
pub fn with_status() -> &'static Path {
    static PROGRAM: OnceLock<PathBuf> = OnceLock::new();
    PROGRAM.get_or_init(|| {
        let build = Path::new(env!("OUT_DIR")).join("program");
        let output = make(&build, &["program"]);
        assert!(output.status.success(), "make program: {}", String::from_utf8_lossy(&output.stderr));
        build.join("delkuthi")
    })
}

/// The exit status that goes with a report: 0 every row is kept, 1 one is broken, 2 something is refused.
pub fn status_of(report: &str) -> i32 {
    match (report.starts_with("refused "), report.contains(" broken ")) {
        (true, _) => 2,
        (false, true) => 1,
        (false, false) => 0,
    }
}

/// A folder with these files, or without one that is missing.
pub fn files(table: Option<&[u8]>, recording: Option<&[u8]>) -> Folder {
    let folder = Folder::new();
    let files = [("table.bin", table), ("recording.bin", recording)];
    files.iter().for_each(|(name, bytes)| bytes.iter().for_each(|bytes| drop(folder.write(name, bytes))));
    folder
}

/// What the programs print where these files are, or where one is missing. Both take tables of edition 1, and the one with an exit
/// status takes a later edition by an option. They print what the model says of each edition; the proved one ends with status 0,
/// the other one with the status that goes with the report.
///
/// # Panics
/// If they do not, or if one says something on standard error or changes a file.
pub fn printed(table: Option<&[u8]>, recording: Option<&[u8]>) -> String {
    let folder = files(table, recording);
    let run = |program: &Path, words: &[String]| {
        let output =
            Command::new(program).args(words).current_dir(folder.path()).output().expect("the program can be run");
        assert_eq!(String::from_utf8_lossy(&output.stderr), "");
        for (name, bytes) in [("table.bin", table), ("recording.bin", recording)] {
            assert_eq!(fs::read(folder.path().join(name)).ok().as_deref(), bytes, "{name}");
        }
        (output.status.code(), String::from_utf8(output.stdout).expect("ASCII"))
    };
    let expected = |edition| program_output_up_to(edition, table.unwrap_or(&[]), recording.unwrap_or(&[]));
    for edition in 1..=NEWEST_EDITION {
        let text = expected(edition);
        let words = ["--edition".to_string(), edition.to_string()];
        assert_eq!(run(with_status(), &words), (Some(status_of(&text)), text));
    }
    let text = expected(1);
    assert_eq!(run(with_status(), &[]), (Some(status_of(&text)), text.clone()));
    if let Some(proved) = program() {
        assert_eq!(run(proved, &[]), (Some(0), text.clone()));
    }
    text
}
