//! The small programs on files, beside what the model says they print, and how the one with an exit status ends.
//! Clauses: §7.10, §7.13, §8.17, §9.9.

use checks::places::{Folder, example_bytes};
use checks::program::{files, printed, program, with_status};
use checks::release::version;
use checks::reports::refusal;
use model::examples::{RECORDING, REPORT, TABLE};
use model::random::Random;
use model::random::recordings::{damaged_recording, recording};
use model::random::seen::Seen;
use model::random::tables::{any_table_in, damaged_table};
use model::types::{delay, order};
use model::{Step, recording_bytes, table_bytes, table_bytes_in};
use std::fs::File;
use std::process::{Command, Stdio};

/// How the program with an exit status ends in a folder, and what it says on standard error.
fn ends(folder: &Folder, output: Stdio) -> (Option<i32>, String) {
    let child = Command::new(with_status()).current_dir(folder.path()).stdout(output).stderr(Stdio::piped()).spawn();
    let ended = child.expect("the program can be run").wait_with_output().expect("it ends");
    (ended.status.code(), String::from_utf8(ended.stderr).expect("text"))
}

const NOT_WRITTEN: &str = "delkuthi: the report could not be written\n";

#[test]
fn the_four_exit_statuses() {
    let kept = files(Some(&table_bytes(&[order()])), Some(&recording_bytes(&[])));
    let broken = files(Some(&TABLE), Some(&RECORDING));
    let refused = files(Some(&TABLE), None);
    for (folder, status) in [(&kept, 0), (&broken, 1), (&refused, 2)] {
        assert_eq!(ends(folder, Stdio::null()), (Some(status), String::new()));
        let full = File::options().write(true).open("/dev/full").expect("/dev/full");
        assert_eq!(ends(folder, full.into()), (Some(3), NOT_WRITTEN.to_string()));
    }
}

/// What the program with an exit status does with arguments: its status, and what it prints and says.
fn with_arguments(arguments: &[&str]) -> (Option<i32>, String, String) {
    let folder = files(Some(&table_bytes(&[order()])), Some(&recording_bytes(&[])));
    let ended = Command::new(with_status()).args(arguments).current_dir(folder.path()).output().expect("it can be run");
    let [printed, said] = [ended.stdout, ended.stderr].map(|bytes| String::from_utf8(bytes).expect("text"));
    (ended.status.code(), printed, said)
}

/// Other arguments than those of the help are refused.
#[test]
fn arguments_are_refused() {
    let editions = ["", "0", "3", "12", "two", "-1"].map(|edition| ["--edition", edition]);
    let others: [&[&str]; 7] = [
        &["check"],
        &["--version", "--help"],
        &["--versions"],
        &[""],
        &["-h"],
        &["--edition"],
        &["--edition", "2", "2"],
    ];
    for arguments in others.into_iter().chain(editions.iter().map(|words| &words[..])) {
        let (status, printed, said) = with_arguments(arguments);
        assert_eq!((status, printed.as_str()), (Some(2), ""));
        assert!(said.contains("takes no arguments but"), "{said}");
    }
}

/// `--version` says the version, and `--help` what the program reads and how it ends.
#[test]
fn version_and_help() {
    assert_eq!(with_arguments(&["--version"]), (Some(0), format!("delkuthi {}\n", version()), String::new()));
    let (status, printed, said) = with_arguments(&["--help"]);
    assert_eq!((status, said.as_str()), (Some(0), ""));
    for word in ["usage:", "table.bin", "recording.bin", "2,048", "61,440", "status: 0"] {
        assert!(printed.contains(word), "{word} in {printed}");
    }
    let full = File::options().write(true).open("/dev/full").expect("/dev/full");
    let status = Command::new(with_status()).arg("--help").stdout(full).stderr(Stdio::null()).status();
    assert_eq!(status.expect("it can be run").code(), Some(3));
}

/// An output that is closed, and a pipe that nobody reads, are outputs that cannot be written.
#[test]
fn an_output_that_is_closed() {
    let folder = files(Some(&TABLE), Some(&RECORDING));
    let mut shell = Command::new("sh");
    shell.args(["-c", "exec \"$0\" >&-"]).arg(with_status()).current_dir(folder.path());
    let closed = shell.output().expect("sh can be run");
    assert_eq!((closed.status.code(), closed.stderr), (Some(3), NOT_WRITTEN.into()));
    let (reader, writer) = std::io::pipe().expect("a pipe");
    drop(reader);
    assert_eq!(ends(&folder, writer.into()), (Some(3), NOT_WRITTEN.to_string()));
}

/// A folder in place of a file is opened and cannot be read: it counts as empty, in both programs.
#[test]
fn a_folder_in_place_of_a_file() {
    let folder = files(None, Some(&RECORDING));
    std::fs::create_dir(folder.path().join("table.bin")).expect("a folder");
    for program in program().into_iter().chain([with_status()]) {
        let output = Command::new(program).current_dir(folder.path()).output().expect("the program can be run");
        assert_eq!(String::from_utf8_lossy(&output.stdout), "refused 1 0\n");
    }
}

/// Without an option the program refuses a table of edition 2 with 1, as the proved one does; by the option it takes both editions.
#[test]
fn a_table_of_edition_2() {
    let folder = files(Some(&table_bytes_in(2, &[order()])), Some(&recording_bytes(&[])));
    let run = |arguments: &[&str]| {
        let ended = Command::new(with_status()).args(arguments).current_dir(folder.path()).output();
        let ended = ended.expect("the program can be run");
        (ended.status.code(), String::from_utf8(ended.stdout).expect("text"))
    };
    assert_eq!(run(&[]), (Some(2), "refused 1 0\n".to_string()));
    assert_eq!(run(&["--edition", "1"]), (Some(2), "refused 1 0\n".to_string()));
    assert_eq!(run(&["--edition", "2"]), (Some(0), "closed 1\n0 kept\n".to_string()));
}

/// The programs print what the model says; counts the refusal.
fn compare(table: &[u8], recording: &[u8], seen: &mut Seen) {
    let text = printed(Some(table), Some(recording));
    if let Some(number) = refusal(text.as_bytes()) {
        seen.refusal(number);
    }
}

#[test]
fn the_contracts_file() {
    assert_eq!(printed(Some(&TABLE), Some(&RECORDING)), REPORT);
}

#[test]
fn the_drive() {
    let report = printed(Some(&example_bytes("table.bin")), Some(&example_bytes("recording.bin")));
    assert_eq!(report.into_bytes(), example_bytes("report.txt"));
}

/// A file that is not there is one of 0 bytes (§7.10).
#[test]
fn files_that_are_missing_or_empty() {
    for empty in [None, Some(&[][..])] {
        assert_eq!(printed(empty, None), "refused 1 0\n");
        assert_eq!(printed(empty, Some(&RECORDING)), "refused 1 0\n");
        assert_eq!(printed(Some(&TABLE), empty), "refused 13 0\n");
        assert_eq!(printed(Some(&[1]), empty), "refused 13 0\n");
    }
    assert_eq!(printed(Some(&[1]), Some(&[1])), "closed 1\n");
}

#[test]
fn files_at_the_limit_and_beyond() {
    let mut seen = Seen::default();
    let pair = |time: u64| [Step::Event { kind: 0, time: 5 * time }, Step::Event { kind: 1, time: 5 * time + 2 }];
    let events: Vec<Step> = (1..=3_000).flat_map(pair).collect();
    let records = recording_bytes(&events);
    let rows = table_bytes(&[delay(0, 3), order()]);
    for length in [61_436, 61_439, 61_440, 61_441, 65_536] {
        compare(&rows, &records[..length], &mut seen);
    }
    let long_table = [table_bytes(&vec![order(); 33]), vec![0; 4_000]].concat();
    for length in [1, 166, 2_047, 2_048, 2_049, 2_100] {
        compare(&long_table[..length], &RECORDING, &mut seen);
        compare(&long_table[..length], &records[..61_441], &mut seen);
    }
    seen.demand_refusals(17..=17);
    seen.demand_refusals(14..=14);
}

/// The largest recording that is accepted whole, of 61,440 bytes: 5,579 events and 7 ticks.
#[test]
fn the_largest_recording() {
    let event = |time| Step::Event { kind: (time % 48) as u8, time };
    let mut steps: Vec<Step> = (0..5_579).map(event).collect();
    steps.extend((6_000..6_007).map(|time| Step::Tick { time }));
    let bytes = recording_bytes(&steps);
    assert_eq!(bytes.len(), 61_440);
    let text = printed(Some(&table_bytes(&[order()])), Some(&bytes));
    assert_eq!(text, "closed 5587\n0 kept\n");
}

#[test]
fn random_files() {
    let mut random = Random::new(501);
    let mut seen = Seen::default();
    for _ in 0..150 {
        let rows = any_table_in(1, &mut random);
        compare(&table_bytes(&rows), &recording(&mut random, &rows, 60), &mut seen);
        compare(&table_bytes(&rows), &damaged_recording(&mut random, &rows, 10), &mut seen);
        compare(&damaged_table(&mut random), &RECORDING, &mut seen);
        let damaged = std::iter::repeat_with(|| damaged_table(&mut random)).find(|bytes| bytes.first() == Some(&1));
        compare(&damaged.expect("a table of the first edition"), &RECORDING, &mut seen);
    }
    seen.demand_refusals(1..=2);
    seen.demand_refusals((4..=7).chain([18]));
    seen.demand_refusals(13..=14);
}
