//! The page for the safety assessor, and the trace that a program makes for it: from each promise to its tests.

use checks::contract::{clauses, text};
use checks::documents::text_of;
use checks::places::{Folder, root};
use checks::release::make;
use std::collections::BTreeSet;
use std::fs;
use std::process::Command;

/// The rows of the trace, cell by cell.
fn trace() -> Vec<Vec<String>> {
    let folder = Folder::new();
    let output = make(folder.path(), &["trace"]);
    assert_eq!((output.status.code(), String::from_utf8_lossy(&output.stderr).as_ref()), (Some(0), ""));
    let text = text_of(&folder.path().join("TRACE.md"));
    let cells = |line: &str| line.trim_matches('|').split('|').map(|cell| cell.trim().to_string()).collect();
    text.lines().filter(|line| line.starts_with("| §")).map(cells).collect()
}

/// Each promise of the contract has its row, in the contract's order, and each row names tests that are there.
#[test]
fn each_promise_is_traced_to_a_test() {
    let rows = trace();
    let promises: Vec<String> = clauses(&text())
        .into_iter()
        .filter(|clause| clause.promises)
        .map(|clause| format!("§{}", clause.number))
        .collect();
    assert!(promises.len() >= 80, "{} promises", promises.len());
    assert_eq!(rows.iter().map(|row| row[0].clone()).collect::<Vec<String>>(), promises);
    for row in &rows {
        assert!(row.len() == 5 && row[1..4].iter().any(|cell| !cell.is_empty()) && !row[4].is_empty(), "{row:?}");
        for test in row[4].split(", ") {
            let (package, name) = test.split_once('/').expect("a folder and a file");
            assert!(root().join(format!("host/{package}/tests/{name}.rs")).is_file(), "{test}");
        }
    }
}

/// The trace over a contract, declarations with tags, rows by hand and one test file: the table, and what is missing.
fn traced(definitions: &str, by_hand: &str, test: &str) -> (String, String) {
    let contract =
        "**2.1** One.\n\n**2.2** Two.\n\n*2.7* Three.\n\n**5.1** Four.\n\n*5.1.1* Five.\n\n```example\n```\n";
    let files = [
        ("VERSION", "1.2.3\n"),
        ("docs/CONTRACT.md", contract),
        ("docs/READING.md", by_hand),
        ("crates/a/specs/Things.antt", definitions),
        ("crates/a/proofs/Things.antt", "-- §5.1.1: a corner\npub a_law\n    : Thing\n"),
        (
            "crates/a/src/thing.rt",
            "impl Bench {\n    // §2.1\n    // Takes it.\n    #[unsafe(no_mangle)]\n    pub fn take() {}\n}\n",
        ),
        ("host/checks/tests/small.rs", test),
    ];
    let (folder, program) = Folder::around("release/trace.py", &files);
    let file = folder.path().join("out");
    let output = Command::new("python3").arg(program).arg(&file).output().expect("python3 can be run");
    assert!(output.status.success());
    (text_of(&file), String::from_utf8(output.stderr).expect("text"))
}

/// A tag is the clauses at the beginning of a line of the comment right above a declaration; a corner counts for its clause.
#[test]
fn the_trace_is_made_from_tags() {
    let record = "-- §2.1 to §2.2: things\npub record Thing : Type 0 where\n  -- a field\n  -- §2.2\n  pub first : ℕ\n";
    let definitions = format!("{record}\n-- §5.1\n\npub not_tagged : Thing\n");
    let (table, missing) = traced(&definitions, "", "//! A test.\n//! Clauses: §2.1 to §2.2.\n");
    assert_eq!(missing, "");
    let rows: Vec<&str> = table.lines().filter(|line| line.starts_with("| §")).collect();
    let expected = [
        "| §2.1 | `Thing` (a) |  | `Bench::take` (a) | checks/small |",
        "| §2.2 | `Thing`, `Thing.first` (a) |  |  | checks/small |",
        "| §5.1 |  | `a_law` (a) |  | checks/contract |",
    ];
    assert_eq!(rows, expected);
}

#[test]
fn a_promise_without_a_row_or_a_test_is_named() {
    let said = |definitions: &str, by_hand: &str, test: &str| traced(definitions, by_hand, test).1;
    let (things, both) = ("-- §2.2: things\npub Thing : Type 0\n", "//! Clauses: §2.1 to §2.2.\n");
    assert_eq!(said(things, "", both), "");
    // what a file says to the prover may stand below the comment of its first declaration
    assert_eq!(said("-- §2.2: things\n#![tactic(auto)]\n\npub Thing : Type 0\n", "", both), "");
    assert_eq!(said("", "| §2.2 | tested |  |  |\n", both), "");
    assert!(said("", "", both).starts_with("§2.2 has no row"));
    assert!(said(things, "", "//! Clauses: §2.1.\n").starts_with("§2.2 has no test"));
}

/// What the documents for a buyer call by a name of the header is there.
#[test]
fn names_of_the_header() {
    let header = text_of(&root().join("include/delkuthi.h"));
    for file in
        ["docs/SAFETY.md", "docs/QUALIFICATION.md", "docs/SUPPORT.md", "docs/DATASHEET.md", "release/delkuthi.3.in"]
    {
        let text = text_of(&root().join(file));
        let words = text.split(|letter: char| !letter.is_ascii_alphanumeric() && letter != '_');
        let names = words.filter(|word| word.to_ascii_lowercase().starts_with("delkuthi_") && *word != "delkuthi_cli");
        let unknown: Vec<&str> = names.filter(|name| !header.contains(name)).collect();
        assert!(unknown.is_empty(), "{file}: {unknown:?}");
    }
}

/// The page has its sections, a number for each duty, and stays short enough to be read.
#[test]
fn the_page_for_the_assessor() {
    let text = text_of(&root().join("docs/SAFETY.md"));
    let sections: Vec<&str> = text.lines().filter_map(|line| line.strip_prefix("## ")).collect();
    let expected = [
        "Intended use",
        "What is proved",
        "What is assumed",
        "Duties of a host",
        "Failures, their effect, and how a host would notice",
        "Confidence in the tool",
        "Reporting an anomaly",
    ];
    assert_eq!(sections, expected);
    let duties: Vec<String> =
        text.lines().filter_map(|line| Some(line.strip_prefix("| D")?.split(' ').next()?.to_string())).collect();
    assert_eq!(duties, (1..=duties.len()).map(|number| number.to_string()).collect::<Vec<String>>());
    assert!(duties.len() >= 8 && text.split_whitespace().count() < 2_000, "{} words", text.split_whitespace().count());
}

/// The placeholders of a text, as "[SELLER: name]".
fn placeholders(text: &str) -> BTreeSet<String> {
    let ends = |rest: &str| rest.split_once(']').map(|(name, _)| name.to_string());
    text.split("[SELLER: ").skip(1).filter_map(ends).filter(|name| name != "..").collect()
}

/// Every placeholder for the seller is in the one list, the list has no other, and the release says that they are not filled in.
#[test]
fn the_placeholders_of_the_seller() {
    let support = text_of(&root().join("docs/SUPPORT.md"));
    let (before, list) = support.split_once("## What the seller fills in").expect("the list");
    let mut used = placeholders(before);
    for folder in [".", "docs", "release", "python", "examples", "host/kit/c"] {
        let files = fs::read_dir(root().join(folder)).expect("a folder").map(|file| file.expect("a file").path());
        let texts = files.filter(|file| file.is_file() && !file.ends_with("SUPPORT.md"));
        used.extend(texts.filter_map(|file| fs::read_to_string(file).ok()).flat_map(|text| placeholders(&text)));
    }
    assert!(!used.is_empty());
    assert_eq!(placeholders(list), used);
}
