//! The qualification kit: its vectors cover the contract, the archive passes them, and a library with one wrong answer does not.
//! Clauses: §1.1 to §1.7, §2.1 to §2.6, §3.6 to §3.8, §3.12, §3.13, §7.3 to §7.9, §7.14 to §7.19, §9.1 to §9.8, §15.1 to §15.13.

use checks::contract::{clauses, text};
use checks::documents::text_of;
use checks::hosts::{Host, Ran, c_compiler, compile_with, done};
use checks::places::{Folder, archive_folder, root};
use checks::portable::{compiled, portable};
use checks::release::make;
use kit::clauses::RULES;
use kit::vector::Vector;
use std::collections::{BTreeSet, HashSet};
use std::ffi::OsString;
use std::fs;
use std::path::Path;
use std::process::Command;
use std::sync::OnceLock;

fn vectors() -> &'static [Vector] {
    static VECTORS: OnceLock<Vec<Vector>> = OnceLock::new();
    VECTORS.get_or_init(kit::vectors)
}

/// The kit as `make kit` writes it.
fn made() -> &'static Path {
    static KIT: OnceLock<Folder> = OnceLock::new();
    let folder = KIT.get_or_init(|| {
        let folder = Folder::new();
        let output = make(folder.path(), &["kit"]);
        assert!(output.status.success(), "{}", String::from_utf8_lossy(&output.stderr));
        folder
    });
    folder.path()
}

/// Compiles the runner with the vectors, beside this file with a `main`, and links it with an archive.
fn runner(main: &str, archive: &Path, more: &[String]) -> Host {
    let folder = made().join("kit");
    let files = [main.into(), folder.join("runner.c"), folder.join("vectors.c")];
    let link: Vec<OsString> = more.iter().map(OsString::from).chain([archive.join("libdelkuthi.a").into()]).collect();
    let files: Vec<&str> = files.iter().map(|file: &std::path::PathBuf| file.to_str().expect("a path")).collect();
    let strict = ["-O1", "-Wconversion", "-Wshadow", "-Wmissing-prototypes", "-Wcast-align"];
    compile_with(c_compiler().args(strict).arg("-I").arg(folder), &files, &root().join("include"), &link)
}

/// The line that the runner prints if nothing fails.
fn all_passed() -> String {
    format!("{} passed, 0 failed\n", vectors().len())
}

/// Each clause of the contract has vectors or a reason, each refusal of a call a vector, and each type every verdict.
#[test]
fn nothing_is_missing() {
    let vectors = vectors();
    assert!(vectors.len() >= 2_000, "{} vectors", vectors.len());
    let missing: Vec<String> = clauses(&text())
        .into_iter()
        .map(|clause| clause.number)
        .filter(|clause| kit::covering(vectors, clause).is_ok_and(|found| found.is_empty()))
        .collect();
    assert!(
        missing.is_empty(),
        "no vector covers {missing:?}: give them a rule in host/kit/src/clauses.rs, or an example"
    );
    let known: HashSet<String> = clauses(&text()).into_iter().map(|clause| clause.number).collect();
    let gone: Vec<&str> = RULES.iter().map(|(clause, _)| *clause).filter(|clause| !known.contains(*clause)).collect();
    assert!(gone.is_empty(), "rules for clauses that the contract does not have: {gone:?}");
    let facts: BTreeSet<&String> = vectors.iter().flat_map(|vector| &vector.facts).collect();
    // 17 is a question of the programs alone
    let refusals = (1..=25).filter(|number| *number != 17).map(|number| format!("refused {number}"));
    let verdicts = model::TYPES.iter().flat_map(|kind| ["open", "kept", "broken"].map(|word| format!("{word} {kind}")));
    // a Comparison is true before any step
    let verdicts = verdicts.filter(|fact| fact != "broken 17");
    let unseen: Vec<String> = refusals.chain(verdicts).filter(|fact| !facts.contains(fact)).collect();
    assert!(unseen.is_empty(), "no vector shows {unseen:?}");
}

/// The vectors depend on nothing but the sources, and `make kit` writes them with the table of clauses.
#[test]
fn the_vectors_are_made_alike() {
    let (version, folder) = (env!("CARGO_PKG_VERSION"), made().join("kit"));
    assert!(text_of(&folder.join("vectors.c")) == kit::c_file(vectors(), version));
    assert_eq!(text_of(&folder.join("COVERAGE.md")), kit::coverage(vectors(), version));
}

#[test]
fn the_archive_passes() {
    let main = made().join("kit/main.c");
    let host = runner(main.to_str().expect("a path"), archive_folder(), &[]);
    assert_eq!(host.run::<&str>(&[]), Ran::new(0, &all_passed()));
}

/// The runner asks nothing of a machine but three functions that every compiler assumes.
#[test]
fn the_runner_needs_no_system() {
    let text = text_of(&root().join("host/kit/c/runner.c"));
    let included: Vec<&str> = text.lines().filter(|line| line.starts_with("#include")).collect();
    let expected =
        ["#include \"runner.h\"", "#include \"delkuthi.h\"", "#include \"vectors.h\"", "#include <string.h>"];
    assert_eq!(included, expected);
    for word in ["malloc", "printf", "fopen", "float", "double"] {
        assert!(!text.contains(word), "{word}");
    }
}

/// The calls of the archive.
fn calls() -> Vec<String> {
    let symbols = done(Command::new("nm").args(["-g", "--defined-only"]).arg(archive_folder().join("libdelkuthi.a")));
    let call = |line: &str| line.split_once(" T delkuthi_").map(|(_, name)| format!("delkuthi_{name}"));
    symbols.lines().filter_map(call).collect()
}

/// One wrong answer of any call is found: the first that it gives, and one among many.
#[test]
fn one_wrong_answer_is_found() {
    let calls = calls();
    let wraps: Vec<String> = calls.iter().map(|call| format!("-Wl,--wrap={call}")).collect();
    let host = runner("slips.c", archive_folder(), &wraps);
    assert_eq!(host.run(&["none", "0"]), Ran::new(0, &all_passed()));
    for call in &calls {
        let Ran { status, printed } = host.run(&[call.as_str(), "0"]);
        assert_eq!(status, Some(1), "a wrong answer of {call} was not found: {printed}");
        let rare = ["delkuthi_version", "delkuthi_monitor_size"].contains(&call.as_str());
        let place = if rare { "0" } else { "90" };
        let Ran { status, printed } = host.run(&[call.as_str(), place]);
        assert_eq!(status, Some(1), "wrong answer {place} of {call} was not found: {printed}");
        assert!(rare || printed.ends_with(" passed, 1 failed\n"), "{call}: {printed}");
    }
}

/// Slips of the code itself, by one place or one moment each.
const SLIPS: [(&str, &str, &str); 2] = [
    (
        "row_type/parts.rs",
        "times.at(dropped).saturating_add(upper)",
        "times.at(dropped).saturating_add(upper).saturating_add(1)",
    ),
    ("row/stored.rs", "if row[1][row_words::DUE] < o.time {", "if row[1][row_words::DUE] <= o.time {"),
];

/// The portable crate passes, and not with a deadline that is one too late, or an event that is one moment too late.
#[test]
fn a_slip_in_the_sources_is_found() {
    let folder = portable();
    let main = made().join("kit/main.c");
    let run = || runner(main.to_str().expect("a path"), &compiled(&folder), &[]).run::<&str>(&[]);
    assert_eq!(run(), Ran::new(0, &all_passed()));
    for (file, right, wrong) in SLIPS {
        let file = folder.path().join("portable/src").join(file);
        let text = fs::read_to_string(&file).unwrap_or_else(|error| panic!("{}: {error}", file.display()));
        assert!(text.contains(right), "{right}");
        fs::write(&file, text.replace(right, wrong)).expect("a file of the test");
        let Ran { status, printed } = run();
        assert!(status == Some(1) && !printed.ends_with(" 0 failed\n"), "{wrong}: {printed}");
        fs::write(&file, text).expect("a file of the test");
    }
}
