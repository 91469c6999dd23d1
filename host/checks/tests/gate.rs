//! The first minutes: what `make run` prints, what is shown while crates are proved, and how the gate counts and ends.

use checks::hosts::{Ran, ran};
use checks::places::{Folder, example_bytes, root};
use checks::release::make;
use std::fs;
use std::os::unix::fs::PermissionsExt;
use std::path::Path;
use std::process::Command;

/// `make run` with an archive prints the report and the page of the drive, and nothing else.
#[test]
fn what_make_run_prints() {
    let folder = Folder::new();
    let output = make(folder.path(), &["run"]);
    let expected = [example_bytes("report.txt"), example_bytes("page.txt")].concat();
    assert_eq!(ran(Ok(output)), Ran::new(0, &String::from_utf8(expected).expect("ASCII")));
}

/// Writes a program for the shell.
fn script(folder: &Folder, name: &str, text: &str) {
    let file = folder.write(name, format!("#!/bin/sh\n{text}").as_bytes());
    fs::set_permissions(file, fs::Permissions::from_mode(0o755)).expect("a file of the test");
}

/// What rt says of three crates, one of which is unchanged, and of two edits.
const PROVED: &str = "echo 'fn number::a: proved'\necho 'rt: constraint proved (28 s)'\n\
    echo 'rt: number proved (unchanged since it was last proved)'\necho 'rt: table proved (5 s)' >&2\n\
    echo 'rt: must-fail table/one: refused, as it must be (3 s)'\necho 'rt: must-fail table/two: refused, as it must be (3 s)'\n\
    echo 'rt: ok, 3 crates proved, 2 must-fail edits refused'\necho '5 passed, 0 failed'\n";

/// What today's rt says of the same: it names no seconds.
const PROVED_TODAY: &str = "echo 'fn number::a: proved'\necho 'rt: constraint proved'\n\
    echo 'rt: number is kept: an earlier run on this machine proved the same files over the same libraries'\n\
    echo 'rt: table proved' >&2\necho 'rt: table: trying its must-fail edits (2)'\n\
    echo 'rt: must-fail table/one.edit: refused, as it must be: ./proofs/put/Answers.antt:3:1: error'\n\
    echo 'rt: must-fail table/two.edit: refused, as it must be'\n";
const OK_TODAY: &str = "echo 'rt: ok; handles allowed: none; must-fail edits: 2 refused; every proof and must-fail edit was done in this run'\n\
    echo '5 passed, 0 failed'\n";

/// A small repository with the gate and its programs, a fake rt and a fake cargo, and one test in Python.
fn repository(rt: &str, cargo: &str, python: &str) -> Folder {
    let copied = |name: &str| fs::read(root().join(name)).expect("a file of the repository");
    let folder = Folder::new();
    for name in [".ci/run", "release/progress.py"] {
        folder.write(name, &copied(name));
    }
    folder.write(".ci/install", b"");
    folder.write("release/text-check.py", b"print('0 lines above')\n");
    folder.write("crates.txt", b"constraint:\nnumber: constraint\ntable: constraint number\n");
    folder.write("Makefile", b"lib:\n");
    folder.write("python/tests/test_small.py", python.as_bytes());
    script(&folder, "bin/rt", rt);
    script(&folder, "bin/cargo", cargo);
    for tool in ["mypy", "pyflakes3"] {
        script(&folder, &format!("bin/{tool}"), "");
    }
    folder
}

const TESTED: &str = "echo '     Running tests/calls.rs (target/calls)'\n\
    echo 'test result: ok. 7 passed; 0 failed; 0 ignored; 0 measured; 0 filtered out; finished in 3.21s'\n";
const GOOD: &str = "def test_good():\n    pass\n";

/// How the gate ends in a folder.
fn gate(folder: &Folder, archive: Option<&Path>) -> Ran {
    let path = std::env::var("PATH").expect("a PATH");
    let mut bash = Command::new("bash");
    bash.arg(".ci/run").current_dir(folder.path()).env("PATH", format!("{}/bin:{path}", folder.path().display()));
    match archive {
        Some(place) => bash.env("DELKUTHI_LIB", place),
        None => bash.env_remove("DELKUTHI_LIB"),
    };
    ran(bash.output())
}

/// One line for each crate, the rest in a log, and the sum of all parts in the last line.
#[test]
fn the_gate_that_passes() {
    let folder = repository(PROVED, TESTED, GOOD);
    let Ran { status, printed } = gate(&folder, None);
    assert_eq!((status, printed.lines().last()), (Some(0), Some("14 passed, 0 failed")), "{printed}");
    for line in ["[1/3] constraint 28 s", "[3/3] table 5 s", "wrong programs refused, as they must be: 2"] {
        assert!(printed.lines().any(|found| found == line), "{line} in {printed}");
    }
    assert!(
        printed.contains("tests/calls.rs: 7 passed, 0 failed, 3 s") && !printed.contains("fn number::a"),
        "{printed}"
    );
    let log = fs::read_to_string(folder.path().join("build/log/proofs.log")).expect("a log");
    assert!(log.contains("fn number::a: proved"));
}

/// The same with the lines of today's rt.
#[test]
fn the_gate_that_passes_today() {
    let folder = repository(&format!("{PROVED_TODAY}{OK_TODAY}"), TESTED, GOOD);
    let Ran { status, printed } = gate(&folder, None);
    assert_eq!((status, printed.lines().last()), (Some(0), Some("14 passed, 0 failed")), "{printed}");
    for line in ["[1/3] constraint", "[3/3] table", "wrong programs refused, as they must be: 2"] {
        assert!(printed.lines().any(|found| found == line), "{line} in {printed}");
    }
    assert!(!printed.contains("fn number::a") && !printed.contains("trying"), "{printed}");
}

/// rt passes a must-fail edit that no longer fits the sources. The gate does not, and says so.
#[test]
fn the_gate_refuses_bad_edits() {
    let bad = "echo 'rt: must-fail table/three.edit: BAD EDIT: its text is not in the file'\n";
    let ok = OK_TODAY.replace("2 refused;", "2 refused, 1 bad;");
    let Ran { status, printed } = gate(&repository(&format!("{PROVED_TODAY}{bad}{ok}"), TESTED, GOOD), None);
    assert_eq!((status, printed.lines().last()), (Some(1), Some("14 passed, 1 failed")), "{printed}");
    assert!(printed.contains("must-fail edits that no longer fit the sources"), "{printed}");
    assert!(printed.contains("rt: must-fail table/three.edit: BAD EDIT"), "{printed}");
}

/// With an archive nothing is proved, and the gate says so; the last line has the same form.
#[test]
fn the_gate_without_the_kit() {
    let folder = repository("exit 1\n", TESTED, GOOD);
    folder.write("lib/libdelkuthi.a", b"");
    let Ran { status, printed } = gate(&folder, Some(&folder.path().join("lib")));
    let lines: Vec<&str> = printed.lines().collect();
    assert_eq!((status, lines.last()), (Some(0), Some(&"9 passed, 0 failed")), "{printed}");
    assert!(lines[lines.len() - 2].starts_with("nothing was proved"), "{printed}");
}

/// Where a part fails the end of its log is printed, the failures are counted, and the status is not 0.
#[test]
fn the_gate_that_fails() {
    let refused =
        "echo 'a: error'\necho 'rt: constraint NOT PROVED (exit 1, 2 s)'\necho '0 passed, 3 failed'\nexit 1\n";
    let Ran { status, printed } = gate(&repository(refused, TESTED, GOOD), None);
    assert_eq!((status, printed.lines().last()), (Some(1), Some("9 passed, 3 failed")), "{printed}");
    assert!(printed.contains("The end of build/log/proofs.log:\n    a: error\n"), "{printed}");
    let broken = "echo 'error: could not compile'\nexit 101\n";
    let Ran { status, printed } = gate(&repository(PROVED, broken, GOOD), None);
    assert_eq!((status, printed.lines().last()), (Some(1), Some("7 passed, 1 failed")), "{printed}");
    assert!(printed.contains("    error: could not compile\n"), "{printed}");
    let bad = "def test_bad():\n    assert False\n";
    let Ran { status, printed } = gate(&repository(PROVED, TESTED, bad), None);
    assert_eq!((status, printed.lines().last()), (Some(1), Some("13 passed, 1 failed")), "{printed}");
}
