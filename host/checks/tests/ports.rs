//! The portable crate: which parts of the proved sources it leaves out, and its answers, call by call, beside those of the proved
//! archive on this machine. `make test-ports` does the same on other machines.

use checks::documents::text_of;
use checks::hosts::{Host, Ran, c_compiler, c_host, compile_with, ran};
use checks::places::{Folder, example, root};
use checks::portable::{compiled, portable};
use checks::release::RustHost;
use model::random::script::script;
use std::collections::HashSet;
use std::fs;
use std::path::{Path, PathBuf};
use std::process::{Command, Output};

/// A host that plays calls on the portable crate.
fn player(folder: &Folder) -> Host {
    let (archive, header) = (compiled(folder).join("libdelkuthi.a"), folder.path().join("portable/include"));
    compile_with(c_compiler().arg("-O2"), &["player.c"], &header, &[archive.into()])
}

/// A host in Rust takes the portable archive as it takes the proved one.
#[test]
fn a_host_in_rust() {
    let output = RustHost::new().run(Some(&compiled(&portable())), &[example("table.bin"), example("recording.bin")]);
    assert_eq!(ran(Ok(output)), Ran::new(0, &text_of(&example("report.txt"))));
}

/// What a host answers to a script, with the sum of the monitor's bytes after each call.
fn answers(host: &Host, script: &Path) -> String {
    let Ran { status, printed } = host.run(&[script.as_os_str(), "words".as_ref()]);
    assert_eq!(status, Some(0), "a refused call changed something: {:?}", printed.lines().last());
    printed
}

/// A script of random calls, the portable crate in a folder that has the script as a file, and what the proved archive answers.
fn played(seed: u64, lists: u64) -> (String, Folder, PathBuf, String) {
    let calls = script(seed, lists);
    let folder = portable();
    let file = folder.write("script", calls.as_bytes());
    let proved = answers(&c_host("player", "-O2"), &file);
    (calls, folder, file, proved)
}

/// The first answer in which two texts differ, with its call.
fn first_difference<'a>(script: &'a str, one: &'a str, other: &'a str) -> Option<(&'a str, &'a str, &'a str)> {
    let lines = script.lines().zip(one.lines().zip(other.lines()));
    lines.map(|(call, (one, other))| (call, one, other)).find(|(_, one, other)| one != other)
}

/// The script reaches verdicts of all sorts and these refusals, so that equal answers say something.
fn demand_all_sorts(answers: &str) {
    let number = |line: &str| -> Option<(String, u64)> {
        let mut words = line.split(' ');
        Some((words.next()?.to_string(), words.next()?.parse::<u64>().ok()? & 255))
    };
    let seen: HashSet<(String, u64)> = answers.lines().filter_map(number).collect();
    let demanded = [
        ("fresh", &[0, 1, 2, 4, 5, 6, 7, 18][..]),
        ("event", &[0, 8, 9, 10, 11, 12, 19]),
        ("coloured", &[0, 8, 9, 10, 11, 19]),
        ("tick", &[0, 8, 10, 11]),
        ("close", &[0, 8]),
        ("withdraw", &[0, 21]),
        ("table", &[0, 3, 4, 5, 6, 7, 16, 18]),
        ("join", &[0, 11, 13, 14, 16, 148]),
        ("stamps", &[0, 10, 15, 25]),
        ("stretch", &[0, 11, 13, 14, 15, 23]),
    ];
    for (call, numbers) in demanded {
        let missing: Vec<&u64> =
            numbers.iter().filter(|number| !seen.contains(&(call.to_string(), **number))).collect();
        assert!(missing.is_empty(), "{call} was never answered with {missing:?}");
    }
    let rows: HashSet<char> = answers.lines().filter_map(|line| line.split(' ').nth(2)).flat_map(str::chars).collect();
    assert!("okb".chars().all(|verdict| rows.contains(&verdict)));
}

#[test]
fn the_portable_crate_answers_as_the_archive_does() {
    let (calls, folder, file, proved) = played(38, 400);
    let ported = answers(&player(&folder), &file);
    assert_eq!(first_difference(&calls, &proved, &ported), None);
    assert!(proved == ported && proved.lines().count() == calls.lines().count());
    demand_all_sorts(&proved);
}

/// Slips that such a test has to find: a limit that is one less.
#[test]
fn a_slip_in_the_portable_crate_is_found() {
    let (calls, folder, file, proved) = played(39, 200);
    let sources = folder.path().join("portable/src/constraint/mod.rs");
    let text = fs::read_to_string(&sources).expect("the sources of crate constraint");
    for (right, wrong) in
        [("LAST_COLOUR: u8 = 7;", "LAST_COLOUR: u8 = 6;"), ("LAST_KIND: u8 = 63;", "LAST_KIND: u8 = 62;")]
    {
        assert_eq!(text.matches(right).count(), 1, "{right}");
        fs::write(&sources, text.replace(right, wrong)).expect("a file of the test");
        let ported = answers(&player(&folder), &file);
        assert!(first_difference(&calls, &proved, &ported).is_some(), "{wrong} was not found");
    }
}

/// A small repository of one crate with this source, and the program that leaves the contracts out.
fn stripped(source: &str, crates: &str, name: &str) -> (Folder, Output) {
    let files = [
        ("release/portable/lib.rs", "@MODULES@"),
        ("release/portable/test/script", "close\n"),
        ("host/c/player.c", ""),
        ("crates.txt", crates),
        ("VERSION", "1.2.3\n"),
        ("include/small.h", ""),
        ("crates/small/src/lib.rt", source),
    ];
    let (folder, program) = Folder::around("release/portable.py", &files);
    let output = Command::new("python3").arg(program).arg(folder.path().join("out")).arg(name).output();
    (folder, output.expect("python3 can be run"))
}

const SMALL: &str = r#"// A part of it, with λ in a comment.
use crate::part::half;
ghost use Rattle.std.specs.Prelude.{◌≡◌};
ghost use Rattle.small.specs.Sizes.{
    size,
};

pub mod part;

pub struct Pair {
    pub first: u64,
}

// Writes.
#[unsafe(no_mangle)]
pub extern "C" fn small_write(m: &mut Pair, bytes: &[u8], room: &mut [u8], at: u64) -> u64
    requires fits { ⌜ size {m} ≡ 1 ⌝ }
    ensures { λ r. ⌜ r ≡ size {m} ×
        (1 ≤ 2) ⌝ }
{
    half(m.first) + at
}
"#;

const SMALL_STRIPPED: &str = r#"// A part of it, with λ in a comment.
use crate::small::part::half;

pub mod part;

#[derive(Clone, Copy)]
pub struct Pair {
    pub first: u64,
}

// Writes.
// Safety: delkuthi.h lists the duties of a host under MEMORY AND THREADS.
#[export_name = "small_write"]
pub unsafe extern "C" fn small_write_for_a_host(m: &mut Pair, bytes: *const u8, bytes_length: usize, room: *mut u8, room_length: usize, at: u64) -> u64 {
    unsafe { small_write(m, core::slice::from_raw_parts(bytes, bytes_length), core::slice::from_raw_parts_mut(room, room_length), at) }
}

pub fn small_write(m: &mut Pair, bytes: &[u8], room: &mut [u8], at: u64) -> u64
{
    half(m.first) + at
}
"#;

/// What is left out is the contract, what is put in is the form for a host, and all else is as it was.
#[test]
fn what_is_left_out() {
    let (folder, output) = stripped(SMALL, "small: # of one crate\n", "small");
    assert!(output.status.success(), "{}", String::from_utf8_lossy(&output.stderr));
    let written = |name: &str| fs::read_to_string(folder.path().join("out/src").join(name)).expect("what was written");
    assert_eq!(written("small/mod.rs"), SMALL_STRIPPED);
    assert_eq!(written("lib.rs"), "pub mod small;\n");
}

const YOUNG: &str = "fn f(m: &mut M, n: usize) -> usize {
    let Some(&byte) = m.get(n) else {
        return 0;
    };
    let Some(mut after) = m.next(n) else {
        return Err(Refusal::Crowded);
    };
    let Ok(()) = m.take(Call::Tick { time }) else {
        return 1;
    };
    let other = if byte == 0 { 1 } else { 2 };
    if let Some(x) = m.first() { 1 } else { 2 };
    match m.role {
        ..FIRST => n.div_ceil(4),
        ..LAST | KIND | COUNT => m.len.div_ceil(SIZE).max(1),
        _ => other,
    }
}
";

const YOUNG_WRITTEN: &str = "fn f(m: &mut M, n: usize) -> usize {
    let byte = match m.get(n) {
Some(&byte) => byte,
_ => {
        return 0;
    }
};
    let mut after = match m.next(n) {
Some(after) => after,
_ => {
        return Err(Refusal::Crowded);
    }
};
    match m.take(Call::Tick { time }) {
Ok(()) => (),
_ => {
        return 1;
    }
};
    let other = if byte == 0 { 1 } else { 2 };
    if let Some(x) = m.first() { 1 } else { 2 };
    match m.role {
        below if below < FIRST => (n / 4 + usize::from(n % 4 != 0)),
        below if below < LAST => (m.len / SIZE + usize::from(m.len % SIZE != 0)).max(1),
        KIND | COUNT => (m.len / SIZE + usize::from(m.len % SIZE != 0)).max(1),
        _ => other,
    }
}
";

/// What is younger than the oldest Rust that the crate's page names is written in older words.
#[test]
fn what_is_younger() {
    let (folder, output) = stripped(YOUNG, "small:\n", "small");
    assert!(output.status.success(), "{}", String::from_utf8_lossy(&output.stderr));
    assert_eq!(
        fs::read_to_string(folder.path().join("out/src/small/mod.rs")).expect("what was written"),
        YOUNG_WRITTEN
    );
}

/// Debian's Rust, which in Debian 12 is the oldest that the crate's page names and compiles it for other machines, takes it without a warning.
#[test]
fn the_oldest_rust_takes_it() {
    let folder = portable();
    let mut rustc = Command::new("/usr/bin/rustc");
    rustc.args([
        "--edition=2021",
        "-Dwarnings",
        "--crate-name=delkuthi",
        "--crate-type=lib",
        "--emit=metadata",
        "--out-dir",
    ]);
    rustc.arg(folder.path()).arg(folder.path().join("portable/src/lib.rs"));
    assert_eq!(ran(rustc.output()), Ran::new(0, ""));
}

/// What is neither Rust nor a contract is refused, with the file that has it, and nothing is guessed.
#[test]
fn what_is_not_understood_is_refused() {
    let refused = [
        (
            "pub struct S {\n    ghost now\n}\n",
            "small:\n",
            "small",
            "crates/small/src/lib.rt: not understood: ghost now",
        ),
        (
            "fn f()\n    ensures { ⌜ 1 ≡ 1\n",
            "small:\n",
            "small",
            "crates/small/src/lib.rt: a clause without an end: ensures {",
        ),
        ("fn f()\n    promises { ⌜ 1 ≡ 1 ⌝ }\n{\n}\n", "small:\n", "small", "not understood: promises"),
        ("#[unsafe(no_mangle)]\npub fn f() {}\n", "small:\n", "small", "an exported function of another form"),
        (
            "fn f() {\n    let (Some(a), b) = g() else {\n        return;\n    };\n}\n",
            "small:\n",
            "small",
            "names more than one",
        ),
        (
            "fn f() {\n    let Some(a) = g() else { return h(|| {}) };\n}\n",
            "small:\n",
            "small",
            "younger than Rust 1.63: let",
        ),
        ("const A: u64 = (1 + 2).div_ceil(4);\n", "small:\n", "small", "younger than Rust 1.63: const A"),
        (
            "fn f() {\n    match g() {\n        ..=LAST => 1,\n    }\n}\n",
            "small:\n",
            "small",
            "younger than Rust 1.63: ..=LAST",
        ),
        ("", "small: other\n", "small", "crates.txt has no crate other"),
        ("", "small:\n", "great", "crates.txt has no crate great"),
    ];
    for (source, crates, name, expected) in refused {
        let (_folder, output) = stripped(source, crates, name);
        let said = String::from_utf8(output.stderr).expect("text");
        assert_eq!(output.status.code(), Some(1), "{source}");
        assert!(said.contains(expected) && !said.contains("Traceback"), "{expected} in {said}");
    }
}

/// A program of `release` with no other program in its path than the shell: what it prints, and whether it ends well.
fn without_packages(program: &str) -> (String, bool) {
    let folder = Folder::new();
    for tool in ["bash", "dirname", "cat"] {
        std::os::unix::fs::symlink(format!("/usr/bin/{tool}"), folder.path().join(tool)).expect("a link");
    }
    let mut bash = Command::new("/usr/bin/bash");
    bash.arg(root().join("release").join(program)).env("PATH", folder.path()).env("RUSTC", "/no/rustc");
    let output = bash.output().expect("bash can be run");
    (String::from_utf8_lossy(&output.stdout).into_owned(), output.status.success())
}

/// Where packages for other machines are missing, `make test-ports` and `make dist PORTS=yes` say which, and end with a status that is
/// not 0.
#[test]
fn missing_packages_are_named() {
    let tested = [
        "aarch64-linux-gnu-gcc",
        "arm-linux-gnueabihf-gcc",
        "riscv64-linux-gnu-gcc",
        "s390x-linux-gnu-gcc",
        "arm-none-eabi-gcc",
        "qemu-system-arm",
    ];
    let released = ["aarch64-linux-gnu-gcc", "x86_64-w64-mingw32-gcc", "wine64"];
    for (program, tools) in [("test-ports", &tested[..]), ("port-binaries", &released[..])] {
        let (said, well) = without_packages(program);
        for name in tools.iter().chain(&["qemu-user", "rustc", "INSTALL=--install"]) {
            assert!(said.contains(name), "{program}: {name} in {said}");
        }
        assert!(!well, "{program}");
    }
}

/// The page of a release for another machine says that it is tested and not proved, first of all; so do the names of folder and wheel.
#[test]
fn other_machines_are_marked() {
    let page = text_of(&root().join("release/PORT.md.in"));
    assert!(page.lines().next().is_some_and(|line| line.ends_with("TESTED, NOT PROVED")));
    assert!(page.contains("**This library is not the proved archive.**"));
    let program = text_of(&root().join("release/port-binaries"));
    assert!(program.contains("-tested-not-proved\n") && program.contains(" 0_tested_not_proved "));
    assert!(text_of(&root().join("release/port.spdx.in")).contains("Tested, not proved."));
}
