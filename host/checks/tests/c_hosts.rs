//! The header and the archive in C and C++: hosts compiled at -O0 and -O2, run, and run under valgrind.
//! Clauses: §3.4, §3.5, §9.7, §9.8, §9.12, §11.1 to §11.6.

use checks::hosts::{
    Host, Ran, c_compiler, c_host, c_host_alone, c_host_with_header, compile_with, cpp_compiler, cpp_host, cpp17_host,
    found, say as say_so,
};
use checks::places::{Folder, archive_folder, example, example_bytes, root};
use checks::rows::numbers_of;
use checks::sources::{Header, text};
use delkuthi::Monitor;
use model::examples::{Example, RECORDING, REPORT, TABLE, examples};
use model::limits::NO_LIMIT;
use model::random::Random;
use model::random::recordings::{recording, refused_recording};
use model::random::seen::Seen;
use model::random::tables::{Scale, any_table, damaged_rows, damaged_table, row_of_type, table};
use model::types::{
    Burst, Delay, ExecutionTime, Order, Repeat, Repetition, Sporadic, StrongDelay, StrongSynchronization,
};
use model::{
    Constraint, NEWEST_EDITION, Step, Verdict, page_text, read_table, recording_bytes, refused_row, report_text,
    table_bytes, types_in, write_table,
};
use std::collections::BTreeSet;
use std::fs;
use std::path::PathBuf;
use std::process::Command;

const LEVELS: [&str; 2] = ["-O0", "-O2"];

/// A table and a recording as files.
struct Files {
    paths: [PathBuf; 2],
    _folder: Folder,
}

impl Files {
    fn new(table: &[u8], recording: &[u8]) -> Files {
        let folder = Folder::new();
        let paths = [folder.write("table.bin", table), folder.write("recording.bin", recording)];
        Files { paths, _folder: folder }
    }
}

/// What the bench loop is to do with the steps of a recording, by the model. A step arrives `late` after its stamp. If the clock
/// passes the deadline by more than `lag` before the next step arrives, a tick comes first. Each row is printed when it breaks.
fn bench_with(rows: &[Constraint], steps: &[Step], lag: u64, late: u64) -> Ran {
    let mut monitor = model::Monitor::fresh(rows).expect("an accepted table");
    let (mut printed, mut broken) = (String::new(), 0);
    for step in steps.iter().chain([&Step::Close]) {
        let (Step::Event { time, .. } | Step::Coloured { time, .. } | Step::Tick { time }) = *step else {
            monitor.close().expect("a recording not yet closed");
            say(&monitor, &mut broken, &mut printed);
            break;
        };
        while monitor.deadline() != NO_LIMIT && monitor.deadline() + 1 + lag < time.saturating_add(late) {
            monitor.tick(monitor.deadline() + 1).expect("a tick after the clock");
            say(&monitor, &mut broken, &mut printed);
        }
        if let Err(number) = monitor.step(*step) {
            return Ran::new(2, &format!("{printed}step refused with {number}\n"));
        }
        say(&monitor, &mut broken, &mut printed);
    }
    if broken == 0 { Ran::new(0, &format!("{printed}every row kept\n")) } else { Ran::new(1, &printed) }
}

/// The same if every step arrives at once.
fn bench(rows: &[Constraint], steps: &[Step]) -> Ran {
    bench_with(rows, steps, 0, 0)
}

/// The lines for the rows that are broken now and were not.
fn say(monitor: &model::Monitor, broken: &mut u32, printed: &mut String) {
    let now = monitor.broken_rows();
    for row in (0..32).filter(|row| (now & !*broken) >> row & 1 == 1) {
        *printed += &format!("{}: row {row} broken\n", monitor.clock());
    }
    *broken = now;
}

/// The steps in a recording's bytes, all of whose records are whole.
fn steps_of(recording: &[u8]) -> Vec<Step> {
    let mut steps = Vec::new();
    let mut place = 1;
    while place < recording.len() {
        let (step, size) = model::recording::read_record(recording[0], &recording[place..]).expect("a whole record");
        steps.push(step);
        place += size;
    }
    steps
}

/// The bench loop on examples of the contract.
fn play(examples: impl IntoIterator<Item = Example>, run: impl Fn(&[PathBuf; 2]) -> Ran) {
    for example in examples {
        let steps: Vec<Step> =
            example.steps.iter().map(|(step, _)| *step).filter(|step| *step != Step::Close).collect();
        let rows = std::slice::from_ref(&example.row);
        let ran = run(&Files::new(&table_bytes(rows), &recording_bytes(&steps)).paths);
        assert_eq!(ran, bench(rows, &steps), "example {}", example.number);
        if let Verdict::Broken(_) = example.end() {
            assert_eq!(ran.status, Some(1), "example {}", example.number);
        }
    }
}

#[test]
fn the_loop_in_the_header_is_the_one_that_runs() {
    let header = fs::read_to_string(root().join("include/delkuthi.h")).expect("the header");
    let host = fs::read_to_string(root().join("host/c/bench_loop.c")).expect("the bench loop");
    let start = header.find("\n#define DELKUTHI_EDITION 2\n#include").expect("the example in the header");
    let end = start + header[start..].find("\n */").expect("the end of the comment");
    assert!(header[start..end].contains("int bench(") && host.contains(&header[start..end]));
}

#[test]
fn the_report_host() {
    let drive = String::from_utf8(example_bytes("report.txt")).expect("ASCII");
    let file = Files::new(&TABLE, &RECORDING);
    let empty = Files::new(&[], &[]);
    for level in LEVELS {
        let host = c_host("report", level);
        let runs: [fn(&Host, &[PathBuf; 2]) -> Ran; 2] =
            [|host, files| host.run(files), |host, files| host.run_in_valgrind(files)];
        for run in runs {
            assert_eq!(run(&host, &file.paths), Ran::new(0, REPORT));
            assert_eq!(run(&host, &[example("table.bin"), example("recording.bin")]), Ran::new(0, &drive));
            assert_eq!(run(&host, &empty.paths), Ran::new(0, "refused 1 0\n"));
        }
    }
}

/// In C, in C++ and in Rust.
#[test]
fn the_bench_loop_says_each_row_as_it_breaks() {
    let drive = [example("table.bin"), example("recording.bin")];
    let rows = read_table(&example_bytes("table.bin")).expect("a table");
    let expected = bench(&rows, &steps_of(&example_bytes("recording.bin")));
    assert!(expected.status == Some(1) && expected.printed.lines().count() == 3, "{expected:?}");
    let mut random = Random::new(401);
    let cpp = cpp17_host("bench_loop.cpp");
    let rust = Host::at(env!("CARGO_BIN_EXE_bench_loop"));
    for host in [c_host("bench_loop", "-O0"), c_host("bench_loop", "-O2"), cpp, rust] {
        assert_eq!(host.run(&drive), expected);
        assert_eq!(host.run_in_valgrind(&drive), expected);
        play(examples(), |files| host.run(files));
        for _ in 0..150 {
            let number = random.place(12);
            let rows = table(&mut random, number);
            let bytes = refused_recording(&mut random, &rows, 40);
            let ran = host.run(&Files::new(&table_bytes(&rows), &bytes).paths);
            assert_eq!(ran, bench(&rows, &steps_of(&bytes)), "{rows:?}, {bytes:02x?}");
        }
    }
}

/// The bench loops in C, C++ and Rust.
fn bench_loops() -> [Host; 3] {
    let rust = Host::at(env!("CARGO_BIN_EXE_bench_loop"));
    [c_host("bench_loop", "-O2"), cpp17_host("bench_loop.cpp"), rust]
}

/// The arguments of a bench loop.
fn with_delays(files: &Files, lag: u64, late: u64) -> Vec<PathBuf> {
    files.paths.iter().cloned().chain([lag, late].map(|time| time.to_string().into())).collect()
}

/// An answer that is stamped in time and arrives 3 later: a loop that ticks as soon as its clock passes the deadline breaks the row and
/// then has to refuse the answer. With a lag of 3 the row is kept.
#[test]
fn an_event_that_arrives_late() {
    let rows = [Constraint::Delay(Delay { source: 0, target: 1, lower: 0, upper: 50 })];
    let steps = model::notation::steps("0@100, 1@149");
    let files = Files::new(&table_bytes(&rows), &recording_bytes(&steps));
    for host in bench_loops() {
        let run = |lag, late| host.run(&with_delays(&files, lag, late));
        assert_eq!(run(0, 0), Ran::new(0, "every row kept\n"));
        assert_eq!(run(0, 3), Ran::new(2, "151: row 0 broken\nstep refused with 11\n"));
        assert_eq!(run(3, 3), Ran::new(0, "every row kept\n"));
        assert_eq!(host.run(&["a", "b", "c", "d", "e"]).status, Some(4));
        assert_eq!(host.run(&[&files.paths[0], &files.paths[1], &"x".into()]).status, Some(4));
    }
}

/// With a lag that is not less than the delay no step is refused that is taken without delay, and every row ends the same.
#[test]
fn a_lag_as_long_as_the_delay() {
    let mut random = Random::new(410);
    let hosts = bench_loops();
    for turn in 0..60 {
        let number = random.place(8);
        let rows = table(&mut random, number);
        let steps = steps_of(&recording(&mut random, &rows, 40));
        let files = Files::new(&table_bytes(&rows), &recording_bytes(&steps));
        let (lag, late) = (random.below(30), random.below(30));
        let expected = bench_with(&rows, &steps, lag, late);
        let ran = hosts[turn % 3].run(&with_delays(&files, lag, late));
        assert_eq!(ran, expected, "{rows:?}, {steps:?}, lag {lag}, late {late}");
        if late <= lag {
            assert_eq!(ran.status, bench(&rows, &steps).status, "{rows:?}, {steps:?}, lag {lag}, late {late}");
        }
    }
}

#[test]
fn the_bench_loop_under_valgrind() {
    let host = c_host("bench_loop", "-O2");
    let breaks = |example: &Example| matches!(example.end(), Verdict::Broken(_));
    play(examples().into_iter().filter(breaks), |files| host.run_in_valgrind(files));
}

#[test]
fn the_bench_loop_says_where_a_table_is_refused() {
    let mut random = Random::new(402);
    let host = c_host("bench_loop", "-O2");
    for _ in 0..50 {
        let bytes = damaged_table(&mut random);
        let Err(refusal) = read_table(&bytes) else { continue };
        let told = format!("table refused with {} at byte {}\n", refusal.number, refusal.place);
        assert_eq!(host.run(&Files::new(&bytes, &[1]).paths), Ran::new(2, &told));
    }
}

/// What the host with every cut is to print, by the model.
fn cuts(table: &[u8], recording: &[u8]) -> String {
    let fresh = |table: &[u8]| match read_table(table) {
        Ok(rows) => format!("fresh {}\n", rows.len()),
        Err(refusal) => format!("fresh refused {} {}\n", refusal.number, refusal.place),
    };
    let of_table = (0..=table.len()).map(|end| &table[..end]).map(|cut| fresh(cut) + &report_text(cut, recording));
    let of_recording = (0..=recording.len()).map(|end| report_text(table, &recording[..end]));
    of_table.chain(of_recording).collect()
}

#[test]
fn every_cut_in_blocks_of_just_that_length() {
    let mut random = Random::new(403);
    let hosts = LEVELS.map(|level| c_host("every_cut", level));
    for number in [1, 7, 32] {
        let rows = table(&mut random, number);
        let (table, recording) = (table_bytes(&rows), recording(&mut random, &rows, 12));
        let (files, expected) = (Files::new(&table, &recording), cuts(&table, &recording));
        for host in &hosts {
            assert_eq!(host.run(&files.paths), Ran::new(0, &expected));
        }
        if number < 32 {
            assert_eq!(hosts[1].run_in_valgrind(&files.paths), Ran::new(0, &expected));
        }
    }
}

/// What the host with pages is to print, by the model: fresh, after every tenth record, before the close and after it.
fn pages(rows: &[Constraint], recording: &[u8]) -> String {
    let mut monitor = model::Monitor::fresh(rows).expect("an accepted table");
    let mut printed = page_text(&monitor);
    for (number, step) in steps_of(recording).into_iter().enumerate() {
        let _ = monitor.step(step);
        if (number + 1) % 10 == 0 {
            printed += &page_text(&monitor);
        }
    }
    printed += &page_text(&monitor);
    monitor.close().expect("a recording not yet closed");
    printed + &page_text(&monitor)
}

#[test]
fn the_page_host() {
    let drive = String::from_utf8(example_bytes("page.txt")).expect("ASCII");
    let mut random = Random::new(408);
    for level in LEVELS {
        let host = c_host("page", level);
        let files = [example("table.bin"), example("recording.bin")];
        for ran in [host.run(&files), host.run_in_valgrind(&files)] {
            assert!(ran.status == Some(0) && ran.printed.ends_with(&drive), "{ran:?}");
        }
        for number in [0, 1, 15, 16, 17, 32] {
            let rows = table(&mut random, number);
            let bytes = refused_recording(&mut random, &rows, 40);
            let (files, expected) = (Files::new(&table_bytes(&rows), &bytes), pages(&rows, &bytes));
            assert_eq!(host.run(&files.paths), Ran::new(0, &expected));
            assert_eq!(host.run_in_valgrind(&files.paths), Ran::new(0, &expected));
        }
    }
}

/// Rows and the length of the buffer for their table, as the C host reads them, and what it is to print, by the model.
fn made(rows: &[Constraint], length: usize, seen: &mut Seen) -> (String, String) {
    let mut buffer = vec![0xA5; length];
    let answer = write_table(rows, &mut buffer);
    let told = match answer {
        Ok(written) => format!("0 {written} "),
        Err(number) => format!("{number} {} ", refused_row(rows).unwrap_or(0)),
    };
    let _ = seen.answer(answer);
    let given: String = rows.iter().map(numbers_of).collect();
    let bytes: String = buffer.iter().map(|byte| format!("{byte:02x}")).collect();
    (format!("{} {length}\n{given}", rows.len()), format!("{told}{bytes}\n"))
}

/// Tables of rows by their fields' names: the model's bytes, its refusals, and no byte behind the table.
#[test]
fn tables_made_in_c() {
    let mut random = Random::new(407);
    let mut seen = Seen::default();
    let (mut given, mut expected) = (String::new(), String::new());
    for turn in 0..1_500 {
        let rows = if turn % 3 == 0 { any_table(&mut random) } else { damaged_rows(&mut random) };
        let length = match turn % 20 {
            0 => delkuthi::TABLE_LIMIT,
            even if even % 2 == 0 => 1_200,
            _ => random.place(600),
        };
        let (tables, printed) = made(&rows, length, &mut seen);
        given += &tables;
        expected += &printed;
    }
    seen.demand_refusals((3..=7).chain([18]));
    seen.demand_refusals(16..=16);
    let folder = Folder::new();
    let file = folder.write("rows.txt", given.as_bytes());
    for level in LEVELS {
        let host = c_host("make_table", level);
        assert_eq!(host.run(&[&file]), Ran::new(0, &expected));
        if level == "-O2" {
            assert_eq!(host.run_in_valgrind(&[&file]), Ran::new(0, &expected));
        }
    }
}

/// A monitor has the size and alignment that Rust knows, and any memory is safe.
#[test]
fn the_monitors_memory() {
    let size = format!("{} {}\n", size_of::<Monitor>(), align_of::<Monitor>());
    assert_eq!(size, "35840 8\n");
    for level in LEVELS {
        let host = c_host("memory", level);
        assert_eq!(host.run(&["300"]), Ran::new(0, &size));
        assert_eq!(host.run_in_valgrind(&["20"]), Ran::new(0, &size));
    }
}

/// A row of each type of edition 1, and of each number of kinds, that stays open for a while; of each later type some.
fn one_of_each() -> Vec<Constraint> {
    let synchronization = |kinds: &[u8]| {
        Constraint::StrongSynchronization(StrongSynchronization { kinds: kinds.to_vec(), tolerance: 50 })
    };
    let mut random = Random::new(409);
    let later = types_in(NEWEST_EDITION).into_iter().filter(|one| !types_in(1).contains(one));
    let later = later.flat_map(|one| [one; 2]).map(|one| row_of_type(&mut random, one, Scale::Patient, &[0, 1, 2, 3]));
    let rows = [
        Constraint::Delay(Delay { source: 0, target: 1, lower: 2, upper: 30 }),
        Constraint::Delay(Delay { source: 0, target: 1, lower: 2, upper: NO_LIMIT }),
        Constraint::StrongDelay(StrongDelay { source: 0, target: 1, lower: 2, upper: 30 }),
        Constraint::Repeat(Repeat { event: 0, span: 3, lower: 0, upper: NO_LIMIT }),
        Constraint::Sporadic(Sporadic { event: 0, lower: 0, upper: NO_LIMIT, jitter: 3, minimum: 0 }),
        Constraint::Burst(Burst { event: 0, maximum: 9, length: 4, minimum: 0 }),
        Constraint::Order(Order { source: 0, target: 1 }),
        synchronization(&[0, 1]),
        synchronization(&[0, 1, 2]),
        synchronization(&[0, 1, 2, 3]),
        Constraint::ExecutionTime(ExecutionTime { start: 0, stop: 1, preempt: 2, resume: 3, lower: 2, upper: 50 }),
        Constraint::Repetition(Repetition { event: 0, span: 8, lower: 0, upper: 90, jitter: 9 }),
    ];
    rows.into_iter().chain(later).collect()
}

/// Whatever a monitor's memory holds, every call ends soon: the host gives each a limit of processor time.
#[test]
fn every_call_ends_soon_on_forged_memory() {
    let folder = Folder::new();
    let rows = one_of_each();
    let tables = rows.chunks(1).chain([&rows[..]]).enumerate();
    let mut arguments = vec![PathBuf::from("300")];
    arguments.extend(tables.map(|(i, rows)| folder.write(&format!("{i}.bin"), &table_bytes(rows))));
    let ran = c_host("forged", "-O2").run(&arguments);
    println!("{}", ran.printed);
    assert!(ran.status == Some(0) && ran.printed.ends_with(" calls\n"), "{ran:?}");
}

/// The archive is the header's and the Rust crate's; with another header a host finds that it is not.
#[test]
fn the_archive_and_the_header_match() {
    let library = format!("library {} {}\n", delkuthi::library_version(), size_of::<Monitor>());
    let of_header = |version: u32, size: usize| format!("{library}header {version} {size}\n");
    let (version, size) = (delkuthi::VERSION, size_of::<Monitor>());
    assert!(delkuthi::matches());
    for level in LEVELS {
        assert_eq!(c_host("version", level).run::<&str>(&[]), Ran::new(0, &of_header(version, size)));
    }
    let header = fs::read_to_string(root().join("include/delkuthi.h")).expect("the header");
    let other = |one: &str, another: &str| {
        assert_eq!(header.matches(one).count(), 1, "{one}");
        c_host_with_header("version", &header.replace(one, another)).run::<&str>(&[])
    };
    for (another, status) in [(version + 1, 0), (version + 1_000, 1), (version + 1_000_000, 1), (version - 1_000, 1)] {
        let told = other(&format!("UINT32_C({version})"), &format!("UINT32_C({another})"));
        assert_eq!(told, Ran::new(status, &of_header(another, size)));
    }
    let words = size / 8;
    let longer = other(&format!("words[{words}]"), &format!("words[{}]", words + 1));
    assert_eq!(longer, Ran::new(1, &of_header(version, size + 8)));
}

/// No call uses more than nine tenths of the stack that the header names. The host is linked as the header asks.
#[test]
fn the_stack() {
    let link = [archive_folder().join("libdelkuthi.a").into(), "-Wl,-z,now".into()];
    let mut compiler = c_compiler();
    let host = compile_with(compiler.arg("-O2"), &["stack.c", "file.c"], &root().join("include"), &link);
    let rows = table(&mut Random::new(405), 32);
    let files = Files::new(&table_bytes(&rows), &recording(&mut Random::new(406), &rows, 100));
    let drive = [example("table.bin"), example("recording.bin")];
    let ran = host.run(&files.paths.iter().chain(&drive).collect::<Vec<&PathBuf>>());
    println!("bytes of stack:\n{}", ran.printed);
    assert_eq!((ran.status, ran.printed.lines().count()), (Some(0), 20));
    let sheet = text("docs/DATASHEET.md");
    for line in ran.printed.lines() {
        let words: Vec<&str> = line.split(' ').collect();
        let (used, limit) = (words[0].parse::<u64>().expect("bytes"), words[2].parse::<u64>().expect("bytes"));
        assert!(used <= most_in_sheet(&sheet, limit / 1024) + SLACK, "the data sheet has less for {line}");
    }
}

/// How much more a call may use than the data sheet says: the words that its caller in C puts on the stack.
const SLACK: u64 = 64;

/// The most that the data sheet says of the calls with a limit of this many KiB on x86-64.
fn most_in_sheet(sheet: &str, limit: u64) -> u64 {
    let rows = sheet.lines().filter(|line| line.contains(&format!("_STACK` {limit} KiB |")));
    let used = rows.map(|row| row.split('|').nth(3).expect("a column").trim().replace(',', ""));
    used.map(|bytes| bytes.parse().expect("bytes")).max().expect("a row of the data sheet")
}

/// A report on a lent monitor, on a stack of 8,192 bytes.
#[test]
fn a_report_on_a_small_stack() {
    let drive = String::from_utf8(example_bytes("report.txt")).expect("ASCII");
    let empty = Files::new(&[], &[]);
    for level in LEVELS {
        let host = c_host("small_stack", level);
        assert_eq!(host.run(&[example("table.bin"), example("recording.bin")]), Ran::new(0, &drive));
        assert_eq!(host.run(&empty.paths), Ran::new(0, "refused 1 0\n"));
    }
}

#[test]
fn the_archive_without_a_c_library() {
    c_host_alone("alone");
}

#[test]
fn the_header_in_cpp() {
    assert_eq!(cpp_host("header.cpp").run_in_valgrind::<&str>(&[]), Ran::new(0, ""));
}

#[test]
fn the_classes_in_cpp() {
    assert_eq!(cpp17_host("classes.cpp").run_in_valgrind::<&str>(&[]), Ran::new(0, ""));
}

/// Before C++17 the compiler says what is needed.
#[test]
fn the_classes_need_cpp17() {
    let output = cpp_compiler()
        .args(["-std=c++14", "-fsyntax-only", "-I"])
        .arg(root().join("include"))
        .arg(root().join("host/c/classes.cpp"))
        .output()
        .expect("a C++ compiler");
    let said = String::from_utf8_lossy(&output.stderr).into_owned();
    assert!(!output.status.success() && said.contains("delkuthi.hpp needs C++17"), "{said}");
}

/// The header for C++ has every refusal of the header for C and every call, and lines of both fit a terminal.
#[test]
fn the_classes_have_every_call() {
    let header = Header::read();
    let classes = text("include/delkuthi.hpp");
    let names = header.refusals.keys().map(|name| format!(" = DELKUTHI_{name},"));
    let missing: Vec<String> = names.filter(|name| !classes.contains(name)).collect();
    assert!(missing.is_empty(), "{missing:?}");
    let declared = |line: &str| {
        let (result, rest) = line.split_once(" delkuthi_")?;
        let plain = ["uint8_t", "uint32_t", "uint64_t", "size_t"].contains(&result);
        plain.then(|| rest.split('(').next().map(|name| format!("delkuthi_{name}")))?
    };
    let calls: Vec<String> = header.text.lines().filter_map(declared).collect();
    // by the macro that compares them, and by the functions that write a table or are the form for both editions
    let others = ["delkuthi_version", "delkuthi_monitor_size", "delkuthi_table", "delkuthi_table_2"];
    let called = |name: &str| classes.contains(&format!("{name}(")) || classes.contains(&format!("{name}_2("));
    let missing: Vec<&String> = calls.iter().filter(|name| !others.contains(&name.as_str()) && !called(name)).collect();
    assert!(calls.len() >= 30 && missing.is_empty(), "{} calls, missing: {missing:?}", calls.len());
    let long = header.text.lines().chain(classes.lines()).filter(|line| line.chars().count() > 80);
    assert_eq!(long.collect::<Vec<&str>>(), Vec::<&str>::new());
}

/// The rules of MISRA C that a checker finds broken in the header are those that the list of deviations has.
#[test]
fn the_deviations_from_misra_are_listed() {
    if !found("cppcheck") {
        return say_so("cppcheck is not installed: the list of deviations from MISRA C was not compared");
    }
    let folder = Folder::new();
    let host = folder.write("host.c", b"#include \"delkuthi.h\"\nint f(void);\nint f(void) { return 0; }\n");
    let mut cppcheck = Command::new("cppcheck");
    cppcheck.args(["--addon=misra", "--std=c99", "--enable=style", "--quiet", "-I"]).arg(root().join("include"));
    let output = cppcheck.arg(host).current_dir(folder.path()).output().expect("cppcheck can be run");
    let said = String::from_utf8_lossy(&output.stderr).into_owned();
    let found = said.split("[misra-c2012-").skip(1).filter_map(|rest| rest.split(']').next().map(str::to_string));
    let found: BTreeSet<String> = found.collect();
    let list = text("docs/MISRA.md");
    let listed: BTreeSet<String> =
        list.lines().filter_map(|line| line.strip_prefix("| ")?.split(" |").next().map(str::to_string)).collect();
    assert!(!found.is_empty() && found.is_subset(&listed), "{:?}", found.difference(&listed).collect::<Vec<&String>>());
}

/// A longer drive than the examples', in both directions of the interface: the loop and the report agree.
#[test]
fn loop_and_report_agree() {
    let mut random = Random::new(404);
    let (report, bench_loop) = (c_host("report", "-O2"), c_host("bench_loop", "-O2"));
    for _ in 0..100 {
        let rows = any_table(&mut random);
        let files = Files::new(&table_bytes(&rows), &recording(&mut random, &rows, 60));
        let (reported, looped) = (report.run(&files.paths), bench_loop.run(&files.paths));
        if reported.printed.starts_with("refused") {
            continue;
        }
        let rows_in = |text: &str, place: usize| -> BTreeSet<String> {
            let broken = text.lines().filter(|line| line.contains("broken"));
            broken.map(|line| line.split(' ').nth(place).expect("a row").to_string()).collect()
        };
        assert_eq!(rows_in(&looped.printed, 2), rows_in(&reported.printed, 0));
        assert_eq!(looped.printed == "every row kept\n", rows_in(&reported.printed, 0).is_empty());
    }
}

/// Warnings that careful hosts switch on; each is an error here.
const C_WARNINGS: [&str; 6] =
    ["-Wmissing-prototypes", "-Wstrict-prototypes", "-Wconversion", "-Wsign-conversion", "-Wshadow", "-Wundef"];
const CPP_WARNINGS: [&str; 5] = ["-Wold-style-cast", "-Wconversion", "-Wsign-conversion", "-Wshadow", "-Wundef"];

/// Compiles a host with a compiler of this name and its strict warnings, if there is such a compiler.
fn strict(compiler: &str, standard: &str, warnings: &[&str], files: &[&str]) -> Option<Host> {
    let link = archive_folder().join("libdelkuthi.a");
    let mut command = Command::new(compiler);
    command.arg(standard).args(warnings);
    found(compiler).then(|| compile_with(&mut command, files, &root().join("include"), &[link.into()]))
}

/// Header and hosts compile without a warning, by every compiler that is there.
#[test]
fn strict_compilers_do_not_complain() {
    let c: Vec<Host> = ["cc", "gcc", "clang"]
        .into_iter()
        .flat_map(|compiler| {
            [["refusals.c", "file.c"], ["bench_loop.c", "file.c"], ["make_table.c", "file.c"], ["page.c", "file.c"]]
                .map(|files| (compiler, files))
        })
        .filter_map(|(compiler, files)| strict(compiler, "-std=c99", &C_WARNINGS, &files))
        .collect();
    assert!(!c.is_empty(), "no C compiler");
    let cpp = ["c++", "g++", "clang++"];
    let cpp: Vec<Host> =
        cpp.iter().filter_map(|name| strict(name, "-std=c++11", &CPP_WARNINGS, &["header.cpp"])).collect();
    assert!(!cpp.is_empty(), "no C++ compiler");
    assert!(cpp.iter().all(|host| host.run::<&str>(&[]) == Ran::new(0, "")));
}

/// The header has a text for every refusal, and it is the Rust crate's.
#[test]
fn what_a_refusal_says() {
    let texts: String = (0..=255).map(|number| format!("{}\n", delkuthi::refusal_text(number))).collect();
    assert_eq!(c_host("refusals", "-O2").run::<&str>(&[]), Ran::new(0, &texts));
    let without = delkuthi::refusal_text(255);
    assert!((1..=19).chain([21, 24, 25]).all(|number| delkuthi::refusal_text(number) != without));
}
