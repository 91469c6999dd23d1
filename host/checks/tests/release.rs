//! The release: what `make` builds and `make install` puts where, and hosts in C, C++ and Python that use the copy.

use checks::documents::{files, text_of};
use checks::hosts::{Host, Ran, c_compiler, compile_with, cpp_compiler, done, found, ran, say};
use checks::places::{Folder, archive_folder, example, example_bytes, root};
use checks::release::{Installed, RustHost, interface, make, version};
use model::random::Random;
use model::random::calls::calls;
use model::random::tables::any_table;
use model::{Step, Verdict, recording_bytes, table_bytes};
use std::ffi::OsString;
use std::fs;
use std::path::{Path, PathBuf};
use std::process::Command;

/// The report on the drive in `examples/`.
fn drive() -> String {
    String::from_utf8(example_bytes("report.txt")).expect("ASCII")
}

fn drive_files() -> [std::path::PathBuf; 2] {
    [example("table.bin"), example("recording.bin")]
}

/// What a tool prints about a file.
fn told(tool: &str, words: &[&str], file: &Path) -> String {
    let output = Command::new(tool).args(words).arg(file).output();
    let output = output.unwrap_or_else(|error| panic!("{tool}: {error}"));
    assert!(output.status.success(), "{tool}: {}", String::from_utf8_lossy(&output.stderr));
    String::from_utf8(output.stdout).expect("text")
}

/// Words to the linker for the shared library of the copy, found again when the host runs, and for the archive.
fn shared(copy: &Installed) -> Vec<OsString> {
    let lib = copy.lib().display().to_string();
    vec![format!("-L{lib}").into(), "-ldelkuthi".into(), format!("-Wl,-rpath,{lib}").into()]
}

fn archive(copy: &Installed) -> Vec<OsString> {
    vec![copy.lib().join("libdelkuthi.a").into()]
}

/// Both ways of installing.
fn copies() -> [Installed; 2] {
    [Installed::in_prefix(), Installed::staged()]
}

/// What is installed beside the headers and the files of the shared library.
const INSTALLED: [&str; 25] = [
    "bin/delkuthi",
    "lib/cmake/delkuthi/delkuthi-config-version.cmake",
    "lib/cmake/delkuthi/delkuthi-config.cmake",
    "lib/libdelkuthi.a",
    "lib/libdelkuthi.so",
    "lib/pkgconfig/delkuthi.pc",
    "share/doc/delkuthi/CHANGELOG.md",
    "share/doc/delkuthi/CONTRACT.md",
    "share/doc/delkuthi/DATASHEET.md",
    "share/doc/delkuthi/LICENSE",
    "share/doc/delkuthi/MISRA.md",
    "share/doc/delkuthi/NOTICE",
    "share/doc/delkuthi/QUALIFICATION.md",
    "share/doc/delkuthi/SAFETY.md",
    "share/doc/delkuthi/SUPPORT.md",
    "share/doc/delkuthi/TRACE.md",
    "share/doc/delkuthi/examples/bench_loop.c",
    "share/doc/delkuthi/examples/causes.c",
    "share/doc/delkuthi/examples/file.c",
    "share/doc/delkuthi/examples/file.h",
    "share/doc/delkuthi/examples/recording.bin",
    "share/doc/delkuthi/examples/report.c",
    "share/doc/delkuthi/examples/table.bin",
    "share/man/man1/delkuthi.1",
    "share/man/man3/delkuthi.3",
];

#[test]
fn what_is_installed_and_taken_away_again() {
    let (version, interface) = (version(), interface());
    for copy in copies() {
        let mut expected = vec![format!("lib/libdelkuthi.so.{interface}"), format!("lib/libdelkuthi.so.{version}")];
        expected.extend(INSTALLED.map(str::to_string));
        let headers = files("include", &[".h", ".hpp"]);
        let name = |file: &PathBuf| format!("include/{}", file.file_name().expect("a name").display());
        expected.extend(headers.iter().map(name));
        expected.sort();
        assert_eq!(copy.files(), expected);
        copy.uninstall();
        assert!(!copy.at.exists(), "a folder is left in {}", copy.at.display());
    }
}

#[test]
fn a_host_in_c() {
    for copy in copies() {
        for link in [shared(&copy), archive(&copy)] {
            let host = compile_with(&mut c_compiler(), &["report.c", "file.c"], &copy.include(), &link);
            assert_eq!(host.run(&drive_files()), Ran::new(0, &drive()));
        }
    }
}

/// What the host prints of each row that a drive leaves, by the model.
fn causes_by_the_model(monitor: &model::Monitor) -> String {
    let line = |row: usize| match (monitor.row_cause(row), monitor.verdict(row)) {
        (Some(cause), Ok(Verdict::Broken(step))) => {
            let (number, moment) = cause.numbers();
            let by = ["by the clock", "by an event", "at the close"][usize::from(number) - 1];
            format!("row {row} broken {by}, at {moment}, step {step}\n")
        }
        _ => format!("row {row} kept\n"),
    };
    (0..monitor.rows().len()).map(line).collect()
}

/// A host that was written from the installed header says of each row whether the clock, an event or the close broke it, and when.
#[test]
fn a_host_that_says_why_rows_broke() {
    let copy = Installed::in_prefix();
    let host = compile_with(&mut c_compiler(), &["causes.c", "file.c"], &copy.include(), &shared(&copy));
    let (mut random, mut seen) = (Random::new(531), [0; 4]);
    let folder = Folder::new();
    for _ in 0..300 {
        let rows = any_table(&mut random);
        let steps: Vec<Step> = calls(&mut random, &rows, 60).into_iter().filter(|step| *step != Step::Close).collect();
        let mut monitor = model::Monitor::fresh(&rows).expect("an accepted table");
        let taken: Vec<Step> = steps.into_iter().filter(|step| monitor.step(*step).is_ok()).collect();
        monitor.close().expect("a recording not yet closed");
        let files =
            [folder.write("table.bin", &table_bytes(&rows)), folder.write("recording.bin", &recording_bytes(&taken))];
        assert_eq!(host.run(&files), Ran::new(0, &causes_by_the_model(&monitor)), "{rows:?}: {taken:?}");
        let causes = (0..rows.len()).map(|row| monitor.row_cause(row).map_or(0, |cause| cause.numbers().0));
        causes.for_each(|cause| seen[usize::from(cause)] += 1);
    }
    assert!(seen.iter().all(|number| *number > 50), "{seen:?}");
}

/// The archive with another C library than glibc.
#[test]
fn a_host_with_musl() {
    if !found("musl-gcc") {
        return say("musl-gcc is not installed: no host was linked with musl");
    }
    let copy = Installed::in_prefix();
    let host = compile_with(
        Command::new("musl-gcc").arg("-static"),
        &["report.c", "file.c"],
        &copy.include(),
        &archive(&copy),
    );
    assert_eq!(host.run(&drive_files()), Ran::new(0, &drive()));
}

#[test]
fn a_host_in_cpp() {
    for copy in copies() {
        for link in [shared(&copy), archive(&copy)] {
            let mut compiler = cpp_compiler();
            let host: Host = compile_with(&mut compiler, &["header.cpp"], &copy.include(), &link);
            assert_eq!(host.run::<&str>(&[]), Ran::new(0, ""));
        }
    }
}

#[test]
fn a_host_in_python() {
    assert!(found("python3"), "python3, which loads the shared library, must be in the PATH");
    for copy in copies() {
        let mut python = Command::new("python3");
        python.arg(root().join("host/python/report.py"));
        python.arg(copy.lib().join("libdelkuthi.so")).args(drive_files());
        assert_eq!(ran(python.output()), Ran::new(0, &drive()));
    }
}

/// The bench loop in Python says what the one in C says.
#[test]
fn a_bench_loop_in_python() {
    let copy = Installed::in_prefix();
    let mut python = Command::new("/usr/bin/python3");
    python.arg(root().join("host/python/bench_loop.py")).args(drive_files());
    python.env("PYTHONPATH", root().join("python")).env("DELKUTHI_LIB", copy.lib());
    let said = ran(python.output());
    assert!(said.status == Some(1) && said.printed.lines().count() == 3, "{said:?}");
    assert_eq!(said, checks::hosts::c_host("bench_loop", "-O2").run(&drive_files()));
    for (lag, status, lines) in [("3000", 1, 3), ("0", 2, 2)] {
        python = Command::new("/usr/bin/python3");
        python.arg(root().join("host/python/bench_loop.py")).args(drive_files()).args([lag, "3000"]);
        let said = ran(python.env("PYTHONPATH", root().join("python")).env("DELKUTHI_LIB", copy.lib()).output());
        assert!(said.status == Some(status) && said.printed.lines().count() == lines, "lag {lag}: {said:?}");
    }
}

/// A host in Rust that has the wrapper's folder as a copy takes the archive; neither needs the Rattle kit then.
#[test]
fn a_host_in_rust() {
    let copy = Installed::in_prefix();
    let output = RustHost::new().run(Some(&copy.lib()), &drive_files());
    assert_eq!(ran(Ok(output)), Ran::new(0, &drive()));
}

/// Where there is no archive, and no kit to make one, the build ends with a line that says what to do.
#[test]
fn a_host_in_rust_without_an_archive() {
    let host = RustHost::new();
    let nowhere = Folder::new();
    let said = [
        (Some(nowhere.path()), "DELKUTHI_LIB has to name the folder of libdelkuthi.a"),
        (None, "set DELKUTHI_LIB to the folder of libdelkuthi.a"),
    ];
    for (archive, expected) in said {
        let output = host.run(archive, &drive_files());
        let told = String::from_utf8(output.stderr).expect("text");
        let line = told.lines().find(|line| line.contains(expected));
        assert!(
            !output.status.success() && line.is_some_and(|line| line.trim_start().starts_with("error: ")),
            "{told}"
        );
        assert!(!told.contains("panicked"), "{told}");
    }
}

/// Debian's Rust, which in Debian 12 is the oldest that the wrapper names, compiles it and its build script without a
/// warning.
#[test]
fn the_oldest_rust() {
    let folder = Folder::new();
    for (file, kind, feature) in
        [("src/lib.rs", "rlib", "std"), ("src/lib.rs", "rlib", "none"), ("build.rs", "bin", "none")]
    {
        let mut rustc = Command::new("/usr/bin/rustc");
        rustc.args(["--edition=2021", "-Dwarnings", "--crate-name=delkuthi", "--crate-type", kind, "--cfg"]);
        rustc.arg(format!("feature={feature:?}")).arg(root().join("host/delkuthi").join(file));
        rustc.arg("--out-dir").arg(folder.path()).env("CARGO_MANIFEST_DIR", root().join("host/delkuthi"));
        for (name, number) in ["MAJOR", "MINOR", "PATCH"].iter().zip(version().split('.')) {
            rustc.env(format!("CARGO_PKG_VERSION_{name}"), number);
        }
        assert_eq!(ran(rustc.output()), Ran::new(0, ""), "{file} {feature}");
    }
}

#[test]
fn the_program_of_the_copy() {
    for copy in copies() {
        let mut program = Command::new(copy.at.join("bin/delkuthi"));
        assert_eq!(ran(program.current_dir(root().join("examples")).output()), Ran::new(1, &drive()));
    }
}

/// The archive is the one that was proved, byte for byte: what is installed is a copy.
#[test]
fn the_archive_is_copied() {
    for copy in copies() {
        let [installed, given] =
            [copy.lib(), archive_folder().to_path_buf()].map(|folder| folder.join("libdelkuthi.a"));
        assert!(fs::read(installed).expect("an archive") == fs::read(given).expect("an archive"));
    }
}

/// The shared library shows the calls of the header and nothing else, each under the name of the interface, and has the name
/// that hosts are linked with.
#[test]
fn what_the_shared_library_shows() {
    let copy = Installed::in_prefix();
    let library = copy.lib().join("libdelkuthi.so");
    let header = text_of(&copy.include().join("delkuthi.h"));
    let node = format!("DELKUTHI_{}", interface());
    let symbols = told("nm", &["-D", "--defined-only"], &library);
    let names: Vec<&str> = symbols.lines().map(|line| line.rsplit(' ').next().expect("a name")).collect();
    assert!(names.contains(&format!("delkuthi_report@@{node}").as_str()), "{names:?}");
    for name in names.into_iter().filter(|name| *name != node) {
        let (call, under) = name.split_once("@@").expect("a version");
        assert!(call.starts_with("delkuthi_") && header.contains(&format!("{call}(")) && under == node, "{name}");
    }
    let dynamic = told("readelf", &["-dW"], &library);
    assert!(dynamic.contains(&format!("Library soname: [libdelkuthi.so.{}]", interface())), "{dynamic}");
}

/// Two interfaces in one process: each caller gets the library that it was linked with.
#[test]
fn two_interfaces_in_one_process() {
    let folder = Folder::new();
    let library = |version: &str| {
        let place = folder.path().join(version);
        let output = make(&place, &["lib", &format!("VERSION={version}")]);
        assert!(output.status.success(), "{}", String::from_utf8_lossy(&output.stderr));
        place
    };
    let link = |place: &Path, words: &[&str], out: &str| {
        let mut compiler = c_compiler();
        compiler.args(words).arg("-fPIC").arg("-I").arg(root().join("include")).arg(root().join("host/c/which.c"));
        compiler.arg(format!("-L{0}", place.display())).arg(format!(
            "-Wl,-rpath,{0}:{1}",
            place.display(),
            folder.path().display()
        ));
        compiler.arg("-Wl,--no-as-needed").arg("-ldelkuthi").arg(format!("-L{}", folder.path().display()));
        done(
            compiler.args(if words.is_empty() { &["-lpart"][..] } else { &[] }).arg("-o").arg(folder.path().join(out)),
        );
    };
    let (one, other) = (library("7.1.0"), library("8.0.0"));
    link(&other, &["-shared", "-DPART"], "libpart.so");
    link(&one, &[], "which");
    let printed = done(&mut Command::new(folder.path().join("which")));
    let files: Vec<&str> = printed.lines().map(|line| line.rsplit('/').next().expect("a name")).collect();
    assert_eq!(files, ["libdelkuthi.so.7", "libdelkuthi.so.8"]);
}

/// The shared library needs glibc 2.14 and no later one, and has no variables; neither it nor the program has a stack that
/// can be executed or an address that can be overwritten once it runs.
#[test]
fn what_the_library_and_the_program_need() {
    let copy = Installed::in_prefix();
    let library = copy.lib().join("libdelkuthi.so");
    let needed = told("readelf", &["-VW"], &library);
    let later = |line: &&str| {
        let number =
            line.split("GLIBC_2.").nth(1).map(|rest| rest.chars().take_while(char::is_ascii_digit).collect::<String>());
        number.is_some_and(|number| number.parse::<u32>().expect("a number") > 14)
    };
    assert_eq!(needed.lines().find(later), None);
    let sections = told("readelf", &["-SW"], &archive_folder().join("libdelkuthi.a"));
    let variables = |line: &&str| [" .data", " .bss", " .tdata", " .tbss"].iter().any(|name| line.contains(name));
    assert_eq!(sections.lines().find(variables), None);
    for file in [library, copy.at.join("bin/delkuthi")] {
        let (segments, dynamic) = (told("readelf", &["-lW"], &file), told("readelf", &["-dW"], &file));
        let stack = segments.lines().find(|line| line.contains("GNU_STACK")).expect("a stack");
        assert!(stack.contains(" RW ") && !stack.contains(" RWE "), "{stack}");
        assert!(segments.contains("GNU_RELRO") && dynamic.contains("NOW"), "{}", file.display());
        assert!(told("readelf", &["-hW"], &file).contains("DYN"), "{}", file.display());
    }
}

/// A host that CMake builds, with the shared library and with the archive, from a copy that was moved.
#[test]
fn a_host_of_cmake() {
    if !found("cmake") {
        return say("cmake is not installed: the files for it were not used");
    }
    let copy = Installed::staged();
    let folder = Folder::new();
    let sources = root().join("host/c");
    let project = format!(
        "cmake_minimum_required(VERSION 3.13)\nproject(buyer C)\nfind_package(delkuthi {} REQUIRED)\n\
         foreach(form delkuthi archive)\n add_executable(of_${{form}} {}/report.c {}/file.c)\n\
         target_link_libraries(of_${{form}} delkuthi::${{form}})\nendforeach()\n\
         find_package(delkuthi 0.1)\nif(delkuthi_FOUND)\n message(FATAL_ERROR \"another interface was taken\")\nendif()\n",
        interface(),
        sources.display(),
        sources.display()
    );
    folder.write("CMakeLists.txt", project.as_bytes());
    let build = folder.path().join("build");
    let mut configure = Command::new("cmake");
    configure.arg("-S").arg(folder.path()).arg("-B").arg(&build);
    configure.arg(format!("-DCMAKE_PREFIX_PATH={}", copy.at.display()));
    done(&mut configure);
    done(Command::new("cmake").arg("--build").arg(&build));
    for form in ["of_delkuthi", "of_archive"] {
        let ran = ran(Command::new(build.join(form)).args(drive_files()).output());
        assert_eq!(ran, Ran::new(0, &drive()));
    }
}

/// The build uses the user's flags, and they do not remove the program's own flags.
#[test]
fn flags_from_outside() {
    let folder = Folder::new();
    let planned = make(folder.path(), &["-n", "program", "CPPFLAGS=-DMINE", "CFLAGS=-O1 -g", "LDFLAGS=-Wl,-O1"]);
    let planned = String::from_utf8(planned.stdout).expect("text");
    let line = planned.lines().find(|line| line.contains("program/delkuthi.c")).expect("the program is compiled");
    for flag in ["-DMINE", "-O1 -g", "-Wl,-O1", "-fstack-protector-strong", "-pie"] {
        assert!(line.contains(flag), "{flag} in {line}");
    }
}

#[test]
fn the_pkg_config_file() {
    for copy in copies() {
        let file = copy.lib().join("pkgconfig/delkuthi.pc");
        let text = std::fs::read_to_string(&file).expect("delkuthi.pc");
        let prefix = format!("prefix={}", copy.prefix.display());
        let version = format!("Version: {}", version());
        for line in [prefix.as_str(), "libdir=${prefix}/lib", "includedir=${prefix}/include", version.as_str()] {
            assert!(text.lines().any(|found| found == line), "{line} in {text}");
        }
        if !found("pkg-config") {
            say("pkg-config is not installed: delkuthi.pc was read, and not used");
            continue;
        }
        let flags = told("pkg-config", &["--cflags", "--libs"], &file);
        let at = copy.prefix.display();
        assert_eq!(flags.trim_end(), format!("-I{at}/include -L{at}/lib -ldelkuthi"));
    }
}

/// A bare `make` builds and does not prove everything again, and `make help` names every target.
#[test]
fn what_make_says() {
    let folder = Folder::new();
    let planned = make(folder.path(), &["-n"]);
    let planned = String::from_utf8(planned.stdout).expect("text");
    assert!(planned.contains("program/delkuthi.c") && !planned.contains(".ci/run"), "{planned}");
    let help = String::from_utf8(make(folder.path(), &["help"]).stdout).expect("text");
    let makefile = text_of(&root().join("Makefile"));
    let targets = makefile.lines().find_map(|line| line.strip_prefix(".PHONY: ")).expect("the targets");
    let inner = ["all", "help", "always", "install-lib", "install-dev"];
    assert!(!planned.contains("rt "), "rt is not needed for an archive that is there: {planned}");
    for target in targets.split(' ').filter(|target| !inner.contains(target)) {
        assert!(help.contains(&format!("make {target} ")), "{target} in {help}");
    }
}

/// The words of a text that have the form of a file of this repository, or of a path in it.
fn files_named(text: &str) -> Vec<String> {
    const FOLDERS: [&str; 8] =
        ["crates/", "docs/", "examples/", "host/", "include/", "program/", "python/", "release/"];
    const ENDINGS: [&str; 8] = [".md", ".rs", ".rt", ".antt", ".c", ".h", ".hpp", ".py"];
    let part = |letter: char| letter.is_ascii_alphanumeric() || "._-/".contains(letter);
    let words = text.split(|letter: char| !part(letter)).map(|word| word.trim_matches('.'));
    let names = |word: &&str| {
        FOLDERS.iter().any(|folder| word.starts_with(folder)) || ENDINGS.iter().any(|end| word.ends_with(end))
    };
    words.filter(names).map(str::to_string).collect()
}

/// What is installed names only what is installed: no path of the sources, no document that stayed there. A host's own file
/// is called bench.c or host.c.
#[test]
fn installed_files_name_installed_files() {
    let copy = Installed::in_prefix();
    let installed = copy.files();
    let texts = installed
        .iter()
        .filter(|file| !file.starts_with("bin/") && (!file.starts_with("lib/lib")) && !file.ends_with(".bin"));
    let mut missing = Vec::new();
    for file in texts {
        let lines = text_of(&copy.at.join(file));
        let text: Vec<&str> = lines.lines().filter(|line| !line.starts_with("#include <")).collect();
        let there = |name: &String| {
            let own = ["bench.c", "host.c", ".h", ".c", ".md", "bench.h"].contains(&name.as_str());
            own || installed.iter().any(|file| file == name || file.ends_with(&format!("/{name}")))
        };
        missing.extend(
            files_named(&text.join("\n")).into_iter().filter(|name| !there(name)).map(|name| format!("{file}: {name}")),
        );
    }
    assert!(missing.is_empty(), "{}", missing.join("\n"));
}

/// The manual pages name every call of the header, and what the program's arguments and its statuses are.
#[test]
fn the_manual_pages() {
    let copy = Installed::in_prefix();
    let page = |name: &str| text_of(&copy.at.join("share/man").join(name));
    let library = page("man3/delkuthi.3");
    let symbols = told("nm", &["--defined-only", "-g"], &copy.lib().join("libdelkuthi.a"));
    let calls: Vec<&str> = symbols.lines().filter_map(|line| line.split_once(" T ")).map(|(_, name)| name).collect();
    let unnamed: Vec<&&str> =
        calls.iter().filter(|call| call.starts_with("delkuthi_") && !library.contains(*call)).collect();
    assert!(!calls.is_empty() && unnamed.is_empty(), "{unnamed:?}");
    for inline in [
        "delkuthi_make_table(",
        "delkuthi_make_table_2(",
        "delkuthi_edition(",
        "delkuthi_delay(",
        "delkuthi_refusal_text(",
    ] {
        assert!(library.contains(inline), "{inline}");
    }
    let program = page("man1/delkuthi.1");
    assert!(
        [".BI \\-\\-edition", ".B \\-\\-version", ".B \\-\\-help", ".B 3"].iter().all(|text| program.contains(text))
    );
    for text in [library, program] {
        assert!(text.contains(&format!("Delkuthi {}", version())) && !text.contains('@'), "{text}");
    }
}
