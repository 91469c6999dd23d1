//! Hosts in C: compiled, linked with the archive, and run.

use crate::places::{Folder, archive_folder, root};
use std::ffi::{OsStr, OsString};
use std::io::Write;
use std::path::{Path, PathBuf};
use std::process::{Command, Output};
use std::{env, fs};

/// A compiled host.
pub struct Host {
    program: PathBuf,
    _folder: Folder,
}

/// What a host did: its exit status and what it printed.
#[derive(Debug, PartialEq, Eq)]
pub struct Ran {
    pub status: Option<i32>,
    pub printed: String,
}

impl Ran {
    /// A host that ended with this status and printed this.
    pub fn new(status: i32, printed: &str) -> Ran {
        Ran { status: Some(status), printed: printed.to_string() }
    }
}

/// Compiles a C host of `host/c`, at an optimisation level as "-O2", with every warning an error.
///
/// # Panics
/// With what the compiler says, if it does not compile.
pub fn c_host(name: &str, level: &str) -> Host {
    let file = format!("{name}.c");
    compile(c_compiler().args([level, "-pthread"]), &[&file, "file.c"])
}

/// Compiles a C host of `host/c` with another text for the header, and links it with the archive.
///
/// # Panics
/// With what the compiler says, if it does not compile.
pub fn c_host_with_header(name: &str, header: &str) -> Host {
    let folder = Folder::new();
    folder.write("delkuthi.h", header.as_bytes());
    let file = format!("{name}.c");
    compile(c_compiler().arg("-I").arg(folder.path()), &[&file])
}

/// Compiles a C host of `host/c` without the C library.
///
/// # Panics
/// With what the compiler or linker says, if something is missing.
pub fn c_host_alone(name: &str) -> Host {
    let file = format!("{name}.c");
    compile(c_compiler().args(["-ffreestanding", "-nostdlib", "-Wl,-e,start"]), &[&file])
}

/// The C compiler, for C99.
pub fn c_compiler() -> Command {
    let mut compiler = Command::new(env::var_os("CC").unwrap_or_else(|| "cc".into()));
    compiler.arg("-std=c99");
    compiler
}

/// Compiles a C++ host of `host/c`.
///
/// # Panics
/// With what the compiler says, if it does not compile.
pub fn cpp_host(file: &str) -> Host {
    compile(&mut cpp_compiler(), &[file])
}

/// Compiles a C++17 host of `host/c`, with every warning an error.
///
/// # Panics
/// With what the compiler says, if it does not compile.
pub fn cpp17_host(file: &str) -> Host {
    compile(cpp_compiler().args(["-std=c++17", "-Wold-style-cast", "-Wconversion", "-Wshadow"]), &[file])
}

/// The C++ compiler, for C++11.
#[must_use]
pub fn cpp_compiler() -> Command {
    let mut compiler = Command::new(env::var_os("CXX").unwrap_or_else(|| "c++".into()));
    compiler.arg("-std=c++11");
    compiler
}

/// Compiles files of `host/c` and links them with the archive.
fn compile(compiler: &mut Command, files: &[&str]) -> Host {
    compile_with(compiler, files, &root().join("include"), &[archive_folder().join("libdelkuthi.a").into()])
}

/// Compiles files of `host/c` with the header in a folder, and links them as these words to the linker say.
///
/// # Panics
/// With what the compiler or linker says, if it does not compile.
pub fn compile_with(compiler: &mut Command, files: &[&str], include: &Path, link: &[OsString]) -> Host {
    let folder = Folder::new();
    let program = folder.path().join("host");
    let sources = root().join("host/c");
    let output = compiler
        .args(["-Wall", "-Wextra", "-Werror", "-pedantic", "-g", "-I"])
        .arg(include)
        .arg("-o")
        .arg(&program)
        .args(files.iter().map(|file| sources.join(file)))
        .args(link)
        .output()
        .unwrap_or_else(|error| panic!("{compiler:?}: {error}: .ci/install installs what the tests need"));
    assert!(output.status.success(), "{files:?}: {}", String::from_utf8_lossy(&output.stderr));
    Host { program, _folder: folder }
}

impl Host {
    /// A host that is compiled already.
    pub fn at(program: &str) -> Host {
        Host { program: PathBuf::from(program), _folder: Folder::new() }
    }

    /// Runs the host.
    pub fn run<A: AsRef<OsStr>>(&self, arguments: &[A]) -> Ran {
        ran(Command::new(&self.program).args(arguments).output())
    }

    /// Runs the host under valgrind, whose every complaint is an exit status of 99.
    ///
    /// # Panics
    /// If there is no valgrind.
    pub fn run_in_valgrind<A: AsRef<OsStr>>(&self, arguments: &[A]) -> Ran {
        let checked = ["--quiet", "--error-exitcode=99", "--leak-check=full"];
        let output = Command::new("valgrind").args(checked).arg(&self.program).args(arguments).output();
        ran(output.inspect_err(|error| panic!("valgrind: {error}: .ci/install installs what the tests need")))
    }
}

/// What a process did; what it says in errors is told if the test fails.
///
/// # Panics
/// If it could not be started, or printed something that is no text.
pub fn ran(output: std::io::Result<Output>) -> Ran {
    let output = output.expect("the program can be run");
    if !output.stderr.is_empty() {
        println!("{}", String::from_utf8_lossy(&output.stderr));
    }
    Ran { status: output.status.code(), printed: String::from_utf8(output.stdout).expect("ASCII") }
}

/// Runs a command, which has to end well, and gives what it prints and says.
///
/// # Panics
/// If it does not.
pub fn done(command: &mut Command) -> String {
    let output = command.output().unwrap_or_else(|error| panic!("{command:?}: {error}"));
    let said = String::from_utf8_lossy(&output.stdout).into_owned() + &String::from_utf8_lossy(&output.stderr);
    assert!(output.status.success(), "{command:?}: {said}");
    said
}

/// Is there a program of this name, or at this path?
pub fn found(name: impl AsRef<OsStr>) -> bool {
    let file = Path::new(name.as_ref());
    let in_folder = |folder: PathBuf| fs::metadata(folder.join(file)).is_ok_and(|data| data.is_file());
    file.is_file() || env::var_os("PATH").is_some_and(|path| env::split_paths(&path).any(in_folder))
}

/// Says something in the test's output, also where the test passes.
pub fn say(text: &str) {
    let _ = writeln!(std::io::stderr(), "{text}");
}
