//! The product as a buyer has it: installed by `make install`, in a folder for one test.

use crate::places::{Folder, archive_folder, root};
use std::ffi::OsString;
use std::os::unix::fs::symlink;
use std::path::{Path, PathBuf};
use std::process::{Command, Output};
use std::{env, fs};

/// `make` in a folder of sources, with the archive that the tests have, and without the settings of the process that
/// started the tests.
pub fn make_in(sources: &Path) -> Command {
    let mut command = Command::new("make");
    // the tests may have been started by make themselves
    for name in ["MAKEFLAGS", "MAKELEVEL", "MFLAGS", "DESTDIR", "PREFIX", "CFLAGS", "CPPFLAGS", "LDFLAGS"] {
        command.env_remove(name);
    }
    command.current_dir(sources).env("DELKUTHI_LIB", archive_folder());
    command
}

/// `make` at the repository's root, and what it builds in a separate folder.  # Panics If there is no `make`.
pub fn make(build: &Path, words: &[&str]) -> Output {
    let mut command = make_in(&root());
    command.arg(format!("BUILD={}", build.display())).args(words);
    command.output().expect("make, which builds and installs the library, must be in the PATH")
}

/// An installed copy. It goes away with its folder.
pub struct Installed {
    folder: Folder,
    /// What `PREFIX` and `DESTDIR` were.
    words: Vec<String>,
    /// The folder that has `bin`, `lib`, `include` and `share`.
    pub at: PathBuf,
    /// Where the copy takes itself to be: `at`, or what will be there once it has been moved out of `DESTDIR`.
    pub prefix: PathBuf,
}

impl Installed {
    /// `make install PREFIX=..`
    pub fn in_prefix() -> Installed {
        let folder = Folder::new();
        let at = folder.path().join("prefix");
        let words = vec![format!("PREFIX={}", at.display())];
        Installed { folder, words, prefix: at.clone(), at }.install()
    }

    /// `make install DESTDIR=.. PREFIX=/opt/delkuthi`
    pub fn staged() -> Installed {
        let folder = Folder::new();
        let stage = folder.path().join("stage");
        let words = vec![format!("DESTDIR={}", stage.display()), "PREFIX=/opt/delkuthi".to_string()];
        Installed { folder, words, at: stage.join("opt/delkuthi"), prefix: "/opt/delkuthi".into() }.install()
    }

    fn install(self) -> Installed {
        self.make("install");
        self
    }

    /// `make uninstall`, with the same words.
    pub fn uninstall(&self) {
        self.make("uninstall");
    }

    fn make(&self, target: &str) {
        let words: Vec<&str> = [target].into_iter().chain(self.words.iter().map(String::as_str)).collect();
        let output = make(&self.folder.path().join("build"), &words);
        assert!(output.status.success(), "make {words:?}: {}", String::from_utf8_lossy(&output.stderr));
    }

    /// The folder `include` of the copy.
    pub fn include(&self) -> PathBuf {
        self.at.join("include")
    }

    /// The folder `lib` of the copy.
    pub fn lib(&self) -> PathBuf {
        self.at.join("lib")
    }

    /// All files of the copy, links included, by their paths from its folder, in alphabetical order.
    pub fn files(&self) -> Vec<String> {
        let mut files = Vec::new();
        let mut folders = vec![self.at.clone()];
        while let Some(folder) = folders.pop() {
            for entry in fs::read_dir(folder).expect("a folder of the copy") {
                let entry = entry.expect("a file of the copy");
                if entry.file_type().expect("a type").is_dir() {
                    folders.push(entry.path());
                } else {
                    let path = entry.path();
                    files.push(path.strip_prefix(&self.at).expect("in the copy").display().to_string());
                }
            }
        }
        files.sort();
        files
    }
}

/// The version that the file `VERSION` names.
///
/// # Panics
/// If it is not there.
pub fn version() -> String {
    fs::read_to_string(root().join("VERSION")).expect("VERSION").trim_end().to_string()
}

/// The first number of the version: what a host is linked with is good for all later versions that share it.
///
/// # Panics
/// If the version has not three numbers.
pub fn interface() -> String {
    version().split_once('.').expect("three numbers").0.to_string()
}

/// A separate Rust program that depends on the crate `delkuthi` by its path, as a buyer's would.
pub struct RustHost {
    folder: Folder,
}

/// It reports on the two files that it is given.
const RUST_HOST: &str = r#"
fn main() {
    let mut files = std::env::args().skip(1).map(|name| std::fs::read(name).expect("a file"));
    let (table, recording) = (files.next().expect("a table"), files.next().expect("a recording"));
    let mut report = [0; delkuthi::REPORT_LIMIT];
    let length = delkuthi::report(&table, &recording, &mut report).expect("a report");
    print!("{}", String::from_utf8_lossy(&report[..length]));
}
"#;

impl Default for RustHost {
    fn default() -> RustHost {
        RustHost::new()
    }
}

impl RustHost {
    pub fn new() -> RustHost {
        let folder = Folder::new();
        let package =
            "[package]\nname = \"buyer\"\nversion = \"0.0.0\"\nedition = \"2021\"\n\n[workspace]\n\n[dependencies]";
        let copied = Command::new("cp").arg("-r").arg(root().join("host/delkuthi")).arg(folder.path()).status();
        assert!(copied.expect("cp can be run").success());
        folder.write("Cargo.toml", format!("{package}\ndelkuthi = {{ path = \"delkuthi\" }}\n").as_bytes());
        fs::create_dir(folder.path().join("src")).expect("a folder");
        folder.write("src/main.rs", RUST_HOST.as_bytes());
        RustHost { folder }
    }

    /// `cargo run` without the Rattle kit, with `DELKUTHI_LIB` naming this folder, or not set.
    pub fn run(&self, archive: Option<&Path>, words: &[PathBuf]) -> Output {
        let without = Folder::new();
        let mut cargo = Command::new(env!("CARGO"));
        cargo.args(["run", "--quiet", "--offline", "--"]).args(words).current_dir(self.folder.path());
        cargo.env("PATH", path_without("rt", &without)).env("CARGO_TARGET_DIR", self.folder.path().join("target"));
        match archive {
            Some(folder) => cargo.env("DELKUTHI_LIB", folder),
            None => cargo.env_remove("DELKUTHI_LIB"),
        };
        cargo.output().expect("cargo can be run")
    }
}

/// The `PATH`, where a folder that has the program is replaced by one with links to all else that it has.
pub fn path_without(program: &str, folder: &Folder) -> OsString {
    let without = |(number, path): (usize, PathBuf)| {
        if !path.join(program).exists() {
            return path;
        }
        let replaced = folder.path().join(number.to_string());
        fs::create_dir(&replaced).expect("a folder");
        for entry in fs::read_dir(&path).expect("a folder of the PATH").flatten().filter(|e| e.file_name() != program) {
            symlink(entry.path(), replaced.join(entry.file_name())).expect("a link");
        }
        replaced
    };
    let path = env::var_os("PATH").expect("a PATH");
    env::join_paths(env::split_paths(&path).enumerate().map(without)).expect("a PATH")
}
