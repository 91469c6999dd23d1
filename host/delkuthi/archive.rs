//! For build scripts: a proved library as an archive, and where cargo finds it.

use std::env;
use std::fs;
use std::io::Write;
use std::path::{Path, PathBuf};
use std::process::{Command, Stdio, exit};

/// Has cargo link the archive of a proved library, and gives the folder that it is in.
///
/// The archive is the one in the folder that the environment variable `DELKUTHI_LIB` names; without the variable it is built
/// from `crates/`. It is copied to the folder of this build, so that the build still has it after `target/` at the
/// repository's root is removed. If there is no archive, the build ends with a line that says what to do.
pub fn link(name: &str) -> PathBuf {
    let file = format!("lib{name}.a");
    println!("cargo:rerun-if-env-changed=DELKUTHI_LIB");
    let folder = PathBuf::from(env::var_os("OUT_DIR").expect("cargo sets OUT_DIR"));
    match env::var_os("DELKUTHI_LIB") {
        Some(given) => copy(&changing(&Path::new(&given).join(&file)), &folder.join(&file)),
        None => put_together(&parts(name), &folder.join(&file)),
    }
    println!("cargo:rustc-link-search=native={}", folder.display());
    println!("cargo:rustc-link-lib=static={name}");
    folder
}

/// The proved libraries that make up an archive, as in the `Makefile`.
fn parts(name: &str) -> Vec<&str> {
    if name == "delkuthi" { vec!["delkuthi", "stretch_ffi", "queries", "read_back"] } else { vec![name] }
}

/// Copies an archive.
fn copy(archive: &Path, to: &Path) {
    if let Err(error) = fs::copy(archive, to) {
        let (archive, file) = (archive.display(), to.file_name().unwrap_or_default().to_string_lossy());
        give_up(&format!("there is no {archive} ({error}): DELKUTHI_LIB has to name the folder of {file}"));
    }
}

/// Builds the parts of an archive and joins them.
fn put_together(parts: &[&str], archive: &Path) {
    let added = parts.iter().map(|part| format!("addlib {}/lib{part}.a\n", built(part).display())).collect::<String>();
    let script = format!("create {}\n{added}save\nend\n", archive.display());
    let ar = Command::new("ar").arg("-M").stdin(Stdio::piped()).spawn();
    let written = ar.and_then(|mut ar| {
        ar.stdin.take().expect("ar reads").write_all(script.as_bytes())?;
        ar.wait()
    });
    if !matches!(written, Ok(status) if status.success()) {
        give_up("ar, of binutils, did not join the parts of the archive");
    }
}

/// Proves and builds the library, unless nothing has changed since it was proved; gives the folder of the archive.
fn built(name: &str) -> PathBuf {
    let root = Path::new(env!("CARGO_MANIFEST_DIR")).join("../..");
    changing(&root.join("crates.txt"));
    // What rt makes, in the folder out of a crate, is no source.
    for folder in fs::read_dir(root.join("crates")).into_iter().flatten().flatten() {
        for part in ["src", "specs", "proofs"].map(|part| folder.path().join(part)) {
            if part.is_dir() {
                changing(&part);
            }
        }
    }
    match Command::new("bash").args(["release/archive", name]).current_dir(&root).status() {
        Ok(status) if status.success() => root.join("target/staticlib"),
        Ok(status) => give_up(&format!(
            "release/archive {name} failed ({status}); its output is above. Without rt, of the Rattle kit, in the PATH, \
             set DELKUTHI_LIB to the folder of lib{name}.a"
        )),
        Err(error) => give_up(&format!(
            "bash cannot be run ({error}): set DELKUTHI_LIB to the folder of lib{name}.a, \
             or install it, and put rt in the PATH, to have it proved and built"
        )),
    }
}

/// Ends the build with a line of text.
fn give_up(text: &str) -> ! {
    eprintln!("error: {text}");
    exit(1)
}

/// Returns the path, and has cargo run the build script again if something changes there.
fn changing(path: &Path) -> PathBuf {
    println!("cargo:rerun-if-changed={}", path.display());
    path.to_path_buf()
}
