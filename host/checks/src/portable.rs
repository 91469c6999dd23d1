//! The portable crate, made and compiled as a buyer does it.

use crate::hosts::done;
use crate::places::Folder;
use crate::release::make;
use std::path::PathBuf;
use std::process::Command;

/// The portable crate, as `make portable` writes it.
///
/// # Panics
/// With what `make` says, if it fails.
pub fn portable() -> Folder {
    let folder = Folder::new();
    let output = make(folder.path(), &["portable"]);
    assert!(output.status.success(), "{}", String::from_utf8_lossy(&output.stderr));
    folder
}

/// Compiles the portable crate as a buyer does, without a warning, and gives the folder of the archive.
pub fn compiled(folder: &Folder) -> PathBuf {
    let package = folder.path().join("portable");
    let mut cargo = Command::new(env!("CARGO"));
    cargo.args(["build", "--release", "--offline", "--quiet"]).current_dir(&package);
    cargo.env("CARGO_TARGET_DIR", folder.path().join("target")).env("RUSTFLAGS", "-D warnings");
    done(&mut cargo);
    folder.path().join("target/release")
}
