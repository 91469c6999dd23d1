//! One version: header, pkg-config file, Rust crate and list of changes have the one in the file `VERSION`.
//! Clauses: §11.6.

use checks::hosts::c_host;
use checks::places::root;
use checks::release::{Installed, version};
use std::fs;

/// The three numbers of the version.
fn numbers() -> Vec<u64> {
    version().split('.').map(|part| part.parse().expect("a number")).collect()
}

#[test]
fn three_numbers() {
    let numbers = numbers();
    assert!(numbers.len() == 3 && numbers.iter().all(|number| *number < 1_000), "{numbers:?}");
    let text = fs::read_to_string(root().join("VERSION")).expect("VERSION");
    assert_eq!(text, format!("{}.{}.{}\n", numbers[0], numbers[1], numbers[2]));
}

/// The version as one number, as header, library and Rust crate have it.
fn number() -> u32 {
    let numbers = numbers();
    (numbers[0] * 1_000_000 + numbers[1] * 1_000 + numbers[2]).try_into().expect("a version of three small numbers")
}

#[test]
fn the_rust_crate_and_the_library() {
    assert_eq!((delkuthi::VERSION, delkuthi::library_version()), (number(), number()));
}

/// The host prints the version twice: the library's and the header's.
#[test]
fn the_header() {
    let ran = c_host("version", "-O2").run::<&str>(&[]);
    let header = ran.printed.lines().find_map(|line| line.strip_prefix("header ")).expect("a version");
    assert_eq!(header.split(' ').next(), Some(number().to_string().as_str()));
}

#[test]
fn the_pkg_config_file() {
    let copy = Installed::in_prefix();
    let text = fs::read_to_string(copy.lib().join("pkgconfig/delkuthi.pc")).expect("delkuthi.pc");
    assert!(text.contains(&format!("\nVersion: {}\n", version())), "{text}");
}

/// The first version in the list of changes is this one, or the one after it, which is being made.
#[test]
fn the_changes() {
    let text = fs::read_to_string(root().join("CHANGELOG.md")).expect("CHANGELOG.md");
    let versions: Vec<&str> = text.lines().filter_map(|line| line.strip_prefix("## ")).take(2).collect();
    assert!(versions.contains(&version().as_str()), "{versions:?}");
}
