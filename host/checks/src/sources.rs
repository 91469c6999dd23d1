//! The numbers that stand in the sources: in the header, in the crates' code and in their definitions, read as text.

use crate::places::root;
use std::collections::BTreeMap;
use std::fs;
use std::path::PathBuf;

/// A file of the repository, as text.
///
/// # Panics
/// If it cannot be read.
pub fn text(path: &str) -> String {
    fs::read_to_string(root().join(path)).unwrap_or_else(|error| panic!("{path}: {error}"))
}

/// The definitions of every crate, one text after the other.
///
/// # Panics
/// If a folder or a file cannot be read.
pub fn definitions() -> String {
    let files = |folder: PathBuf| fs::read_dir(folder).into_iter().flatten().map(|file| file.expect("a file").path());
    let specs = files(root().join("crates")).flat_map(|package| files(package.join("specs")));
    specs.map(|file| fs::read_to_string(file).expect("a text")).collect()
}

/// The number of an expression with sums, differences, products and powers, as `2 ^ 56 - 1` or `UINT64_C(63)`.
///
/// # Panics
/// If it is no such expression.
pub fn number(expression: &str) -> u64 {
    let plain = expression.replace("UINT32_C", "").replace("UINT64_C", "").replace(['(', ')', ',', '_'], "");
    let sums = plain.replace('-', "+ -").replace('^', " ^ ");
    let sum: i128 = sums.split('+').map(|term| term.trim()).filter(|term| !term.is_empty()).map(signed).sum();
    u64::try_from(sum).unwrap_or_else(|_| panic!("not a number: {expression}"))
}

/// A product, with a minus or not.
fn signed(term: &str) -> i128 {
    let (sign, term) = term.strip_prefix('-').map_or((1, term), |term| (-1, term));
    sign * term.split('*').map(power).product::<i128>()
}

/// A power, or a number.
fn power(factor: &str) -> i128 {
    let whole = |digits: &str| digits.trim().parse::<i128>().unwrap_or_else(|_| panic!("not a number: {digits:?}"));
    match factor.split_once('^') {
        Some((base, exponent)) => whole(base).pow(whole(exponent) as u32),
        None => whole(factor),
    }
}

/// The constant of a name in a file of Rattle or Rust.
///
/// # Panics
/// If there is not just one.
pub fn constant(path: &str, name: &str) -> u64 {
    number(between(&text(path), &format!("const {name}: "), ";").split_once('=').expect("a value").1)
}

/// The definition of a name, which is a number, in a file of definitions.
///
/// # Panics
/// If there is not just one.
pub fn definition(path: &str, name: &str) -> u64 {
    number(&between(&text(path), &format!("\n{name} = "), "\n"))
}

/// What stands between two texts, the first of which is there just once.
fn between(text: &str, before: &str, after: &str) -> String {
    assert_eq!(text.matches(before).count(), 1, "{before:?}");
    let found = &text[text.find(before).expect("it is there") + before.len()..];
    found[..found.find(after).expect("its end is there")].to_string()
}

/// The number that stands between two texts, wherever that is: it is the same everywhere.
///
/// # Panics
/// If there is none, or not one.
pub fn number_between(text: &str, before: &str, after: &str) -> u64 {
    let mut found: Vec<u64> = text
        .match_indices(after)
        .filter_map(|(end, _)| {
            let start = text[..end].trim_end_matches(|letter: char| letter.is_ascii_digit()).len();
            text[..start].ends_with(before).then(|| text[start..end].parse().ok()).flatten()
        })
        .collect();
    found.dedup();
    assert_eq!(found.len(), 1, "the number in {before:?}..{after:?}: {found:?}");
    found[0]
}

/// The numbers of `include/delkuthi.h`, by their names without `DELKUTHI_`.
pub struct Header {
    /// What the file says.
    pub text: String,
    /// Each `#define` of a number.
    pub defined: BTreeMap<String, u64>,
    /// Each value of the refusals' enum.
    pub refusals: BTreeMap<String, u64>,
    /// Each limit of the manual's list.
    pub limits: BTreeMap<String, u64>,
}

impl Header {
    /// Reads the header.
    ///
    /// # Panics
    /// If a number in it cannot be read.
    pub fn read() -> Header {
        let text = text("include/delkuthi.h");
        let values = between(&text, "enum delkuthi_refusal {", "\n};");
        Header {
            defined: text.lines().filter_map(defined).collect(),
            refusals: values.lines().filter_map(value).collect(),
            limits: text.lines().filter_map(limit).collect(),
            text,
        }
    }
}

/// The name and number of a line `#define DELKUTHI_NAME number`; none for a macro with arguments, an attribute and the guard.
fn defined(line: &str) -> Option<(String, u64)> {
    let (name, value) = line.strip_prefix("#define DELKUTHI_")?.split_once(' ')?;
    let other = name.contains('(') || value.contains("__attribute__");
    (!other).then(|| (name.to_string(), number(value.trim())))
}

/// The name and number of a line `DELKUTHI_NAME = number` of an enum.
fn value(line: &str) -> Option<(String, u64)> {
    let (name, value) = line.trim().strip_prefix("DELKUTHI_")?.split_once(" = ")?;
    let digits = value.split(|letter: char| !letter.is_ascii_digit()).next()?;
    Some((name.to_string(), digits.parse().expect("a number")))
}

/// The name and number of a line of the list of limits, as `times  0 to 2^60 - 1  DELKUTHI_LAST_TIME`.
fn limit(line: &str) -> Option<(String, u64)> {
    let (words, name) = line.strip_prefix(" *   ")?.split_once("  DELKUTHI_")?;
    let most = words.split_once(" to ").or_else(|| words.split_once("at most "))?.1.trim();
    let most = match most.strip_suffix(" KiB") {
        Some(kibibytes) => number(kibibytes) * 1024,
        None => number(most.trim_end_matches(" bytes")),
    };
    Some((name.to_string(), most))
}
