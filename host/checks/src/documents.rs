//! What the documents say of one another: the files with text, and the clauses that are cited.

use crate::contract::is_clause;
use crate::places::root;
use std::fs;
use std::path::{Path, PathBuf};

/// The repository's files with one of these endings below a folder, without what is built, in alphabetical order.
pub fn files(folder: &str, endings: &[&str]) -> Vec<PathBuf> {
    let mut files = Vec::new();
    let mut folders = vec![root().join(folder)];
    while let Some(folder) = folders.pop() {
        for entry in fs::read_dir(&folder).unwrap_or_else(|error| panic!("{}: {error}", folder.display())) {
            let path = entry.expect("a file").path();
            let name = path.file_name().and_then(|name| name.to_str()).unwrap_or_default().to_string();
            if path.is_dir() && !["target", "build", "out"].contains(&name.as_str()) && !name.starts_with('.') {
                folders.push(path);
            } else if path.is_file() && endings.iter().any(|ending| name.ends_with(ending)) {
                files.push(path);
            }
        }
    }
    files.sort();
    files
}

/// The text of a file.
///
/// # Panics
/// If it cannot be read.
pub fn text_of(path: &Path) -> String {
    fs::read_to_string(path).unwrap_or_else(|error| panic!("{}: {error}", path.display()))
}

/// The clauses that a text cites: "§3.6", or in a text of ASCII "clause 3.6".
pub fn cited(text: &str) -> Vec<String> {
    let words = text.split_whitespace();
    let named = words.clone().zip(words.skip(1)).filter(|(word, _)| *word == "clause").map(|(_, number)| number);
    let numbers = text.split('§').skip(1).chain(named).map(number_at);
    numbers.filter(|number| is_clause(number)).map(str::to_string).collect()
}

/// The number that a text begins with: its digits, and the dots between them.
fn number_at(text: &str) -> &str {
    let end = text.find(|letter: char| !letter.is_ascii_digit() && letter != '.').unwrap_or(text.len());
    text[..end].trim_end_matches('.')
}
