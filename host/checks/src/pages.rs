//! Pages of the library beside the model's.

use delkuthi::{Monitor, Verdict};
use model::page_text;

/// What a buffer is filled with, so that a byte written is noticed.
const FILL: u8 = b'#';

/// What the library prints of a monitor in a buffer of this length: the bytes written, if it did write. All bytes behind
/// them, and around the buffer, must be as they were.
///
/// # Panics
/// If they are not.
pub fn page_in(monitor: &Monitor, length: usize) -> Option<Vec<u8>> {
    let mut memory = vec![FILL; length + 64];
    let written = monitor.page(&mut memory[32..32 + length]);
    let end = 32 + written.unwrap_or(0);
    assert!(memory[..32].iter().chain(&memory[end..]).all(|byte| *byte == FILL), "a byte behind the page was written");
    written.map(|_| memory[32..end].to_vec())
}

/// Compares the library's page with the model's, in buffers that are just long enough and one byte short.
///
/// # Panics
/// If one differs.
pub fn compare(monitor: &Monitor, model: &model::Monitor) {
    let expected = page_text(model).into_bytes();
    let length = expected.len();
    assert_eq!(page_in(monitor, length).as_ref(), Some(&expected), "{:?}", model.rows());
    assert_eq!(page_in(monitor, length - 1), None, "{:?}", model.rows());
}

/// The bytes of each line of a page before its end.
///
/// # Panics
/// If the page does not end with a line.
pub fn lines(page: &[u8]) -> Vec<&[u8]> {
    assert_eq!(page.last(), Some(&b'\n'), "a page ends with a line");
    page[..page.len() - 1].split(|byte| *byte == b'\n').collect()
}

/// What is read off the line of a row, by its columns: the row's number, the name of its type, its verdict.
///
/// # Panics
/// If that is not there.
pub fn read_back(page: &[u8], row: usize) -> (usize, String, Verdict) {
    let line = &page[73 * (row + row / 16 + 1)..][..72];
    let text = |columns: std::ops::Range<usize>| str::from_utf8(&line[columns]).expect("ASCII").trim().to_string();
    let verdict = match text(29..37).as_str() {
        "open" => Verdict::Open,
        "kept" => Verdict::Kept,
        "broken" => Verdict::Broken(text(37..57).parse().expect("a step")),
        word => panic!("no verdict's word: {word}"),
    };
    (text(0..3).parse().expect("a number"), text(5..29), verdict)
}
