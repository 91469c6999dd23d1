//! Reports of the library beside the model's.

use crate::beside::take;
use crate::words::untouched;
use delkuthi::{Monitor, REPORT_LIMIT, report};
use model::random::seen::Seen;
use model::recording::read_record;
use model::report_text;

/// What a buffer is filled with, so that a byte written is noticed.
const FILL: u8 = b'#';

/// What the library makes of a table and a recording in a buffer of this length: the bytes written, if it did write.
/// All bytes behind them, and around the buffer, must be as they were.
///
/// # Panics
/// If they are not.
pub fn report_in(table: &[u8], recording: &[u8], length: usize) -> Option<Vec<u8>> {
    written_in(length, |buffer| report(table, recording, buffer))
}

/// The same on a lent monitor.
///
/// # Panics
/// As above.
pub fn report_on(monitor: &mut Monitor, table: &[u8], recording: &[u8], length: usize) -> Option<Vec<u8>> {
    written_in(length, |buffer| monitor.report_on(table, recording, buffer))
}

/// The report of a closed monitor, and nothing of one that is not.
///
/// # Panics
/// As above.
pub fn report_of(monitor: &Monitor, length: usize) -> Option<Vec<u8>> {
    written_in(length, |buffer| monitor.report(buffer))
}

fn written_in(length: usize, write: impl FnOnce(&mut [u8]) -> Option<usize>) -> Option<Vec<u8>> {
    let mut memory = vec![FILL; length + 64];
    let written = write(&mut memory[32..32 + length]);
    let end = 32 + written.unwrap_or(0);
    assert!(
        memory[..32].iter().chain(&memory[end..]).all(|byte| *byte == FILL),
        "a byte behind the report was written"
    );
    written.map(|_| memory[32..end].to_vec())
}

/// Compares the library's report with the model's, in buffers that are just long enough and one byte short, and counts
/// its refusal.
///
/// # Panics
/// If one differs.
pub fn compare(table: &[u8], recording: &[u8], seen: &mut Seen) {
    let expected = report_text(table, recording).into_bytes();
    let length = expected.len();
    let told = || format!("table {table:02x?}, recording {recording:02x?}");
    assert_eq!(report_in(table, recording, length).as_ref(), Some(&expected), "{}", told());
    assert_eq!(report_in(table, recording, length - 1), None, "{}", told());
    refusal(&expected).into_iter().for_each(|number| seen.refusal(number));
}

/// Compares the report on a lent monitor with the model's, in buffers that are just long enough and one byte short; and
/// what is left of the monitor, word for word: all as it was where the table is refused, and otherwise what the calls leave. Counts
/// the refusal.
///
/// # Panics
/// If one differs.
pub fn compare_on(monitor: &Monitor, table: &[u8], recording: &[u8], seen: &mut Seen) {
    let expected = report_text(table, recording).into_bytes();
    refusal(&expected).into_iter().for_each(|number| seen.refusal(number));
    let left = left_by(monitor, table, recording);
    let told = || format!("table {table:02x?}, recording {recording:02x?}");
    for (length, written) in [(expected.len(), Some(&expected)), (expected.len() - 1, None), (0, None)] {
        let mut lent = Monitor::from_words(*monitor.words());
        assert_eq!(report_on(&mut lent, table, recording, length).as_ref(), written, "{}", told());
        untouched(&left, &lent, &told());
    }
}

/// Compares the report of a monitor with the model's, in buffers that are just long enough, one byte short and of no length. Where the
/// monitor is not closed there is none, in the longest buffer. Gives whether there was one. No word of the monitor changes.
///
/// # Panics
/// If one differs.
pub fn compare_of(monitor: &Monitor, model: &model::Monitor) -> bool {
    let before = monitor.clone();
    let expected = model::report_of(model).map(String::into_bytes);
    let told = || format!("after {:?} over {:?}", model.steps(), model.rows());
    assert_eq!(report_of(monitor, REPORT_LIMIT), expected, "{}", told());
    if let Some(report) = &expected {
        assert_eq!(report_of(monitor, report.len()).as_ref(), Some(report), "{}", told());
        assert_eq!((report_of(monitor, report.len() - 1), report_of(monitor, 0)), (None, None), "{}", told());
    }
    untouched(&before, monitor, "the report of a monitor");
    expected.is_some()
}

/// The monitor that the calls of a report leave: fresh over the table, after the records up to the first that is refused,
/// or after all of them and the close.
fn left_by(monitor: &Monitor, table: &[u8], recording: &[u8]) -> Monitor {
    let mut left = Monitor::from_words(*monitor.words());
    let known = matches!(recording.first(), Some(1 | 2));
    if left.restart(table).is_err() || !known {
        return left;
    }
    let mut place = 1;
    while place < recording.len() {
        let Ok((step, size)) = read_record(recording[0], &recording[place..]) else { return left };
        if take(&mut left, step).is_err() {
            return left;
        }
        place += size;
    }
    left.close().expect("a close behind the last record");
    left
}

/// The number in a report "refused N P".
pub fn refusal(report: &[u8]) -> Option<u8> {
    let text = str::from_utf8(report).expect("a report is ASCII");
    let number = text.strip_prefix("refused ")?.split(' ').next()?;
    Some(number.parse().expect("a refusal's number"))
}
