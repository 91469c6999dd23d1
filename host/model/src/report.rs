//! The report and what the program prints (§7.3 to §7.10).

use crate::limits::NEWEST_EDITION;
use crate::monitor::Monitor;
use crate::questions::{Refusal, ask};
use crate::recording::read_recording;
use crate::table::read_table_up_to;

/// How many bytes the program's table has at most (§8.17).
pub const TABLE_SIZE_LIMIT: usize = 2_048;
/// How many bytes the program's recording has at most (§8.17).
pub const RECORDING_SIZE_LIMIT: usize = 61_440;

/// Writes the report to the front of a buffer and answers its length, or 0 if the buffer cannot hold it (§7.8).
pub fn report(table: &[u8], recording: &[u8], buffer: &mut [u8]) -> usize {
    let text = report_text(table, recording).into_bytes();
    match buffer.get_mut(..text.len()) {
        Some(written) => {
            written.copy_from_slice(&text);
            text.len()
        }
        None => 0,
    }
}

/// The report's text: what the rows read at the close (§7.4), or the refusal (§7.5).
pub fn report_text(table: &[u8], recording: &[u8]) -> String {
    report_text_up_to(NEWEST_EDITION, table, recording)
}

/// The same of tables up to an edition (§16.3).
pub fn report_text_up_to(newest: u8, table: &[u8], recording: &[u8]) -> String {
    let closed = closed_monitor(newest, table, recording);
    closed.map_or_else(|refusal| refused_text(&refusal), |monitor| closed_text(&monitor))
}

/// The report of a monitor once it is closed (§7.4); nothing before.
pub fn report_of(monitor: &Monitor) -> Option<String> {
    monitor.closed().then(|| closed_text(monitor))
}

/// What the program prints for two files: a report, or the refusal of a file that is too large (§9.9).
pub fn program_output(table: &[u8], recording: &[u8]) -> String {
    program_output_up_to(NEWEST_EDITION, table, recording)
}

/// The same of tables up to an edition (§16.3).
pub fn program_output_up_to(newest: u8, table: &[u8], recording: &[u8]) -> String {
    let fit = table.len() <= TABLE_SIZE_LIMIT && recording.len() <= RECORDING_SIZE_LIMIT;
    match ask(17, fit) {
        Ok(()) => report_text_up_to(newest, table, recording),
        Err(number) => refused_text(&Refusal { number, place: 0 }),
    }
}

/// The monitor over the table after all records and the close.
fn closed_monitor(newest: u8, table: &[u8], recording: &[u8]) -> Result<Monitor, Refusal> {
    let rows = read_table_up_to(newest, table)?;
    let fresh = Monitor::fresh(&rows).expect("rows that have passed questions 3 to 7");
    let mut monitor = read_recording(fresh, recording)?;
    monitor.close().expect("a recording not yet closed");
    Ok(monitor)
}

/// The count of the steps, and a line for each row (§7.4).
fn closed_text(monitor: &Monitor) -> String {
    let line = |(row, verdict)| format!("{row} {verdict}\n");
    let lines: String = monitor.verdicts().iter().enumerate().map(line).collect();
    format!("closed {}\n{lines}", monitor.recorded().count())
}

/// The refusal's number and place (§7.5).
fn refused_text(refusal: &Refusal) -> String {
    format!("refused {} {}\n", refusal.number, refusal.place)
}
