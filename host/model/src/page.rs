//! The printed page (§7.14 to §7.19).

use crate::monitor::{Monitor, Verdict};
use crate::types::Constraint;

/// The bytes of a line before its end (§7.15).
const WIDTH: usize = 72;
/// How many rows stand under a heading (§7.17).
const GROUP: usize = 16;

/// The page of a monitor, closed or not (§7.14).
pub fn page_text(monitor: &Monitor) -> String {
    page_of(monitor.rows(), &monitor.verdicts())
}

/// The page of rows that read so: 16 at a time under a heading, and one heading for none (§7.17).
pub fn page_of(rows: &[Constraint], verdicts: &[Verdict]) -> String {
    let heading = "-".repeat(WIDTH) + "\n";
    let lines: Vec<String> =
        rows.iter().zip(verdicts).enumerate().map(|(number, (row, verdict))| line(number, row, verdict)).collect();
    if lines.is_empty() {
        return heading;
    }
    lines.chunks(GROUP).map(|group| heading.clone() + &group.concat()).collect()
}

/// The line of a row, by its columns (§7.16).
fn line(number: usize, row: &Constraint, verdict: &Verdict) -> String {
    let (word, step) = match verdict {
        Verdict::Open => ("open", String::new()),
        Verdict::Kept => ("kept", String::new()),
        Verdict::Broken(step) => ("broken", step.to_string()),
    };
    let columns = format!("{number:>3}  {:<24}{word:<8}{step:>20}", row.name());
    format!("{columns:<WIDTH$}\n")
}
