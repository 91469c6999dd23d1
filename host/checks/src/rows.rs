//! The rows of the model as those of the Rust crate, and as numbers for a host in C.

use delkuthi::Row;
use model::Constraint;
use model::types;

/// The row as the Rust crate has it.
pub fn row_of(row: &Constraint) -> Row<'_> {
    // begin rows: made by release/row-types.py
    match *row {
        Constraint::Delay(types::Delay { source, target, lower, upper }) => Row::Delay { source, target, lower, upper },
        Constraint::StrongDelay(types::StrongDelay { source, target, lower, upper }) => {
            Row::StrongDelay { source, target, lower, upper }
        }
        Constraint::Repeat(types::Repeat { event, span, lower, upper }) => Row::Repeat { event, span, lower, upper },
        Constraint::Sporadic(types::Sporadic { event, lower, upper, jitter, minimum }) => {
            Row::Sporadic { event, lower, upper, jitter, minimum }
        }
        Constraint::Burst(types::Burst { event, maximum, length, minimum }) => {
            Row::Burst { event, maximum, length, minimum }
        }
        Constraint::Order(types::Order { source, target }) => Row::Order { source, target },
        Constraint::StrongSynchronization(types::StrongSynchronization { ref kinds, tolerance }) => {
            Row::StrongSynchronization { kinds, tolerance }
        }
        Constraint::ExecutionTime(types::ExecutionTime { start, stop, preempt, resume, lower, upper }) => {
            Row::ExecutionTime { start, stop, preempt, resume, lower, upper }
        }
        Constraint::Reaction(types::Reaction { stimulus, response, minimum, maximum }) => {
            Row::Reaction { stimulus, response, minimum, maximum }
        }
        Constraint::Repetition(types::Repetition { event, span, lower, upper, jitter }) => {
            Row::Repetition { event, span, lower, upper, jitter }
        }
        Constraint::Synchronization(types::Synchronization { ref kinds, tolerance }) => {
            Row::Synchronization { kinds, tolerance }
        }
        Constraint::Age(types::Age { stimulus, response, minimum, maximum }) => {
            Row::Age { stimulus, response, minimum, maximum }
        }
        Constraint::OutputSynchronization(types::OutputSynchronization { stimulus, ref responses, tolerance }) => {
            Row::OutputSynchronization { stimulus, responses, tolerance }
        }
        Constraint::InputSynchronization(types::InputSynchronization { ref stimuli, response, tolerance }) => {
            Row::InputSynchronization { stimuli, response, tolerance }
        }
        Constraint::Pattern(types::Pattern { event, period, jitter, minimum, ref offsets }) => {
            Row::Pattern { event, period, jitter, minimum, offsets }
        }
        Constraint::Arbitrary(types::Arbitrary { event, ref pairs }) => Row::Arbitrary { event, pairs },
        Constraint::Comparison(types::Comparison { operator, left, right }) => {
            Row::Comparison { operator, left, right }
        }
    }
    // end rows
}

/// Writes rows to the buffer with the Rust crate; gives the number of bytes written.
///
/// # Errors
/// The writer's refusal.
pub fn write(rows: &[Constraint], buffer: &mut [u8]) -> Result<usize, u8> {
    let rows: Vec<Row> = rows.iter().map(row_of).collect();
    delkuthi::write_table(&rows, buffer).map_err(|refusal| refusal.number())
}

/// The row that the Rust crate's writer names in its refusal.
pub fn refused_row(rows: &[Constraint]) -> Option<usize> {
    let rows: Vec<Row> = rows.iter().map(row_of).collect();
    delkuthi::write_table(&rows, &mut [0; delkuthi::TABLE_LIMIT]).err().and_then(|refusal| refusal.row())
}

/// The row as `host/c/make_table.c` reads it: its type, how many bytes and times it has, and these.
pub fn numbers_of(row: &Constraint) -> String {
    let (body, times) = (row.body(), row.times());
    let bytes = &body[1..body.len() - 8 * times.len()];
    let numbers = bytes.iter().map(ToString::to_string).chain(times.iter().map(ToString::to_string));
    format!("{} {} {} {}\n", body[0], bytes.len(), times.len(), numbers.collect::<Vec<String>>().join(" "))
}
