//! The calls that are measured, over the tables and drives of [`crate::drive`].

use crate::drive::{self, Table};
use model::{Constraint, FIRST_COLOURED, LAST_COLOUR, LAST_KIND, LAST_TIME, Step, recording_bytes, table_bytes};

/// How many events come before calls that are refused.
const AHEAD: usize = 2_000;

/// A call of a load: a step, or the withdrawal of the last one.
#[derive(Clone, Copy, Debug)]
pub enum Call {
    Step(Step),
    Withdraw,
}

/// A table, and calls over it of which all are taken, or all refused.
#[derive(Clone)]
pub struct Load {
    pub name: String,
    pub rows: Vec<Constraint>,
    /// The drive that the calls were made of: events only.
    pub steps: Vec<Step>,
    /// The calls before those that are measured.
    pub ahead: Vec<Call>,
    /// The calls that are measured.
    pub calls: Vec<Call>,
    /// Are the calls that are measured refused?
    pub refused: bool,
}

/// The time of a drive's event.
fn time(event: Step) -> u64 {
    match event {
        Step::Event { time, .. } | Step::Coloured { time, .. } | Step::Tick { time } => time,
        Step::Close => LAST_TIME,
    }
}

/// Calls that are refused where the clock stands at a time at which an event of a stream has come, and the step after it was
/// withdrawn: with 9, 19, 10, 11 and 21, each question in each sort of call that has it.
fn refused(clock: u64, last: u8) -> Vec<Call> {
    let (kind, coloured, colour, beyond) = (LAST_KIND + 1, FIRST_COLOURED, LAST_COLOUR, LAST_TIME + 1);
    let steps = [
        Step::Event { kind, time: clock + 1 },
        Step::Event { kind: coloured, time: clock + 1 },
        Step::Event { kind: last, time: beyond },
        Step::Event { kind: last, time: clock },
        Step::Event { kind: last, time: clock - 1 },
        Step::Coloured { kind, colour, time: clock + 1 },
        Step::Coloured { kind: coloured, colour: colour + 1, time: clock + 1 },
        Step::Coloured { kind: last, colour, time: clock + 1 },
        Step::Coloured { kind: coloured, colour, time: beyond },
        Step::Coloured { kind: coloured, colour, time: clock - 1 },
        Step::Tick { time: beyond },
        Step::Tick { time: clock },
    ];
    steps.into_iter().map(Call::Step).chain([Call::Withdraw]).collect()
}

/// This many events of the drive over the sparse table.
pub fn sparse(events: usize) -> Load {
    Load::new("sparse", drive::sparse(false), events)
}

/// The same over the dense table.
pub fn dense(events: usize) -> Load {
    Load::new("dense", drive::dense(false), events)
}

/// This many events over Synchronizations alone, sparse.
pub fn sparse_synchronizations(events: usize) -> Load {
    Load::new("Synchronization, sparse", drive::sparse_synchronizations(), events)
}

/// The same, dense.
pub fn dense_synchronizations(events: usize) -> Load {
    Load::new("Synchronization, dense", drive::dense_synchronizations(), events)
}

/// This many events over rows of one of types 1 to 10 or 12 to 17 alone.
pub fn alone(type_byte: u8, events: usize) -> Load {
    let table = drive::alone(type_byte);
    Load::new(table.rows[0].name(), table, events)
}

/// This many events over the sparse table, from the point where 64 wait.
pub fn sparse_full(events: usize) -> Load {
    Load::full("sparse", drive::sparse(true), events)
}

/// The same over the dense table.
pub fn dense_full(events: usize) -> Load {
    Load::full("dense", drive::dense(true), events)
}

impl Load {
    /// Each event given once.
    fn new(name: &str, table: Table, events: usize) -> Load {
        let steps = table.drive(events);
        let calls = steps.iter().map(|step| Call::Step(*step)).collect();
        Load { name: name.into(), rows: table.rows, steps, ahead: Vec::new(), calls, refused: false }
    }

    /// Each event given once, those in the rounds in which fewer than 64 wait before the others.
    fn full(name: &str, table: Table, events: usize) -> Load {
        let ahead = table.before_full();
        let mut load = Load::new(&format!("{name}, 64 waiting"), table, ahead + events);
        load.ahead = load.calls.drain(..ahead).collect();
        load
    }

    /// This many steps of the same drive with a tick at every time at which no event comes.
    pub fn ticking(self, steps: usize) -> Load {
        let ticks = |from: Step, to: Step| (time(from) + 1..time(to)).map(|time| Call::Step(Step::Tick { time }));
        let filled =
            |two: &[Step]| [Call::Step(two[0])].into_iter().chain(ticks(two[0], two[1])).collect::<Vec<Call>>();
        let calls = self.steps.windows(2).flat_map(filled).take(steps).collect();
        Load { name: format!("{}, ticks", self.name), calls, ..self }
    }

    /// This many calls that are refused for other reasons than 64 waiting, after the first events of the same drive.
    pub fn refusing(self, calls: usize) -> Load {
        let mut ahead = self.calls[..AHEAD].to_vec();
        let plain = self.steps[..AHEAD].iter().rposition(|step| matches!(step, Step::Event { .. }));
        ahead.truncate(plain.map_or(AHEAD, |last| last + 1));
        let last = self.steps[ahead.len() - 1];
        let clock = time(last);
        ahead.extend([Call::Step(Step::Tick { time: clock + 1 }), Call::Withdraw]);
        let calls = refused(clock, last.kind().unwrap_or(0)).into_iter().cycle().take(calls).collect();
        Load { name: format!("{}, refused", self.name), ahead, calls, refused: true, ..self }
    }

    /// This many sources that are refused with 12, in turn those of each kind of which 64 wait.
    pub fn crowding(self, calls: usize) -> Load {
        let Some(Call::Step(last)) = self.ahead.last() else { return self };
        let mut sources: Vec<u8> = self.rows.iter().filter_map(|row| row.as_type().crowding_kind()).collect();
        sources.dedup();
        let again = sources.into_iter().map(|kind| Call::Step(Step::Event { kind, time: time(*last) + 1 }));
        let calls = again.cycle().take(calls).collect();
        Load { name: format!("{}, refused", self.name), calls, refused: true, ..self }
    }

    /// The same drive with a tenth of the steps withdrawn: of nine steps one is given, withdrawn and given again.
    pub fn withdrawing(self) -> Load {
        let again = |step: Step| [Call::Step(step), Call::Withdraw, Call::Step(step)];
        let nine = |steps: &[Step]| -> Vec<Call> {
            again(steps[0]).into_iter().chain(steps[1..].iter().map(|step| Call::Step(*step))).collect()
        };
        let calls = self.steps.chunks(9).flat_map(nine).collect();
        Load { name: format!("{}, withdrawing", self.name), calls, ..self }
    }

    /// How many calls a time is given for: those refused, or the steps taken with those that are withdrawn.
    pub fn number(&self) -> usize {
        self.calls.iter().filter(|call| self.refused || matches!(call, Call::Step(_))).count()
    }

    /// The table's bytes.
    pub fn table(&self) -> Vec<u8> {
        table_bytes(&self.rows)
    }

    /// The drive's bytes.
    pub fn recording(&self) -> Vec<u8> {
        recording_bytes(&self.steps)
    }

    /// The same drive over this many of the rows, from all over the table.
    pub fn with_rows(&self, number: usize) -> Load {
        let each = self.rows.len() / number;
        Load { rows: self.rows.iter().step_by(each).cloned().collect(), ..self.clone() }
    }

    /// How many rows an event of the drive concerns, in the mean.
    pub fn concerned(&self) -> f64 {
        let named: Vec<Vec<u8>> = self.rows.iter().map(Constraint::kinds).collect();
        let rows = |kind| named.iter().filter(|kinds| kinds.contains(&kind)).count();
        let by_kind: Vec<usize> = (0..=LAST_KIND).map(rows).collect();
        let all: usize = self.steps.iter().filter_map(|step| step.kind()).map(|kind| by_kind[usize::from(kind)]).sum();
        all as f64 / self.steps.len() as f64
    }
}
