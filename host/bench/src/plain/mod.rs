//! A monitor in plain Rust, written for speed: everything changed in place, and only the rows looked at that a step
//! concerns. It keeps the same waiting sources and gives the same answers, verdicts and causes as the proved one; it can withdraw the last
//! step, for which each row keeps the few numbers that an event changes.

mod later;
pub mod report;
mod ring;
mod rule;

use model::limits::stream;
use model::{Answer, Cause, Constraint, FIRST_COLOURED, LAST_COLOUR, LAST_COUNT, LAST_KIND, LAST_TIME, Step, Verdict};
use rule::{Before, Left, Rule};
pub use rule::{LAST_EDITION, LAST_TYPE};

/// A row: its rule, the last clock at which it is open if no event of the row comes, and the step that broke it (or 0), with its
/// cause.
#[derive(Clone, Debug)]
struct Row {
    rule: Rule,
    due: u64,
    broken: u64,
    cause: Option<Cause>,
    /// Before the last event that it took.
    before: Before,
    due_before: u64,
}

/// What the last step changed beside the rows, as it was before, and the rows that took it as their event.
#[derive(Clone, Copy, Debug, Default)]
struct Undo {
    may: bool,
    stream: Option<u8>,
    free: u64,
    took: u32,
    open: u32,
    full: u32,
    soonest: u64,
    clock: u64,
}

/// The plain monitor. Sets of rows are bits of a number.
#[derive(Clone, Debug)]
pub struct Plain {
    rows: Vec<Row>,
    /// The rows that an event of each stream concerns.
    concerned: [u32; 176],
    /// The rows not broken, and those in which 64 wait.
    open: u32,
    full: u32,
    /// No open row is due before this time.
    soonest: u64,
    /// For each stream the first time still free.
    free: [u64; 176],
    clock: u64,
    count: u64,
    closed: bool,
    undo: Undo,
}

impl Plain {
    /// A fresh monitor over at most 32 rows that are accepted.
    pub fn new(rows: &[Constraint]) -> Plain {
        let mut concerned = [0; 176];
        for (place, row) in rows.iter().enumerate() {
            row.streams().iter().for_each(|stream| concerned[usize::from(*stream)] |= 1 << place);
        }
        let open = ((1u64 << rows.len()) - 1) as u32;
        Plain {
            rows: rows.iter().map(Row::new).collect(),
            concerned,
            open,
            full: 0,
            soonest: u64::MAX,
            free: [0; 176],
            clock: 0,
            count: 0,
            closed: false,
            undo: Undo::default(),
        }
    }

    /// Takes a step, or refuses it with the number of its refusal.
    pub fn step(&mut self, step: Step) -> Answer {
        match step {
            Step::Event { kind, time } => self.event(kind, time),
            Step::Coloured { kind, colour, time } => self.coloured_event(kind, colour, time),
            Step::Tick { time } => self.tick(time),
            Step::Close => self.close(),
        }
    }

    /// Not closed, and the count has room.
    fn first_questions(&self) -> Answer {
        if self.closed {
            return Err(8);
        }
        if self.count == LAST_COUNT {
            return Err(24);
        }
        Ok(())
    }

    pub fn event(&mut self, kind: u8, time: u64) -> Answer {
        self.first_questions()?;
        if kind > LAST_KIND {
            return Err(9);
        }
        if kind >= FIRST_COLOURED {
            return Err(19);
        }
        self.stream_event(kind, time)
    }

    pub fn coloured_event(&mut self, kind: u8, colour: u8, time: u64) -> Answer {
        self.first_questions()?;
        if kind > LAST_KIND {
            return Err(9);
        }
        if kind < FIRST_COLOURED || colour > LAST_COLOUR {
            return Err(19);
        }
        self.stream_event(stream(kind, colour), time)
    }

    /// An event of a stream.
    fn stream_event(&mut self, stream: u8, time: u64) -> Answer {
        if time > LAST_TIME {
            return Err(10);
        }
        let place = usize::from(stream);
        if time < self.clock || time < self.free[place] {
            return Err(11);
        }
        let concerned = self.concerned[place] & self.open;
        if concerned & self.full != 0 && self.crowded(concerned & self.full, stream, time) {
            return Err(12);
        }
        self.begin(Some(stream), self.free[place]);
        self.clock = time;
        self.free[place] = time + 1;
        self.pass(time);
        self.undo.took = concerned & self.open;
        each(self.undo.took, |row| self.row_event(row, stream, time));
        Ok(())
    }

    pub fn tick(&mut self, time: u64) -> Answer {
        self.first_questions()?;
        if time > LAST_TIME {
            return Err(10);
        }
        if time <= self.clock {
            return Err(11);
        }
        self.begin(None, 0);
        self.clock = time;
        self.pass(time);
        Ok(())
    }

    pub fn close(&mut self) -> Answer {
        self.first_questions()?;
        self.begin(None, 0);
        self.closed = true;
        each(self.open, |row| {
            if !self.rows[row].rule.kept() {
                self.break_row(row, Cause::Close(self.clock));
            }
        });
        Ok(())
    }

    /// Withdraws the last step, once; 21 if there is none to withdraw.
    pub fn withdraw(&mut self) -> Answer {
        let undo = self.undo;
        if !undo.may {
            return Err(21);
        }
        if let Some(stream) = undo.stream {
            self.free[usize::from(stream)] = undo.free;
            each(undo.took, |row| self.rows[row].withdraw(stream));
        }
        each(undo.open & !self.open, |row| self.rows[row].broken = 0);
        (self.open, self.full, self.soonest, self.clock) = (undo.open, undo.full, undo.soonest, undo.clock);
        self.count -= 1;
        self.closed = false;
        self.undo.may = false;
        Ok(())
    }

    /// What the row of this number reads.
    pub fn verdict(&self, row: usize) -> Result<Verdict, u8> {
        match self.rows.get(row).map(|row| row.broken) {
            None => Err(15),
            Some(0) if self.closed => Ok(Verdict::Kept),
            Some(0) => Ok(Verdict::Open),
            Some(step) => Ok(Verdict::Broken(step)),
        }
    }

    /// Why and when a broken row broke.
    pub fn cause(&self, row: usize) -> Option<Cause> {
        self.rows.get(row).filter(|row| row.broken > 0).and_then(|row| row.cause)
    }

    /// What every row reads.
    pub fn verdicts(&self) -> Vec<Verdict> {
        (0..self.rows.len()).filter_map(|row| self.verdict(row).ok()).collect()
    }

    /// How many steps were taken.
    pub fn count(&self) -> u64 {
        self.count
    }

    /// A step is taken and counted: what it may change beside the rows is kept.
    fn begin(&mut self, stream: Option<u8>, free: u64) {
        let Plain { open, full, soonest, clock, .. } = *self;
        self.undo = Undo { may: true, stream, free, took: 0, open, full, soonest, clock };
        self.count += 1;
    }

    /// Would more than 64 wait in one of these rows that the event leaves open?
    fn crowded(&self, mut rows: u32, kind: u8, time: u64) -> bool {
        while rows != 0 {
            let row = &self.rows[rows.trailing_zeros() as usize];
            if time <= row.due && row.rule.crowded(kind, time) {
                return true;
            }
            rows &= rows - 1;
        }
        false
    }

    /// The clock has passed to a time: rows that were due before are broken.
    fn pass(&mut self, time: u64) {
        if time <= self.soonest {
            return;
        }
        self.soonest = u64::MAX;
        each(self.open, |row| {
            let due = self.rows[row].due;
            if due < time {
                self.break_row(row, Cause::Overdue(due));
            } else {
                self.soonest = self.soonest.min(due);
            }
        });
    }

    /// A row takes an event of one of its kinds.
    fn row_event(&mut self, place: usize, kind: u8, time: u64) {
        let row = &mut self.rows[place];
        row.due_before = row.due;
        let Some(Left { due, full }) = row.rule.event(kind, time, &mut row.before) else {
            return self.break_row(place, Cause::Event(time));
        };
        row.due = due;
        self.soonest = self.soonest.min(due);
        self.full = self.full & !(1 << place) | u32::from(full) << place;
    }

    /// The step just counted breaks a row.
    fn break_row(&mut self, place: usize, cause: Cause) {
        let row = &mut self.rows[place];
        (row.broken, row.cause) = (self.count, Some(cause));
        self.open &= !(1 << place);
        self.full &= !(1 << place);
    }
}

/// The plain monitor behind calls that are not inlined.
pub struct Called(pub Plain);

impl Called {
    #[inline(never)]
    pub fn event(&mut self, kind: u8, time: u64) -> Answer {
        self.0.event(kind, time)
    }

    #[inline(never)]
    pub fn coloured_event(&mut self, kind: u8, colour: u8, time: u64) -> Answer {
        self.0.coloured_event(kind, colour, time)
    }

    #[inline(never)]
    pub fn tick(&mut self, time: u64) -> Answer {
        self.0.tick(time)
    }

    #[inline(never)]
    pub fn close(&mut self) -> Answer {
        self.0.close()
    }

    #[inline(never)]
    pub fn withdraw(&mut self) -> Answer {
        self.0.withdraw()
    }
}

impl Row {
    fn new(row: &Constraint) -> Row {
        Row {
            rule: Rule::new(row),
            due: u64::MAX,
            broken: 0,
            cause: None,
            before: Before::default(),
            due_before: u64::MAX,
        }
    }

    /// Goes back to before the event of a stream that it took.
    fn withdraw(&mut self, stream: u8) {
        self.rule.withdraw(stream, &self.before);
        self.due = self.due_before;
    }
}

/// Does something for each row of a set.
fn each(mut rows: u32, mut act: impl FnMut(usize)) {
    while rows != 0 {
        act(rows.trailing_zeros() as usize);
        rows &= rows - 1;
    }
}
