//! The monitor, and what a row of it reads.

use crate::ffi;
use crate::refusal::Refusal;
use crate::table::body_length;
use core::fmt;

/// How many words of 64 bits a monitor takes.
pub const WORDS: usize = 4480;

/// The word for each verdict, as the library answers it. Any other word says that there is no such row.
const OPEN: u8 = 0;
const KEPT: u8 = 1;
const BROKEN: u8 = 2;

/// A monitor over a table: 35,840 bytes without pointers. A copy is an independent monitor.
#[derive(Clone, PartialEq, Eq)]
#[repr(transparent)]
pub struct Monitor {
    words: [u64; WORDS],
}

/// What a row reads. It is written as in the report: "open", "kept", "broken 3".
#[derive(Clone, Copy, Debug, PartialEq, Eq, Hash)]
pub enum Verdict {
    /// Its definition can still be met.
    Open,
    /// The recording is closed, and meets its definition.
    Kept,
    /// Its definition can no longer be met, since this step. The first step is 1.
    Broken(u64),
}

/// Why a row broke, with the moment. It is written as in the contract: "overdue 13", "event 10", "close 10".
#[derive(Clone, Copy, Debug, PartialEq, Eq, Hash)]
pub enum Cause {
    /// The clock passed the row's deadline, which this is. A tick in place of the step that broke the row would have broken it too.
    Overdue(u64),
    /// An event of one of the row's kinds broke it, at this time.
    Event(u64),
    /// The close broke it, at this clock.
    Close(u64),
}

impl fmt::Display for Cause {
    fn fmt(&self, f: &mut fmt::Formatter) -> fmt::Result {
        match self {
            Cause::Overdue(moment) => write!(f, "overdue {moment}"),
            Cause::Event(moment) => write!(f, "event {moment}"),
            Cause::Close(moment) => write!(f, "close {moment}"),
        }
    }
}

impl fmt::Display for Verdict {
    fn fmt(&self, f: &mut fmt::Formatter) -> fmt::Result {
        match self {
            Verdict::Open => write!(f, "open"),
            Verdict::Kept => write!(f, "kept"),
            Verdict::Broken(step) => write!(f, "broken {step}"),
        }
    }
}

impl Monitor {
    /// A fresh monitor over a table of either edition: clock 0, no events, count 0, not closed.
    ///
    /// # Errors
    /// 1 to 7 and 18, with the place in the table.
    ///
    /// # Panics
    /// If the linked archive does not match this crate: [`matches`](crate::matches).
    pub fn fresh(table: &[u8]) -> Result<Monitor, Refusal> {
        let mut monitor = Monitor::from_words([0; WORDS]);
        monitor.restart(table)?;
        Ok(monitor)
    }

    /// Makes this a fresh monitor over a table, in the same memory. A refusal leaves it as it was.
    ///
    /// # Errors
    /// 1 to 7 and 18, with the place in the table.
    pub fn restart(&mut self, table: &[u8]) -> Result<(), Refusal> {
        // SAFETY: pointer and length are a slice's, and its memory is not the monitor's.
        let answer = unsafe { ffi::delkuthi_fresh_2(self, table.as_ptr(), table.len()) };
        Refusal::of_bytes(answer)
    }

    /// Takes an event of a plain kind, 0 to 47. Its time must not be before the clock and must be later than the last event
    /// of its kind. A refusal leaves the monitor as it was.
    ///
    /// # Errors
    /// 8 closed, 24 all steps taken, 9 the kind, 19 a coloured kind, 10 the time's range, 11 its order, 12 more than 64
    /// would wait in a row.
    #[inline]
    pub fn event(&mut self, kind: u8, time: u64) -> Result<(), Refusal> {
        Refusal::of_step(ffi::delkuthi_event(self, kind, time))
    }

    /// Takes an event of a coloured kind, 48 to 63, with a colour from 0 to 7. Its time must not be before the clock and must
    /// be later than the last event of its kind and colour. A refusal leaves the monitor as it was.
    ///
    /// # Errors
    /// 8 closed, 24 all steps taken, 9 the kind, 19 a plain kind or no colour, 10 the time's range, 11 its order, 12 more
    /// than 64 would wait in a row.
    #[inline]
    pub fn coloured_event(&mut self, kind: u8, colour: u8, time: u64) -> Result<(), Refusal> {
        Refusal::of_step(ffi::delkuthi_coloured_event(self, kind, colour, time))
    }

    /// Takes a tick: the clock moves to a later time, and every event stamped before that time has been given. A refusal
    /// leaves the monitor as it was.
    ///
    /// # Errors
    /// 8 closed, 24 all steps taken, 10 the time's range, 11 its order.
    #[inline]
    pub fn tick(&mut self, time: u64) -> Result<(), Refusal> {
        Refusal::of_step(ffi::delkuthi_tick(self, time))
    }

    /// Closes the recording: after it no step is taken, and no row reads open.
    ///
    /// # Errors
    /// 8 already closed, 24 all steps taken.
    #[inline]
    pub fn close(&mut self) -> Result<(), Refusal> {
        Refusal::of_step(ffi::delkuthi_close(self))
    }

    /// Withdraws the last step that was taken, whichever that is: rows, clock and count are as if it had never been taken.
    /// [`Monitor::withdraw_step`] withdraws a certain step. The next withdrawal needs a new step first. A refusal leaves the
    /// monitor as it was.
    ///
    /// # Errors
    /// 21 nothing to withdraw.
    #[inline]
    pub fn withdraw(&mut self) -> Result<(), Refusal> {
        Refusal::of_step(ffi::delkuthi_withdraw(self))
    }

    /// Withdraws the last step if it has this number, which [`Monitor::steps`] gave right after it. A refusal leaves the
    /// monitor as it was.
    ///
    /// ```
    /// # use delkuthi::{Monitor, Row, TABLE_LIMIT, write_table};
    /// # let mut table = [0; TABLE_LIMIT];
    /// # let length = write_table(&[Row::Order { source: 0, target: 1 }], &mut table)?;
    /// let mut monitor = Monitor::fresh(&table[..length])?;
    /// monitor.event(2, 10)?;
    /// let marker = monitor.steps();
    /// monitor.event(0, 12)?;
    /// assert_eq!(monitor.withdraw_step(marker).map_err(|refusal| refusal.number()), Err(26));
    /// assert_eq!(monitor.steps(), 2);
    /// # Ok::<(), delkuthi::Refusal>(())
    /// ```
    ///
    /// # Errors
    /// 21 nothing to withdraw, 26 the last step has another number.
    #[inline]
    pub fn withdraw_step(&mut self, step: u64) -> Result<(), Refusal> {
        Refusal::of_step(ffi::delkuthi_withdraw_step(self, step))
    }

    /// Takes the records of a recording one after the other, without a close. At the first record that is refused the monitor
    /// has taken those before it, and nothing of the refused one.
    ///
    /// ```
    /// # use delkuthi::{Monitor, Row, TABLE_LIMIT, write_table};
    /// # let mut table = [0; TABLE_LIMIT];
    /// # let length = write_table(&[Row::Order { source: 0, target: 1 }], &mut table)?;
    /// let mut monitor = Monitor::fresh(&table[..length])?;
    /// let recording = [1, 0, 9, 0, 0, 0, 0, 0, 0, 0, 0, 10, 0, 8, 0, 0, 0, 0, 0, 0, 0, 9];
    /// let refusal = monitor.take(&recording).expect_err("a tick that is not after the clock");
    /// assert_eq!((refusal.number(), refusal.place(), monitor.steps()), (11, Some(12), 1));
    /// # Ok::<(), delkuthi::Refusal>(())
    /// ```
    ///
    /// # Errors
    /// 13 the version, 14 a record, or what a step is refused with; with the place of the record.
    pub fn take(&mut self, recording: &[u8]) -> Result<(), Refusal> {
        // SAFETY: pointer and length are a slice's, and its memory is not the monitor's.
        let answer = unsafe { ffi::delkuthi_take(self, recording.as_ptr(), recording.len()) };
        Refusal::of_bytes(answer)
    }

    /// What a row reads. The first row is row 0.
    ///
    /// # Errors
    /// 15 no row of that number.
    pub fn verdict(&self, row: usize) -> Result<Verdict, Refusal> {
        let row = row as u64;
        match ffi::delkuthi_row_verdict(self, row) {
            OPEN => Ok(Verdict::Open),
            KEPT => Ok(Verdict::Kept),
            BROKEN => Ok(Verdict::Broken(ffi::delkuthi_row_step(self, row))),
            _ => Err(Refusal::NO_ROW),
        }
    }

    /// Why a row broke, and when. None if it is not broken, and if there is no row of that number.
    ///
    /// ```
    /// # use delkuthi::{Cause, Monitor, Row, TABLE_LIMIT, write_table};
    /// # let mut table = [0; TABLE_LIMIT];
    /// # let length = write_table(&[Row::Delay { source: 0, target: 1, lower: 2, upper: 3 }], &mut table)?;
    /// let mut monitor = Monitor::fresh(&table[..length])?;
    /// monitor.event(0, 10)?;
    /// assert_eq!(monitor.cause(0), None);
    /// monitor.event(1, 20)?;
    /// assert_eq!(monitor.cause(0), Some(Cause::Overdue(13)));
    /// # Ok::<(), delkuthi::Refusal>(())
    /// ```
    pub fn cause(&self, row: usize) -> Option<Cause> {
        let moment = ffi::delkuthi_row_moment(self, row as u64);
        match ffi::delkuthi_row_cause(self, row as u64) {
            1 => Some(Cause::Overdue(moment)),
            2 => Some(Cause::Event(moment)),
            3 => Some(Cause::Close(moment)),
            _ => None,
        }
    }

    /// The number of rows of the table, at most 32 whatever the words are.
    pub fn rows(&self) -> usize {
        ffi::delkuthi_rows(self) as usize
    }

    /// Copies the body of a row of the table to a buffer, as [`crate::table_row`] does, whatever steps were taken. Returns its length. A
    /// refusal writes nothing.
    ///
    /// # Errors
    /// 15 if there is no row of that number; 16 a buffer too short.
    pub fn row(&self, row: usize, body: &mut [u8]) -> Result<usize, Refusal> {
        // SAFETY: the pointer and the length are a slice's, and its memory is not the monitor's.
        body_length(unsafe { ffi::delkuthi_monitor_row(self, row as u64, body.as_mut_ptr(), body.len()) })
    }

    /// What each row reads, in the order of the table.
    pub fn verdicts(&self) -> impl Iterator<Item = Verdict> + '_ {
        (0..self.rows()).map_while(|row| self.verdict(row).ok())
    }

    /// The clock: the time of the last event or tick, and 0 before any.
    #[inline]
    pub fn clock(&self) -> u64 {
        ffi::delkuthi_clock(self)
    }

    /// How many steps were taken, the close included.
    #[inline]
    pub fn steps(&self) -> u64 {
        ffi::delkuthi_steps(self)
    }

    /// Whether the recording is closed.
    #[inline]
    pub fn is_closed(&self) -> bool {
        ffi::delkuthi_closed(self) != 0
    }

    /// A bit for each row: bit i is 1 if row i reads broken.
    #[inline]
    pub fn broken_rows(&self) -> u32 {
        ffi::delkuthi_broken_rows(self)
    }

    /// How many wait in a row that reads open; 0 for any other row, and if there is no row of that number.
    #[inline]
    pub fn row_waiting(&self, row: usize) -> usize {
        ffi::delkuthi_row_waiting(self, row as u64) as usize
    }

    /// The time and the stream of the oldest that waits in a row that reads open. The time of a group is that of its first
    /// event, and its stream the first of the row's kinds that has an event in it. None if nothing waits in the row, for any
    /// other row, and if there is no row of that number.
    ///
    /// ```
    /// # use delkuthi::{Monitor, Row, TABLE_LIMIT, write_table};
    /// # let mut table = [0; TABLE_LIMIT];
    /// # let length = write_table(&[Row::Delay { source: 0, target: 1, lower: 2, upper: 30 }], &mut table)?;
    /// let mut monitor = Monitor::fresh(&table[..length])?;
    /// monitor.event(0, 10)?;
    /// monitor.event(0, 12)?;
    /// assert_eq!(monitor.row_oldest(0), Some((10, 0)));
    /// monitor.event(1, 13)?;
    /// assert_eq!(monitor.row_oldest(0), Some((12, 0)));
    /// # Ok::<(), delkuthi::Refusal>(())
    /// ```
    pub fn row_oldest(&self, row: usize) -> Option<(u64, u8)> {
        let time = limit(ffi::delkuthi_row_oldest(self, row as u64))?;
        Some((time, ffi::delkuthi_row_oldest_stream(self, row as u64)))
    }

    /// The first row for which [`Monitor::event`] with the same kind and time would be refused with 12: it would be open with
    /// more than 64 waiting. None if the event would not be refused with 12. An event of a coloured kind, a tick and the close
    /// never crowd a row.
    ///
    /// ```
    /// # use delkuthi::{Monitor, Row, TABLE_LIMIT, write_table};
    /// # let mut table = [0; TABLE_LIMIT];
    /// # let rows = [Row::Order { source: 0, target: 1 }, Row::Delay { source: 0, target: 1, lower: 0, upper: 1_000 }];
    /// # let length = write_table(&rows, &mut table)?;
    /// let mut monitor = Monitor::fresh(&table[..length])?;
    /// for time in 1..=64 {
    ///     assert_eq!(monitor.crowded_row(0, time), None);
    ///     monitor.event(0, time)?;
    /// }
    /// assert_eq!(monitor.crowded_row(0, 65), Some(1));
    /// assert_eq!(monitor.event(0, 65).map_err(|refusal| refusal.number()), Err(12));
    /// # Ok::<(), delkuthi::Refusal>(())
    /// ```
    #[inline]
    pub fn crowded_row(&self, kind: u8, time: u64) -> Option<usize> {
        let row = ffi::delkuthi_crowded_row(self, kind, time) as usize;
        if row == crate::ROW_LIMIT { None } else { Some(row) }
    }

    /// The last time to which a tick leaves an open row open; a tick to any later time breaks it. None if no tick breaks the
    /// row, if it is broken, after the close, and if there is no row of that number.
    #[inline]
    pub fn row_deadline(&self, row: usize) -> Option<u64> {
        limit(ffi::delkuthi_row_deadline(self, row as u64))
    }

    /// The earliest deadline of all rows: a host may sleep until then if no event comes.
    ///
    /// ```
    /// # use delkuthi::{Monitor, Row, TABLE_LIMIT, write_table};
    /// # let mut table = [0; TABLE_LIMIT];
    /// # let length = write_table(&[Row::Delay { source: 0, target: 1, lower: 2, upper: 3 }], &mut table)?;
    /// let mut monitor = Monitor::fresh(&table[..length])?;
    /// assert_eq!(monitor.deadline(), None);
    /// monitor.event(0, 10)?;
    /// assert_eq!(monitor.deadline(), Some(13));
    /// monitor.tick(14)?;
    /// assert_eq!((monitor.deadline(), monitor.broken_rows()), (None, 1));
    /// # Ok::<(), delkuthi::Refusal>(())
    /// ```
    #[inline]
    pub fn deadline(&self) -> Option<u64> {
        limit(ffi::delkuthi_deadline(self))
    }

    /// The monitor's memory, for example to store it.
    pub fn words(&self) -> &[u64; WORDS] {
        &self.words
    }

    /// A monitor from stored memory. All words are safe: each call on them still ends and touches nothing else. But on words
    /// that [`Monitor::words`] did not give, an answer means nothing, unless all words are 0: that is a closed monitor without
    /// rows.
    ///
    /// # Panics
    /// If the linked archive does not match this crate: [`matches`](crate::matches).
    pub fn from_words(words: [u64; WORDS]) -> Monitor {
        assert!(crate::matches(), "the archive libdelkuthi.a does not match this crate");
        Monitor { words }
    }
}

/// A deadline, if there is one.
#[inline]
fn limit(time: u64) -> Option<u64> {
    if time == crate::NO_LIMIT { None } else { Some(time) }
}

impl fmt::Debug for Monitor {
    /// Shows the verdicts. Only the library reads the words.
    fn fmt(&self, f: &mut fmt::Formatter) -> fmt::Result {
        f.write_str("Monitor ")?;
        f.debug_list().entries(self.verdicts()).finish()
    }
}
