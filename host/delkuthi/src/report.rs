//! The report on a whole recording.

use crate::ffi;
use crate::monitor::Monitor;

/// The length of the longest report.
pub const REPORT_LIMIT: usize = 1024;

/// Reads the table, takes all records, closes, and writes the report. Returns the number of bytes written. If the buffer is
/// too short, it returns `None` and writes nothing. Bytes behind the report stay as they were.
///
/// ```
/// let table = [1, 0, 19, 1, 0, 1, 0, 0, 0, 0, 0, 0, 0, 2, 0, 0, 0, 0, 0, 0, 0, 3];
/// let recording = [1, 0, 9, 0, 0, 0, 0, 0, 0, 0, 0, 10, 0, 8, 0, 0, 0, 0, 0, 0, 0, 14];
/// let mut buffer = [0; delkuthi::REPORT_LIMIT];
/// let length = delkuthi::report(&table, &recording, &mut buffer).expect("a buffer of that length is long enough");
/// assert_eq!(&buffer[..length], b"closed 3\n0 broken 2\n");
/// ```
pub fn report(table: &[u8], recording: &[u8], buffer: &mut [u8]) -> Option<usize> {
    // SAFETY: the pointers and lengths are slices', and the buffer's memory is not that of the others.
    let written = unsafe {
        ffi::delkuthi_report_2(
            table.as_ptr(),
            table.len(),
            recording.as_ptr(),
            recording.len(),
            buffer.as_mut_ptr(),
            buffer.len(),
        )
    };
    if written == 0 { None } else { Some(written) }
}

impl Monitor {
    /// Writes the report of this monitor, which must be closed, as [`report`] writes it for the same table and steps. Returns
    /// the number of bytes written. If the monitor is not closed, or the buffer is too short, it returns `None` and writes
    /// nothing; [`Monitor::closed`] tells which.
    ///
    /// ```
    /// use delkuthi::{Monitor, REPORT_LIMIT};
    ///
    /// let table = [1, 0, 19, 1, 0, 1, 0, 0, 0, 0, 0, 0, 0, 2, 0, 0, 0, 0, 0, 0, 0, 3];
    /// let mut monitor = Monitor::fresh(&table)?;
    /// let mut buffer = [0; REPORT_LIMIT];
    /// monitor.event(0, 10)?;
    /// monitor.tick(14)?;
    /// assert_eq!(monitor.report(&mut buffer), None);
    /// monitor.close()?;
    /// let length = monitor.report(&mut buffer).expect("the report of a closed monitor");
    /// assert_eq!(&buffer[..length], b"closed 3\n0 broken 2\n");
    /// # Ok::<(), delkuthi::Refusal>(())
    /// ```
    pub fn report(&self, buffer: &mut [u8]) -> Option<usize> {
        // SAFETY: pointer and length are a slice's, and its memory is not the monitor's.
        let written = unsafe { ffi::delkuthi_report_of(self, buffer.as_mut_ptr(), buffer.len()) };
        if written == 0 { None } else { Some(written) }
    }

    /// Writes the report on a recording under a table, as [`report`] writes it, with this monitor, so that no monitor is on the
    /// stack. If the table is refused, the monitor stays as it was. Otherwise it has then taken the records up to the first
    /// one that was refused, or all records and the close, even if the buffer is too short.
    ///
    /// ```
    /// use delkuthi::{Monitor, REPORT_LIMIT, Verdict, WORDS};
    ///
    /// let table = [1, 0, 19, 1, 0, 1, 0, 0, 0, 0, 0, 0, 0, 2, 0, 0, 0, 0, 0, 0, 0, 3];
    /// let recording = [1, 0, 9, 0, 0, 0, 0, 0, 0, 0, 0, 10, 0, 8, 0, 0, 0, 0, 0, 0, 0, 14];
    /// let mut monitor = Monitor::from_words([0; WORDS]);
    /// let mut buffer = [0; REPORT_LIMIT];
    /// let length = monitor.report_on(&table, &recording, &mut buffer).expect("a buffer of that length is long enough");
    /// assert_eq!(&buffer[..length], b"closed 3\n0 broken 2\n");
    /// assert_eq!(monitor.verdict(0), Ok(Verdict::Broken(2)));
    /// ```
    pub fn report_on(&mut self, table: &[u8], recording: &[u8], buffer: &mut [u8]) -> Option<usize> {
        // SAFETY: the pointers and lengths are slices', and neither the buffer's memory nor the monitor's is that of the others.
        let written = unsafe {
            ffi::delkuthi_report_on_2(
                self,
                table.as_ptr(),
                table.len(),
                recording.as_ptr(),
                recording.len(),
                buffer.as_mut_ptr(),
                buffer.len(),
            )
        };
        if written == 0 { None } else { Some(written) }
    }
}
