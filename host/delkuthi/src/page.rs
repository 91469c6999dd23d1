//! The printed page of a monitor.

use crate::ffi;
use crate::monitor::Monitor;

/// The length of the longest page.
pub const PAGE_LIMIT: usize = 2482;

impl Monitor {
    /// Writes the page of the monitor, closed or not: a line of 72 bytes and byte 10 for each row, under headings of
    /// hyphens. Returns the number of bytes written. If the buffer is too short, it returns `None` and writes nothing. Bytes
    /// behind the page stay as they were.
    ///
    /// ```
    /// use delkuthi::{Monitor, PAGE_LIMIT, Row, TABLE_LIMIT, write_table};
    ///
    /// let rows = [Row::Delay { source: 0, target: 1, lower: 2, upper: 3 }];
    /// let mut table = [0; TABLE_LIMIT];
    /// let length = write_table(&rows, &mut table)?;
    /// let mut monitor = Monitor::fresh(&table[..length])?;
    /// monitor.event(0, 10)?;
    /// monitor.tick(14)?;
    /// let mut buffer = [0; PAGE_LIMIT];
    /// let length = monitor.page(&mut buffer).expect("a buffer of that length is long enough");
    /// assert_eq!(buffer[73..length].trim_ascii(), b"0  Delay                   broken                     2");
    /// # Ok::<(), delkuthi::Refusal>(())
    /// ```
    pub fn page(&self, buffer: &mut [u8]) -> Option<usize> {
        // SAFETY: pointer and length are a slice's, and its memory is not the monitor's.
        let written = unsafe { ffi::delkuthi_page(self, buffer.as_mut_ptr(), buffer.len()) };
        if written == 0 { None } else { Some(written) }
    }
}
