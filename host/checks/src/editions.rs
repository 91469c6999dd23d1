//! Every call that takes a table, in its form for edition 1 and in its form for both editions, as the archive has them.

use delkuthi::{Monitor, REPORT_LIMIT};
use model::random::seen::Seen;
use model::{Refusal, Stamped, Stretch, read_table_up_to, report_text_up_to, shortest_stretch_up_to, stamped_up_to};

type Fresh = unsafe extern "C" fn(&mut Monitor, *const u8, usize) -> u64;
type Writer = unsafe extern "C" fn(*const u8, usize, *mut u8, usize) -> u64;
type Report = unsafe extern "C" fn(*const u8, usize, *const u8, usize, *mut u8, usize) -> usize;
type ReportOn = unsafe extern "C" fn(&mut Monitor, *const u8, usize, *const u8, usize, *mut u8, usize) -> usize;
type Stamps = unsafe extern "C" fn(*const u8, usize, *const u8, usize, u64, u64) -> u64;
type ShortestStretch = unsafe extern "C" fn(*const u8, usize, *const u8, usize, u64) -> u64;

unsafe extern "C" {
    fn delkuthi_fresh(monitor: &mut Monitor, table: *const u8, n: usize) -> u64;
    fn delkuthi_fresh_2(monitor: &mut Monitor, table: *const u8, n: usize) -> u64;
    fn delkuthi_table(rows: *const u8, size: usize, table: *mut u8, n: usize) -> u64;
    fn delkuthi_table_2(rows: *const u8, size: usize, table: *mut u8, n: usize) -> u64;
    fn delkuthi_report(table: *const u8, n: usize, recording: *const u8, m: usize, report: *mut u8, r: usize) -> usize;
    fn delkuthi_report_2(
        table: *const u8,
        n: usize,
        recording: *const u8,
        m: usize,
        report: *mut u8,
        r: usize,
    ) -> usize;
    fn delkuthi_report_on(
        monitor: &mut Monitor,
        table: *const u8,
        n: usize,
        recording: *const u8,
        m: usize,
        report: *mut u8,
        r: usize,
    ) -> usize;
    fn delkuthi_report_on_2(
        monitor: &mut Monitor,
        table: *const u8,
        n: usize,
        recording: *const u8,
        m: usize,
        report: *mut u8,
        r: usize,
    ) -> usize;
    fn delkuthi_stamps(table: *const u8, n: usize, recording: *const u8, m: usize, row: u64, late: u64) -> u64;
    fn delkuthi_stamps_2(table: *const u8, n: usize, recording: *const u8, m: usize, row: u64, late: u64) -> u64;
    fn delkuthi_shortest_stretch(table: *const u8, n: usize, recording: *const u8, m: usize, row: u64) -> u64;
    fn delkuthi_shortest_stretch_2(table: *const u8, n: usize, recording: *const u8, m: usize, row: u64) -> u64;
}

/// The calls of one form.
pub struct Form {
    /// The newest edition that they take, which is the one that the writer writes.
    pub newest: u8,
    fresh: Fresh,
    writer: Writer,
    report: Report,
    report_on: ReportOn,
    stamps: Stamps,
    shortest_stretch: ShortestStretch,
}

/// The calls of edition 1, and their second forms.
pub const FORMS: [Form; 2] = [
    Form {
        newest: 1,
        fresh: delkuthi_fresh,
        writer: delkuthi_table,
        report: delkuthi_report,
        report_on: delkuthi_report_on,
        stamps: delkuthi_stamps,
        shortest_stretch: delkuthi_shortest_stretch,
    },
    Form {
        newest: 2,
        fresh: delkuthi_fresh_2,
        writer: delkuthi_table_2,
        report: delkuthi_report_2,
        report_on: delkuthi_report_on_2,
        stamps: delkuthi_stamps_2,
        shortest_stretch: delkuthi_shortest_stretch_2,
    },
];

/// What stands above the number of an answer, or the refusal.
fn taken(answer: u64) -> Result<u64, Refusal> {
    match ((answer & 127) as u8, answer >> 8) {
        (0, rest) => Ok(rest),
        (number, place) => Err(Refusal { number, place: place as usize }),
    }
}

impl Form {
    /// Makes a monitor fresh over a table.
    ///
    /// # Errors
    /// The refusal of the table.
    pub fn fresh(&self, monitor: &mut Monitor, table: &[u8]) -> Result<(), Refusal> {
        // SAFETY: pointer and length are a slice's.
        taken(unsafe { (self.fresh)(monitor, table.as_ptr(), table.len()) }).map(|_| ())
    }

    /// Writes a table of rows of 34 bytes each; gives the number of bytes written.
    ///
    /// # Errors
    /// The refusal's number, and as its place the row.
    pub fn write(&self, rows: &[u8], table: &mut [u8]) -> Result<usize, Refusal> {
        // SAFETY: pointers and lengths are slices', the table's memory its own.
        let answer = unsafe { (self.writer)(rows.as_ptr(), rows.len(), table.as_mut_ptr(), table.len()) };
        taken(answer).map(|length| length as usize)
    }

    /// The report on a recording, without and with a lent monitor: both are the same.  # Panics If they are not.
    pub fn report(&self, monitor: &mut Monitor, table: &[u8], recording: &[u8]) -> String {
        let (mut one, mut other) = ([0; REPORT_LIMIT], [0; REPORT_LIMIT]);
        let (t, n, r, m) = (table.as_ptr(), table.len(), recording.as_ptr(), recording.len());
        // SAFETY: pointers and lengths are slices', the buffers' memory their own.
        let written = unsafe { (self.report)(t, n, r, m, one.as_mut_ptr(), REPORT_LIMIT) };
        // SAFETY: the same.
        let on = unsafe { (self.report_on)(monitor, t, n, r, m, other.as_mut_ptr(), REPORT_LIMIT) };
        assert_eq!(one[..written], other[..on], "on a lent monitor");
        String::from_utf8(one[..written].to_vec()).expect("ASCII")
    }

    /// The word for late stamps.
    ///
    /// # Errors
    /// The call's refusal.
    pub fn stamps(&self, table: &[u8], recording: &[u8], row: u64, late: u64) -> Result<Stamped, Refusal> {
        let (t, n, r, m) = (table.as_ptr(), table.len(), recording.as_ptr(), recording.len());
        // SAFETY: pointers and lengths are slices'.
        Ok(match taken(unsafe { (self.stamps)(t, n, r, m, row, late) })? {
            1 => Stamped::Kept,
            2 => Stamped::Broken,
            _ => Stamped::Unsure,
        })
    }

    /// The shortest stretch that breaks a row.
    ///
    /// # Errors
    /// The call's refusal.
    pub fn stretch(&self, table: &[u8], recording: &[u8], row: u64) -> Result<Stretch, Refusal> {
        let (t, n, r, m) = (table.as_ptr(), table.len(), recording.as_ptr(), recording.len());
        // SAFETY: pointers and lengths are slices'.
        let found = taken(unsafe { (self.shortest_stretch)(t, n, r, m, row) })?;
        Ok(Stretch {
            first: (found & 255) as usize,
            length: (found >> 8 & 65_535) as usize,
            tried: (found >> 24) as usize,
        })
    }

    /// Every call that reads a table answers as the model does of the editions that the form takes; counts the refusal.
    ///
    /// # Panics
    /// If one does not.
    pub fn compare(&self, table: &[u8], recording: &[u8], row: u64, seen: &mut Seen) {
        let told = || format!("form {}, table {table:02x?}, recording {recording:02x?}, row {row}", self.newest);
        let mut monitor = Monitor::from_words([0; delkuthi::WORDS]);
        let rows = read_table_up_to(self.newest, table);
        assert_eq!(
            self.fresh(&mut monitor, table),
            rows.as_ref().map(|_| ()).map_err(|refusal| *refusal),
            "{}",
            told()
        );
        assert_eq!(monitor.rows(), rows.as_ref().map_or(0, Vec::len), "{}", told());
        let report = report_text_up_to(self.newest, table, recording);
        assert_eq!(self.report(&mut monitor, table, recording), report, "{}", told());
        let stamps = stamped_up_to(self.newest, table, recording, row, 2);
        assert_eq!(self.stamps(table, recording, row, 2), stamps, "{}", told());
        let stretch = shortest_stretch_up_to(self.newest, table, recording, row);
        assert_eq!(self.stretch(table, recording, row), stretch, "{}", told());
        let _ = rows.inspect_err(|refusal| seen.refusal(refusal.number));
    }
}
