//! A vector: calls with the answers that the model gives, and what every row reads after each. The model plays the calls while the
//! vector is written, so no expected answer comes from the library.

use crate::bytes::{put_bytes, put_number, put_text, put_way};
use model::join::{Input, join};
use model::recording::{put_record, read_record};
use model::{
    Cause, Constraint, Monitor, NEWEST_EDITION, NO_LIMIT, Refusal, Stamped, Step, Verdict, add_row, page_text,
    read_table_up_to, refused_short_in, report_of, report_text_up_to, row_back, short_body, shortest_stretch_up_to,
    stamped_up_to, table_bytes_in, table_row, write_short_in,
};
use std::collections::BTreeSet;

/// What an item of a vector asks of the library; `runner.c` has the same list.
#[derive(Clone, Copy)]
enum Item {
    Table = 1,
    Recording,
    Fresh,
    Event,
    Coloured,
    Tick,
    Close,
    Withdraw,
    Page,
    Report,
    ReportOn,
    ReportOf,
    Write,
    Join,
    Stamps,
    Stretch,
    Count,
    Zeros,
    WithdrawStep,
    Take,
    Put,
    AddRow,
    RowBack,
}

/// What the runner expects of the monitor.
#[derive(Clone, Default)]
struct State {
    verdicts: Vec<Verdict>,
    waiting: Vec<u64>,
    /// The time and the stream of the oldest that waits, where something does.
    oldest: Vec<Option<(u64, u8)>>,
    deadlines: Vec<u64>,
    /// The cause and the moment of a break, where there is one.
    causes: Vec<(u8, u64)>,
    clock: u64,
    count: u64,
}

impl State {
    fn fresh(rows: usize) -> State {
        State {
            verdicts: vec![Verdict::Open; rows],
            waiting: vec![0; rows],
            oldest: vec![None; rows],
            deadlines: vec![NO_LIMIT; rows],
            causes: vec![(0, NO_LIMIT); rows],
            ..State::default()
        }
    }

    /// What the monitor says, after what it said before.
    fn of(monitor: &Monitor, before: &State) -> State {
        let rows = 0..monitor.rows().len();
        let verdicts = monitor.verdicts();
        let cause = |row: usize| match verdicts[row] {
            verdict if before.verdicts.get(row) == Some(&verdict) => before.causes[row],
            _ => monitor.row_cause(row).map_or((0, NO_LIMIT), Cause::numbers),
        };
        let causes = rows.clone().map(cause).collect();
        State {
            verdicts,
            causes,
            waiting: rows.clone().map(|row| monitor.row_waiting(row) as u64).collect(),
            oldest: rows.clone().map(|row| monitor.row_oldest(row)).collect(),
            deadlines: rows.map(|row| if monitor.closed() { NO_LIMIT } else { monitor.row_deadline(row) }).collect(),
            clock: monitor.clock(),
            count: monitor.count(),
        }
    }
}

/// A vector as it is written: where it comes from, what it shows, and its bytes.
pub struct Vector {
    pub source: String,
    /// What the vector shows, in the words of the list of clauses.
    pub facts: BTreeSet<String>,
    pub items: u64,
    pub bytes: Vec<u8>,
    table: Vec<u8>,
    recording: Vec<u8>,
    monitor: Option<Monitor>,
    state: State,
}

/// The number of an answer: 0 or the refusal.
fn number(answer: Result<(), u8>) -> u8 {
    answer.err().unwrap_or(0)
}

/// The answer of a call that has a place (§7.6).
fn placed(refusal: Refusal) -> u64 {
    256 * refusal.place as u64 + u64::from(refusal.number)
}

impl Vector {
    /// An empty vector.
    pub fn new(source: impl Into<String>) -> Vector {
        Vector {
            source: source.into(),
            facts: BTreeSet::new(),
            items: 0,
            bytes: Vec::new(),
            table: Vec::new(),
            recording: Vec::new(),
            monitor: None,
            state: State::default(),
        }
    }

    /// Notes what the vector shows.
    pub fn shows(&mut self, fact: impl Into<String>) {
        self.facts.insert(fact.into());
    }

    fn refused(&mut self, number: u8) {
        if number != 0 {
            self.shows(format!("refused {number}"));
        }
    }

    fn item(&mut self, item: Item) {
        self.items += 1;
        self.bytes.push(item as u8);
    }

    /// The table for the calls that follow.
    pub fn table(&mut self, table: &[u8]) {
        self.item(Item::Table);
        put_bytes(&mut self.bytes, table);
        self.table = table.to_vec();
    }

    /// The recording for the calls that follow.
    pub fn recording(&mut self, recording: &[u8]) {
        self.item(Item::Recording);
        put_bytes(&mut self.bytes, recording);
        self.recording = recording.to_vec();
    }

    /// A fresh monitor over the table, by the form of the call for tables up to an edition.
    pub fn fresh(&mut self, form: u8) {
        self.item(Item::Fresh);
        self.bytes.push(form);
        self.shows(format!("form {form}"));
        match read_table_up_to(form, &self.table) {
            Err(refusal) => {
                put_number(&mut self.bytes, placed(refusal));
                self.refused(refusal.number);
                self.shows("table refused");
                if self.table.first() == Some(&2) && form == 1 {
                    self.shows("edition 2 refused");
                }
            }
            Ok(rows) => {
                put_number(&mut self.bytes, 0);
                put_number(&mut self.bytes, rows.len() as u64);
                self.rows_seen(&rows);
                self.monitor = Some(Monitor::fresh(&rows).expect("an accepted table"));
                self.state = State::fresh(rows.len());
            }
        }
        self.put_state();
    }

    fn rows_seen(&mut self, rows: &[Constraint]) {
        self.shows("fresh");
        self.shows(format!("edition {}", self.table[0]));
        for row in rows {
            self.shows(format!("type {}", row.type_byte()));
            if row.times().contains(&NO_LIMIT) {
                self.shows("no limit");
            }
        }
        if rows.len() == model::ROW_LIMIT {
            self.shows("32 rows");
        }
    }

    /// The step count that the monitor starts from (§1.7).
    pub fn count(&mut self, count: u64) {
        self.item(Item::Count);
        put_number(&mut self.bytes, count);
        let rows = self.monitor.as_ref().expect("a monitor").rows().to_vec();
        self.monitor = Some(Monitor::counting_from(&rows, count).expect("an accepted table"));
        self.put_state();
    }

    /// A step, taken or refused.
    pub fn step(&mut self, step: Step) {
        let (item, name) = match step {
            Step::Event { .. } => (Item::Event, "event"),
            Step::Coloured { .. } => (Item::Coloured, "coloured event"),
            Step::Tick { .. } => (Item::Tick, "tick"),
            Step::Close => (Item::Close, "close"),
        };
        self.item(item);
        match step {
            Step::Event { kind, .. } => self.bytes.push(kind),
            Step::Coloured { kind, colour, .. } => self.bytes.extend([kind, colour]),
            _ => (),
        }
        if let Some(time) = model::beside::time_of(step) {
            put_number(&mut self.bytes, time);
        }
        let monitor = self.monitor.as_mut().expect("a monitor");
        let crowded = monitor.crowded_row(step);
        let answer = number(monitor.step(step));
        self.bytes.push(answer);
        if answer == 12 {
            self.bytes.push(crowded as u8);
            self.shows("crowded row");
        }
        self.refused(answer);
        if answer == 0 {
            self.shows(name);
            self.taken(step);
        } else {
            self.shows("refused step");
        }
        self.put_state();
    }

    /// Notes what a step that was taken shows.
    fn taken(&mut self, step: Step) {
        let (monitor, before) = (self.monitor.as_ref().expect("a monitor"), &self.state.verdicts);
        let mut facts = Vec::new();
        for ((row, verdict), before) in monitor.rows().iter().zip(monitor.verdicts()).zip(before) {
            let name = match verdict {
                Verdict::Open => "open",
                Verdict::Kept => "kept",
                Verdict::Broken(_) => "broken",
            };
            facts.push(format!("{name} {}", row.type_byte()));
            if matches!(verdict, Verdict::Broken(_)) && *before == verdict {
                facts.push("stays broken".to_string());
            }
            if verdict != *before && step != Step::Close && !model::beside::is_own(row, step) {
                facts.push("broken by another step".to_string());
            }
        }
        self.facts.extend(facts);
    }

    /// The last step withdrawn, or refused (§3.12).
    pub fn withdraw(&mut self) {
        self.item(Item::Withdraw);
        self.withdrawn(Monitor::withdraw);
    }

    /// The last step withdrawn by its number, or refused (§3.17).
    pub fn withdraw_step(&mut self, step: u64) {
        self.item(Item::WithdrawStep);
        put_number(&mut self.bytes, step);
        self.withdrawn(|monitor| monitor.withdraw_step(step));
    }

    fn withdrawn(&mut self, withdraw: impl FnOnce(&mut Monitor) -> Result<(), u8>) {
        let monitor = self.monitor.as_mut().expect("a monitor");
        let answer = number(withdraw(monitor));
        let changed = self.state.verdicts.iter().zip(monitor.verdicts()).any(|(before, after)| *before != after);
        self.bytes.push(answer);
        self.refused(answer);
        if answer == 0 {
            self.shows("withdrawal");
        }
        if changed {
            self.shows("break withdrawn");
        }
        self.put_state();
    }

    /// Whether a table was accepted.
    pub fn has_monitor(&self) -> bool {
        self.monitor.is_some()
    }

    /// The records of the recording taken without a close, up to the first that is refused (§7.24).
    pub fn take(&mut self) {
        self.item(Item::Take);
        let monitor = self.monitor.as_mut().expect("a monitor");
        let (steps, answer) = (monitor.steps().len(), monitor.take(&self.recording));
        let taken = monitor.steps().len() > steps;
        put_number(&mut self.bytes, answer.map_or_else(placed, |()| 0));
        self.bytes.push(taken.into());
        if let Err(refusal) = answer {
            self.refused(refusal.number);
        }
        self.shows(if answer.is_err() { "take refused" } else { "take" });
        self.put_state();
    }

    /// What the runner expects of the monitor now: the ways of clock and count, and what has changed in the rows.
    fn put_state(&mut self) {
        let Some(monitor) = &self.monitor else { return };
        let (before, after) = (&self.state, State::of(monitor, &self.state));
        put_way(&mut self.bytes, before.clock, after.clock);
        put_way(&mut self.bytes, before.count, after.count);
        self.bytes.push(monitor.closed().into());
        let changed = |row: &usize| {
            before.verdicts[*row] != after.verdicts[*row]
                || before.waiting[*row] != after.waiting[*row]
                || before.oldest[*row] != after.oldest[*row]
                || before.deadlines[*row] != after.deadlines[*row]
        };
        let rows: Vec<usize> = (0..after.verdicts.len()).filter(changed).collect();
        put_number(&mut self.bytes, rows.len() as u64);
        for row in rows {
            let waiting = after.waiting[row];
            put_row(&mut self.bytes, row, after.verdicts[row], after.causes[row]);
            put_waiting(&mut self.bytes, waiting, after.oldest[row]);
            put_number(&mut self.bytes, after.deadlines[row].wrapping_add(1));
            if after.causes[row].0 > 0 {
                self.facts.insert(format!("cause {}", after.causes[row].0));
            }
            if waiting > 0 {
                self.facts.insert(format!("waits {}", monitor.rows()[row].type_byte()));
            }
            let deadline = if after.deadlines[row] == NO_LIMIT { "no deadline" } else { "deadline" };
            self.facts.insert(deadline.to_string());
        }
        if after.clock == model::LAST_TIME {
            self.facts.insert("last time".to_string());
        }
        self.state = after;
    }

    /// The page of the monitor, for a buffer of this size (§7.14).
    pub fn page(&mut self, room: usize) {
        self.item(Item::Page);
        let monitor = self.monitor.as_ref().expect("a monitor");
        let (text, rows, closed) = (page_text(monitor), monitor.rows().len(), monitor.closed());
        self.put_answer(room, text.as_bytes(), "page");
        match rows {
            0 => self.shows("page of no rows"),
            17.. => self.shows("page of 17 rows"),
            _ => (),
        }
        self.shows(if closed { "page of a closed monitor" } else { "page of an open monitor" });
    }

    /// The report of the monitor, for a buffer of this size (§7.23).
    pub fn report_of(&mut self, room: usize) {
        self.item(Item::ReportOf);
        let text = report_of(self.monitor.as_ref().expect("a monitor"));
        self.shows(if text.is_some() { "report of" } else { "report of an open monitor" });
        self.put_answer(room, text.unwrap_or_default().as_bytes(), "report of");
    }

    /// The report on table and recording, by the form for tables up to an edition (§7.3).
    pub fn report(&mut self, form: u8, room: usize) {
        self.item(Item::Report);
        self.bytes.push(form);
        self.put_report(form, room);
    }

    fn put_report(&mut self, form: u8, room: usize) {
        let text = report_text_up_to(form, &self.table, &self.recording);
        self.put_answer(room, text.as_bytes(), "report");
        if let Some(refused) = text.strip_prefix("refused ") {
            let number = refused.split(' ').next().and_then(|word| word.parse().ok()).expect("a refusal");
            self.refused(number);
            self.shows(format!("report refused {number}"));
        }
    }

    /// The same on the monitor, which then is as the steps taken leave it (§7.22).
    pub fn report_on(&mut self, form: u8, room: usize) {
        self.item(Item::ReportOn);
        self.bytes.push(form);
        self.put_report(form, room);
        self.shows("report on");
        match after_records(form, &self.table, &self.recording) {
            None => self.bytes.push(0),
            Some(after) => {
                self.bytes.push(1);
                put_number(&mut self.bytes, after.rows().len() as u64);
                self.state = State::fresh(after.rows().len());
                self.monitor = Some(after);
                self.put_state();
            }
        }
    }

    /// The room, the number of bytes that are written, and the text: none if it does not fit.
    fn put_answer(&mut self, room: usize, text: &[u8], what: &str) {
        let fits = text.len() <= room;
        put_number(&mut self.bytes, room as u64);
        put_text(&mut self.bytes, if fits { text } else { b"" });
        self.shows(if fits { what.to_string() } else { format!("{what} too long") });
    }

    /// The table writer of an edition, for rows and a buffer of this size (§9.7, §9.8).
    pub fn write(&mut self, edition: u8, rows: &[Constraint], room: usize) {
        self.item(Item::Write);
        self.bytes.push(edition);
        let bodies: Vec<u8> = rows.iter().flat_map(short_body).collect();
        put_bytes(&mut self.bytes, &bodies);
        put_number(&mut self.bytes, room as u64);
        let mut buffer = vec![0; room];
        match write_short_in(edition, rows, &mut buffer) {
            Ok(length) => {
                put_number(&mut self.bytes, 256 * length as u64);
                put_text(&mut self.bytes, &buffer[..length]);
                self.shows(format!("table written {edition}"));
                let read = read_table_up_to(NEWEST_EDITION, &buffer[..length]).expect("a table that was written");
                assert!(read == rows && table_bytes_in(edition, &read) == buffer[..length]);
            }
            Err(number) => {
                let row = if number == 16 { 0 } else { refused_short_in(edition, rows).expect("a refused row") };
                put_number(&mut self.bytes, 256 * row as u64 + u64::from(number));
                put_text(&mut self.bytes, b"");
                self.refused(number);
                self.shows(format!("writer refuses {number}"));
            }
        }
    }

    /// A record written behind the recording, in a buffer of this size (§7.26). The recording then has it.
    pub fn put_record(&mut self, step: Step, room: usize) {
        self.item(Item::Put);
        let (sort, kind, colour) = match step {
            Step::Event { kind, .. } => (0, kind, 0),
            Step::Coloured { kind, colour, .. } => (1, kind, colour),
            _ => (2, 0, 0),
        };
        self.bytes.extend([sort, kind, colour]);
        put_number(&mut self.bytes, model::beside::time_of(step).expect("a time"));
        put_number(&mut self.bytes, room as u64);
        let size = self.recording.len();
        let mut buffer = self.recording.clone();
        buffer.resize(room.max(size), 0);
        match put_record(&mut buffer[..room], size, step) {
            Ok(end) => {
                put_number(&mut self.bytes, 256 * end as u64);
                self.shows("record written");
                self.recording = buffer[..end].to_vec();
            }
            Err(number) => {
                put_number(&mut self.bytes, u64::from(number));
                self.refused(number);
                self.shows("record not written");
            }
        }
        let bytes = self.recording.clone();
        put_text(&mut self.bytes, &bytes);
        if bytes.len() > size {
            self.recording(&bytes);
        }
    }

    /// A row, given by its bytes, added to the table in a buffer of this size (§9.12). The table of later calls stays as it was.
    pub fn add_row(&mut self, body: &[u8], room: usize) {
        self.item(Item::AddRow);
        put_bytes(&mut self.bytes, body);
        put_number(&mut self.bytes, room as u64);
        match add_row(&self.table, body, room) {
            Ok(bytes) => {
                put_number(&mut self.bytes, 256 * bytes.len() as u64);
                put_text(&mut self.bytes, &bytes);
                self.shows("row added");
            }
            Err(refusal) => {
                put_number(&mut self.bytes, placed(refusal));
                put_text(&mut self.bytes, &self.table);
                self.refused(refusal.number);
                self.shows("row not added");
            }
        }
    }

    /// A row of the table, or of the monitor, read back into a buffer of this size (§9.13, §9.14).
    pub fn row_back(&mut self, of_monitor: bool, row: u64, room: usize) {
        let given = match (of_monitor, &self.monitor) {
            (true, None) => return,
            (true, Some(monitor)) => row_back(monitor.rows(), row, room).map_err(|number| Refusal { number, place: 0 }),
            (false, _) => table_row(&self.table, row, room),
        };
        self.item(Item::RowBack);
        self.bytes.push(u8::from(of_monitor));
        put_number(&mut self.bytes, row);
        put_number(&mut self.bytes, room as u64);
        match given {
            Ok(body) => {
                put_number(&mut self.bytes, 256 * body.len() as u64);
                put_text(&mut self.bytes, &body);
                self.shows(if of_monitor { "row of a monitor read back" } else { "row of a table read back" });
            }
            Err(refusal) => {
                put_number(&mut self.bytes, placed(refusal));
                put_text(&mut self.bytes, &[]);
                self.refused(refusal.number);
            }
        }
    }

    /// The table, as the first recording, joined with the recording (section 13).
    pub fn join(&mut self, room: usize) {
        self.item(Item::Join);
        put_number(&mut self.bytes, room as u64);
        match join(&self.table, &self.recording, room) {
            Ok(bytes) => {
                put_number(&mut self.bytes, 256 * bytes.len() as u64);
                put_text(&mut self.bytes, &bytes);
                self.shows("join");
                if bytes.len() + 1 < self.table.len() + self.recording.len() {
                    self.shows("tick dropped");
                }
            }
            Err(refused) => {
                let second = if refused.input == Some(Input::Second) { 128 } else { 0 };
                put_number(&mut self.bytes, placed(refused.refusal) + second);
                put_text(&mut self.bytes, b"");
                self.refused(refused.refusal.number);
                self.shows("join refused");
            }
        }
    }

    /// What a row reads if stamps may be late (section 12).
    pub fn stamps(&mut self, form: u8, row: u64, late: u64) {
        self.item(Item::Stamps);
        self.bytes.push(form);
        put_number(&mut self.bytes, row);
        put_number(&mut self.bytes, late);
        let answer = match stamped_up_to(form, &self.table, &self.recording, row, late) {
            Ok(Stamped::Kept) => 256,
            Ok(Stamped::Broken) => 512,
            Ok(Stamped::Unsure) => 768,
            Err(refusal) => placed(refusal),
        };
        put_number(&mut self.bytes, answer);
        self.refused(answer as u8);
        let fact = ["stamps refused", "stamps kept", "stamps broken", "stamps unsure"];
        self.shows(fact[if answer & 255 == 0 { answer as usize / 256 } else { 0 }]);
        if late == 0 {
            self.shows("stamps e 0");
        }
    }

    /// The shortest stretch that breaks a row (section 14).
    pub fn stretch(&mut self, form: u8, row: u64) {
        self.item(Item::Stretch);
        self.bytes.push(form);
        put_number(&mut self.bytes, row);
        let found = shortest_stretch_up_to(form, &self.table, &self.recording, row);
        let answer = match found {
            Ok(found) => (found.first as u64) << 8 | (found.length as u64) << 16 | (found.tried as u64) << 32,
            Err(refusal) => placed(refusal),
        };
        put_number(&mut self.bytes, answer);
        self.refused(answer as u8);
        self.shows(if found.is_ok() { "stretch" } else { "stretch refused" });
    }

    /// Memory of zeros in place of the monitor (§15.13), which is then a closed monitor without rows.
    pub fn zeros(&mut self) {
        self.item(Item::Zeros);
        self.shows("zeros");
    }
}

/// The bytes of a row that has changed: its number, and its verdict with the step of a break.
fn put_row(bytes: &mut Vec<u8>, row: usize, verdict: Verdict, (cause, moment): (u8, u64)) {
    bytes.push(row as u8);
    match verdict {
        Verdict::Open => bytes.push(0),
        Verdict::Kept => bytes.push(1),
        Verdict::Broken(step) => {
            bytes.push(2);
            put_number(bytes, step);
            bytes.push(cause);
            put_number(bytes, moment);
        }
    }
}

/// The bytes of what waits in it: how many, and of the oldest time and stream.
fn put_waiting(bytes: &mut Vec<u8>, waiting: u64, oldest: Option<(u64, u8)>) {
    put_number(bytes, waiting);
    if let Some((time, stream)) = oldest {
        put_number(bytes, time);
        bytes.push(stream);
    }
}

/// The monitor that a report leaves: none if the table is refused (§7.22).
fn after_records(form: u8, table: &[u8], recording: &[u8]) -> Option<Monitor> {
    let mut monitor = Monitor::fresh(&read_table_up_to(form, table).ok()?).expect("an accepted table");
    let Some((version @ (1 | 2), mut left)) = recording.split_first().map(|(version, left)| (*version, left)) else {
        return Some(monitor);
    };
    while !left.is_empty() {
        let Ok((step, size)) = read_record(version, left) else { return Some(monitor) };
        if monitor.step(step).is_err() {
            return Some(monitor);
        }
        left = &left[size..];
    }
    monitor.close().expect("a recording that is not closed");
    Some(monitor)
}
