//! `docs/CONTRACT.md` as data: its clauses, and its examples to be executed.

use crate::Refusal;
use crate::notation::steps;
use crate::types::Given;
use crate::{Constraint, NO_LIMIT, Step, recording_bytes};
use std::collections::HashMap;
use std::fs;
use std::path::Path;

/// The text of the contract.
///
/// # Panics
/// If it is not there.
pub fn text() -> String {
    let root = Path::new(env!("CARGO_MANIFEST_DIR")).join("../..");
    fs::read_to_string(root.join("docs/CONTRACT.md")).expect("docs/CONTRACT.md")
}

/// A clause: its number, and whether it promises something (a bold number) or explains (one in italics).
#[derive(Clone, Debug, PartialEq, Eq)]
pub struct Clause {
    pub number: String,
    pub promises: bool,
}

/// The clauses of the contract, in its order.
pub fn clauses(text: &str) -> Vec<Clause> {
    text.lines().filter_map(clause).collect()
}

/// The clause that a line begins, if it begins one.
fn clause(line: &str) -> Option<Clause> {
    let promises = line.starts_with("**");
    let mark = if promises { "**" } else { "*" };
    let number = line.strip_prefix(mark)?.split_once(mark)?.0;
    is_clause(number).then(|| Clause { number: number.to_string(), promises })
}

/// Has it the form of a clause's number: "3.6", "5.4.1"?
pub fn is_clause(word: &str) -> bool {
    let parts: Vec<&str> = word.split('.').collect();
    let digits = |part: &&str| !part.is_empty() && part.bytes().all(|byte| byte.is_ascii_digit());
    (2..=3).contains(&parts.len()) && parts.iter().all(digits)
}

/// A fenced block: the clause under which it stands (none before the first), its sort, and its lines.
pub struct Block<'a> {
    pub clause: Option<String>,
    pub sort: &'a str,
    pub lines: Vec<&'a str>,
}

/// Every fenced block of the contract that has a sort, as ```` ```example ````, in its order.
pub fn every_block(text: &str) -> Vec<Block<'_>> {
    let (mut blocks, mut under) = (Vec::new(), None);
    let mut lines = text.lines();
    while let Some(line) = lines.next() {
        if let Some(sort) = line.strip_prefix("```") {
            let block = lines.by_ref().take_while(|line| *line != "```").collect();
            blocks.push(Block { clause: under.clone(), sort, lines: block });
        } else if let Some(clause) = clause(line) {
            under = Some(clause.number);
        }
    }
    blocks.retain(|block| !block.sort.is_empty());
    blocks
}

/// The lines of each fenced block of a sort.
pub fn blocks<'a>(text: &'a str, sort: &str) -> Vec<Vec<&'a str>> {
    every_block(text).into_iter().filter(|block| block.sort == sort).map(|block| block.lines).collect()
}

/// A call of an example: a step, or a withdrawal, of one step where a number follows.
#[derive(Clone, Copy, Debug)]
pub enum Asked {
    Step(Step),
    Withdraw,
    WithdrawStep(u64),
}

/// A recording of an example: each call, and what the contract says after it, word for word.
pub type Recording = Vec<(Asked, Option<String>)>;

/// An example: the rows of its table, and recordings for a fresh monitor each.
pub struct Example {
    pub rows: Vec<Constraint>,
    pub recordings: Vec<Recording>,
}

/// The contract's examples.
pub fn examples(text: &str) -> Vec<Example> {
    blocks(text, "example").iter().map(|lines| example(lines)).collect()
}

/// The example in the lines of a block.
///
/// # Panics
/// Where they are none.
pub fn example(lines: &[&str]) -> Example {
    let rows: Vec<Constraint> = lines.iter().map_while(|line| row(line)).collect();
    let recordings: Vec<Recording> = lines[rows.len()..].iter().map(|line| recording(line)).collect();
    assert!(!rows.is_empty() && !recordings.is_empty(), "no example: {lines:?}");
    Example { rows, recordings }
}

/// The row that a line names, if it begins with the name of a type: "Repeat event 0 span 1 lower 4 upper none".
fn row(line: &str) -> Option<Constraint> {
    let (name, rest) = line.split_once(' ').filter(|(name, _)| name.starts_with(char::is_uppercase))?;
    let number = Constraint::number_of(name).unwrap_or_else(|| panic!("no type: {line}"));
    Some(Constraint::read(number, &mut Words::of(rest)).unwrap_or_else(|| panic!("not its fields: {line}")))
}

/// The numbers behind each field's name.
struct Words<'a>(HashMap<&'a str, Vec<u64>>);

impl Words<'_> {
    fn of(text: &str) -> Words<'_> {
        let is_name = |word: &str| word != "none" && word.starts_with(char::is_alphabetic);
        let words: Vec<&str> = text.split(' ').collect();
        let groups = words.chunk_by(|_, next| !is_name(next));
        Words(groups.map(|group| (group[0], group[1..].iter().map(|word| number(word)).collect())).collect())
    }
}

impl Given for Words<'_> {
    /// The list itself says how long it is.
    fn number(&mut self) -> Option<()> {
        Some(())
    }

    fn byte(&mut self, name: &str) -> Option<u8> {
        self.time(name).and_then(|value| u8::try_from(value).ok())
    }

    fn time(&mut self, name: &str) -> Option<u64> {
        self.0.get(name).filter(|values| values.len() == 1).map(|values| values[0])
    }

    fn kinds(&mut self, name: &str) -> Option<Vec<u8>> {
        self.0.get(name)?.iter().map(|kind| u8::try_from(*kind).ok()).collect()
    }

    fn times(&mut self, name: &str) -> Option<Vec<u64>> {
        self.0.get(name).cloned()
    }

    /// The lower and the upper of the first pair, of the second, and so on.
    fn pairs(&mut self, name: &str) -> Option<Vec<(u64, u64)>> {
        let pair = |pair: &[u64]| Some((pair[0], *pair.get(1)?));
        self.0.get(name)?.chunks(2).map(pair).collect()
    }
}

fn number(word: &str) -> u64 {
    if word == "none" { NO_LIMIT } else { word.parse().unwrap_or_else(|_| panic!("no number: {word}")) }
}

/// "withdraw", "withdraw 2", "tick 13".
fn asked(word: &str) -> Asked {
    match word.strip_prefix("withdraw") {
        Some("") => Asked::Withdraw,
        Some(step) => Asked::WithdrawStep(number(step.trim_start())),
        None => Asked::Step(word.parse().unwrap_or_else(|error| panic!("{error}"))),
    }
}

/// "0@10, tick 13: open, 1@20..22, withdraw".
fn recording(line: &str) -> Recording {
    let mut steps = Recording::new();
    for part in line.split(", ") {
        let (step, said) = match part.split_once(": ") {
            Some((step, said)) => (step, Some(said.to_string())),
            None => (part, None),
        };
        for step in in_full(step) {
            steps.push((asked(&step), None));
        }
        steps.last_mut().expect("a step").1 = said;
    }
    steps
}

/// "0@10..12" in full: "0@10", "0@11", "0@12".
fn in_full(step: &str) -> Vec<String> {
    match step.split_once("..") {
        None => vec![step.to_string()],
        Some((first, last)) => {
            let (kind, first) = first.split_once('@').expect("an event");
            (number(first)..=number(last)).map(|time| format!("{kind}@{time}")).collect()
        }
    }
}

impl Asked {
    /// The step that is asked for.
    ///
    /// # Panics
    /// If it is a withdrawal.
    pub fn step(self) -> Step {
        match self {
            Asked::Step(step) => step,
            _ => panic!("no step: {self:?}"),
        }
    }
}

/// Recordings that one monitor takes: of each its bytes and what the call answers, 0 or the place times 256 plus the number; and what the
/// contract's row then reads (§7.25).
pub struct Takes {
    pub recordings: Vec<(Vec<u8>, u64)>,
    pub reads: String,
}

/// "0@10, 0@9 = refused 11, place 12; tick 14 = taken: broken 2".
///
/// # Panics
/// Where it is none.
pub fn takes(line: &str) -> Takes {
    let (calls, reads) = line.rsplit_once(": ").unwrap_or_else(|| panic!("no verdict: {line}"));
    let call = |part: &str| {
        let (records, answer) = part.split_once(" = ").unwrap_or_else(|| panic!("no answer: {line}"));
        let steps = if records == "nothing" { Vec::new() } else { steps(records) };
        (recording_bytes(&steps), take_answer(answer))
    };
    Takes { recordings: calls.split("; ").map(call).collect(), reads: reads.to_string() }
}

/// "taken" or "refused 11, place 12".
fn take_answer(text: &str) -> u64 {
    let Some(refused) = text.strip_prefix("refused ") else { return 0 };
    let (refusal, place) = refused.split_once(", place ").unwrap_or_else(|| panic!("no place: {text}"));
    256 * number(place) + number(refusal)
}

/// Records that are written one after the other, and the bytes then, or the refusal of the last (§7.27).
pub struct Writes {
    pub steps: Vec<Step>,
    pub written: Result<Vec<u8>, u8>,
}

/// The room of the contract's buffer.
pub const WRITES_ROOM: usize = 60;

/// "0@10, tick 14 = 02 0009 ..", or "64@10 = refused 9".
///
/// # Panics
/// Where it is none.
pub fn writes(line: &str) -> Writes {
    let (records, answer) = line.split_once(" = ").unwrap_or_else(|| panic!("no bytes: {line}"));
    let written = match answer.strip_prefix("refused ") {
        Some(refusal) => Err(refusal.parse().expect("a refusal")),
        None => Ok(bytes(answer, "")),
    };
    Writes { steps: steps(records), written }
}

/// A row of a table that is read back into a buffer (§9.13): its body, or the refusal.
pub struct RowBack {
    pub table: Vec<u8>,
    pub row: u64,
    pub room: usize,
    pub given: Result<Vec<u8>, Refusal>,
}

/// "01 0003 06 00 01, row 0, room 131 = 06 00 01", or ".. = refused 15", or ".. = refused 4, place 1".
///
/// # Panics
/// Where it is none.
pub fn rows_back(line: &str) -> RowBack {
    let (asked, answer) = line.split_once(" = ").unwrap_or_else(|| panic!("no answer: {line}"));
    let (table, rest) = asked.split_once(", row ").unwrap_or_else(|| panic!("no row: {line}"));
    let (row, room) = rest.split_once(", room ").unwrap_or_else(|| panic!("no room: {line}"));
    let given = match answer.strip_prefix("refused ") {
        None => Ok(bytes(answer, "")),
        Some(refused) => {
            let (refusal, place) = refused.split_once(", place ").unwrap_or((refused, "0"));
            Err(Refusal { number: number(refusal) as u8, place: number(place) as usize })
        }
    };
    RowBack { table: bytes(table, ""), row: number(row), room: number(room) as usize, given }
}

/// A page of the contract: the rows of a table, the steps of a recording, and what is printed after them.
pub struct Page {
    pub rows: Vec<Constraint>,
    pub steps: Vec<Step>,
    pub printed: String,
}

/// The contract's pages. Blanks at the end of a line are left out there.
pub fn pages(text: &str) -> Vec<Page> {
    blocks(text, "page").iter().map(|lines| page(lines)).collect()
}

/// The page in the lines of a block.
///
/// # Panics
/// Where they are none.
pub fn page(lines: &[&str]) -> Page {
    let rows: Vec<Constraint> = lines.iter().map_while(|line| row(line)).collect();
    let steps = recording(lines[rows.len()]).into_iter().map(|(asked, _)| asked.step()).collect();
    let printed = lines[rows.len() + 1..].iter().map(|line| format!("{line:<72}\n")).collect();
    Page { rows, steps, printed }
}

/// The files of the contract: a table, a recording, and the report on them.
pub fn files(text: &str) -> Vec<(Vec<u8>, Vec<u8>, String)> {
    blocks(text, "file").iter().map(|lines| file(lines)).collect()
}

/// The file in the lines of a block. Its bytes may take several lines, all but the first of which are indented.
///
/// # Panics
/// Where they are none.
pub fn file(lines: &[&str]) -> (Vec<u8>, Vec<u8>, String) {
    let long = |from: usize| lines[from + 1..].iter().take_while(|line| line.starts_with(' ')).count() + 1;
    let (table, rest) = lines.split_at(long(0));
    let (recording, report) = rest.split_at(long(table.len()));
    let report = report.iter().map(|line| format!("{line}\n")).collect();
    (bytes(&table.concat(), "table"), bytes(&recording.concat(), "recording"), report)
}

/// "table 01 0003": the bytes in hexadecimal after a name.
fn bytes(line: &str, name: &str) -> Vec<u8> {
    let digits: String = line.strip_prefix(name).expect("a file's name").split_whitespace().collect();
    let byte = |place: usize| u8::from_str_radix(&digits[place..place + 2], 16).expect("a byte in hexadecimal");
    (0..digits.len()).step_by(2).map(byte).collect()
}
