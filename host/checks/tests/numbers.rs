//! The numbers of the header, of the Rust crate and of the model are those of the proved crates.

use checks::sources::{Header, constant, definition, definitions, number, number_between, text};
use checks::words;
use std::collections::{BTreeMap, BTreeSet};

const CONSTRAINT: &str = "crates/constraint/src/lib.rt";
const LIMITS: &str = "crates/constraint/specs/Limits.antt";
const LENT: &str = "crates/delkuthi/src/ffi.rt";
const LENT_DEFINED: &str = "crates/delkuthi/specs/Lent.antt";
const PROGRAM_DEFINED: &str = "crates/delkuthi/specs/Program.antt";

/// Numbers by their names.
fn by_name<const N: usize>(numbers: [(&str, u64); N]) -> BTreeMap<String, u64> {
    numbers.into_iter().map(|(name, number)| (name.to_string(), number)).collect()
}

/// What each `#define` of the header stands for, by the code of the crates.
fn by_code() -> BTreeMap<String, u64> {
    by_name([
        ("VERSION", constant(LENT, "VERSION")),
        ("LAST_TIME", constant(CONSTRAINT, "LAST_TIME")),
        ("LAST_COUNT", constant(CONSTRAINT, "LAST_COUNT")),
        ("LAST_KIND", constant(CONSTRAINT, "LAST_KIND")),
        ("FIRST_COLOURED", constant(CONSTRAINT, "FIRST_COLOURED")),
        ("LAST_COLOUR", constant(CONSTRAINT, "LAST_COLOUR")),
        ("ROW_LIMIT", constant(CONSTRAINT, "ROW_LIMIT")),
        ("WAITING_LIMIT", constant(CONSTRAINT, "WAITING_LIMIT")),
        ("NO_LIMIT", constant(CONSTRAINT, "NO_LIMIT")),
        ("NO_STREAM", constant("crates/queries/src/lib.rt", "NO_STREAM")),
        ("OPEN", constant(LENT, "OPEN")),
        ("KEPT", constant(LENT, "KEPT")),
        ("BROKEN", constant(LENT, "BROKEN")),
    ])
}

/// The same by their definitions; the crates' code has no constant for some.
/// The number of a cause in its definition.
fn cause(name: &str) -> u64 {
    let text = text("crates/row/specs/Cause.antt");
    let (_, from) = text.split_once(&format!("  {name} :")).expect("a cause");
    let (_, number) = from.split_once("→ Cause c steps n ").expect("its number");
    number.split(' ').next().and_then(|word| word.parse().ok()).expect("a number")
}

fn by_definitions() -> BTreeMap<String, u64> {
    by_name([
        ("VERSION", definition(LENT_DEFINED, "version")),
        ("LAST_TIME", definition(LIMITS, "last_time")),
        ("LAST_COUNT", definition(LIMITS, "last_count")),
        ("LAST_KIND", definition(LIMITS, "last_kind")),
        ("FIRST_COLOURED", definition(LIMITS, "first_coloured")),
        ("LAST_COLOUR", definition(LIMITS, "last_colour")),
        ("ROW_LIMIT", definition(LIMITS, "row_limit")),
        ("WAITING_LIMIT", definition(LIMITS, "waiting_limit")),
        ("NO_LIMIT", definition(LIMITS, "no_limit")),
        ("NO_STREAM", definition("crates/queries/specs/Oldest.antt", "no_stream")),
        ("NEWEST_EDITION", last_types().len() as u64),
        ("FIRST_EDITION_TYPES", last_types()[0]),
        ("TABLE_LIMIT", table_limit()),
        ("LONGEST_ROW", longest_row()),
        // the first forms, unless the host asks for the second ones
        ("EDITION", 1),
        ("OPEN", definition(LENT_DEFINED, "word_of (some Verdict.Open)")),
        ("KEPT", definition(LENT_DEFINED, "word_of (some Verdict.Kept)")),
        ("BROKEN", definition(LENT_DEFINED, "word_of (some (Verdict.Broken n))")),
        ("OVERDUE", cause("overdue")),
        ("BY_EVENT", cause("by_event")),
        ("AT_CLOSE", cause("at_close")),
        ("TAKEN", definition("crates/in_place/specs/Steps.antt", "answer_to h Call.Close")),
        ("REPORT_LIMIT", definition("crates/text/proofs/Reports.antt", "report_limit")),
        ("PAGE_LIMIT", page_limit()),
        ("UNSURE", stamps_word("Unsure")),
    ])
}

/// The number of a word for late stamps: its answer is 256 times that.
fn stamps_word(word: &str) -> u64 {
    definition("crates/delkuthi/specs/Stamps.antt", &format!("verdict_number StampedVerdict.{word}")) / 256
}

/// A list of numbers in the definition of the types.
fn list_of_types(name: &str) -> Vec<u64> {
    let types = text("crates/constraint/specs/Types.antt");
    let start = format!("{name} = ");
    let list = types.lines().find_map(|line| line.strip_prefix(&start)).unwrap_or_else(|| panic!("no list {name}"));
    list.split(" ∷ ").filter_map(|one| one.parse().ok()).collect()
}

/// The bytes of the longest row, by the lists of lengths, of entries and of their numbers.
fn longest_row() -> u64 {
    let entries = list_of_types("entry_sizes").into_iter().zip(list_of_types("most_counts")).map(|(size, n)| size * n);
    list_of_types("lengths").into_iter().zip(entries).map(|(length, entries)| length + entries).max().expect("a length")
}

/// The last type of each edition of the table, from the first on.
fn last_types() -> Vec<u64> {
    list_of_types("last_types")[1..].to_vec()
}

/// The bytes of the longest table: the version byte, then rows with their length fields.
fn table_limit() -> u64 {
    1 + definition(LIMITS, "row_limit") * (2 + longest_row())
}

/// The bytes of the longest page: a line for each row, and one for each group of them.
fn page_limit() -> u64 {
    const PAGE: &str = "crates/constraint/specs/Page.antt";
    let rows = definition(LIMITS, "row_limit");
    (definition(PAGE, "page_width") + 1) * (rows + rows.div_ceil(definition(PAGE, "page_group")))
}

/// The refusals of the header, by the questions that give them.
fn refusals() -> BTreeMap<String, u64> {
    let all = definitions();
    let question = |asked: &str| number_between(&all, "(", &format!(", {asked}"));
    by_name([
        ("TABLE_VERSION", number_between(&all, "(table_refused ", " 0)")),
        ("ROW_CUT", question("WholeAt ")),
        ("ROW_TOO_MANY", question("i < row_limit)")),
        ("ROW_SHAPE", question("ShapeFits ")),
        ("ROW_KINDS", question("KindsFit ")),
        ("ROW_SORT", question("KindsSuit ")),
        ("ROW_RANGE", question("InRange ")),
        ("ROW_BOUNDS", question("LowerFirst ")),
        ("CLOSED", question("closed steps ")),
        ("COUNT_FULL", question("length steps < last_count)")),
        ("NOTHING_TO_WITHDRAW", question("left.may ")),
        ("OTHER_STEP", question("length left.steps ≡ step)")),
        ("KIND", question("k ≤ last_kind)")),
        ("FORM", question("k < first_coloured)")),
        ("TIME_RANGE", question("t ≤ last_time)")),
        ("TIME_ORDER", question("EventInOrder ")),
        ("CROWDED", question("Room ")),
        ("RECORDING_VERSION", number_between(&all, "(recording_refused ", " 0)")),
        ("RECORD", question("RecordAt ")),
        ("NO_ROW", number_between(&all, "(RowVerdict.Refused ", ")")),
        ("TABLE_ROOM", question("length (table_bytes")),
        ("COMMON_KIND", number_between(&all, "(JoinAnswer.SecondRefused ", " place)")),
        ("TOO_MANY_RECORDS", question("length steps ≤ record_limit)")),
        ("NO_STRETCH", question("(c : Constraint) × (get_elem? rows i ≡ some c) × Some ")),
        ("NOT_REPEAT", question("(k : ℕ) × ((lower : ℕ) × ")),
    ])
}

/// The refusal that no call of the header answers with.
fn refusal_of_program() -> u64 {
    number_between(&definitions(), "(refused_text ", " 0)")
}

/// Of two lists of numbers by name: those that both have are the same.
fn agree(one: &BTreeMap<String, u64>, other: &BTreeMap<String, u64>) {
    for (name, number) in one {
        assert!(other.get(name).is_none_or(|another| another == number), "{name}: {number} and {:?}", other.get(name));
    }
}

#[test]
fn every_number_of_the_header_is_the_crates() {
    let (header, code, defined) = (Header::read(), by_code(), by_definitions());
    agree(&code, &defined);
    agree(&header.defined, &code);
    agree(&header.defined, &defined);
    // How much of the stack a call uses is measured: the test of the stack compares it with these.
    let measured = [
        "REPORT_STACK",
        "REPORT_ON_STACK",
        "PAGE_STACK",
        "STAMPS_STACK",
        "JOIN_STACK",
        "STRETCH_STACK",
        "TABLE_STACK",
        "MONITOR_STACK",
        "STEP_STACK",
        "TAKE_STACK",
    ]
    .map(String::from);
    let known: BTreeSet<String> = defined.keys().cloned().chain(measured).collect();
    assert_eq!(header.defined.into_keys().collect::<BTreeSet<String>>(), known);
}

#[test]
fn every_limit_of_the_manual_is_the_headers() {
    let header = Header::read();
    assert_eq!(header.limits.len(), 19, "{:?}", header.limits);
    for (name, limit) in &header.limits {
        assert_eq!(header.defined.get(name), Some(limit), "{name}");
    }
}

#[test]
fn every_refusal_of_the_header_is_a_question_of_the_definitions() {
    let header = Header::read();
    assert_eq!(header.refusals, refusals());
    assert_eq!(header.refusals["NO_ROW"], constant(LENT, "NO_ROW"));
    assert_eq!(header.refusals["NO_ROW"], definition(LENT_DEFINED, "word_of none"));
    // No verdict has the number of a refusal, and no two refusals the same.
    let words = ["OPEN", "KEPT", "BROKEN"].map(|name| header.defined[name]);
    assert!(words.iter().all(|word| *word != header.refusals["NO_ROW"]));
    assert_eq!(header.refusals.values().collect::<BTreeSet<_>>().len(), header.refusals.len());
}

#[test]
fn the_refusals_of_the_crate_and_of_the_list_are_all_there() {
    let all: BTreeSet<u64> = refusals().into_values().chain([refusal_of_program()]).collect();
    let of_crate = text("host/delkuthi/src/refusal.rs");
    let texts = of_crate
        .lines()
        .filter_map(|line| line.trim().split_once(" => \"")?.0.parse().ok())
        .filter(|number| *number != 0);
    assert_eq!(texts.collect::<BTreeSet<u64>>(), all);
    let calls = text("docs/CALLS.md");
    let list = calls.split("\n## ").find(|part| part.starts_with("The refusals")).expect("the refusals");
    let rows = list.lines().filter_map(|line| line.strip_prefix("| ")?.split_once(" |")?.0.parse().ok());
    assert_eq!(rows.collect::<BTreeSet<u64>>(), all);
    let no_row = number_between(&of_crate, "const NO_ROW: Refusal = Refusal { number: ", ",");
    assert_eq!(no_row, refusals()["NO_ROW"]);
}

#[test]
fn the_rust_crates_numbers_are_the_headers() {
    let header = Header::read();
    let word = |name| constant("host/delkuthi/src/monitor.rs", name);
    let of_crate = by_name([
        ("VERSION", delkuthi::VERSION.into()),
        ("LAST_TIME", delkuthi::LAST_TIME),
        ("LAST_COUNT", delkuthi::LAST_COUNT),
        ("LAST_KIND", delkuthi::LAST_KIND.into()),
        ("FIRST_COLOURED", delkuthi::FIRST_COLOURED.into()),
        ("LAST_COLOUR", delkuthi::LAST_COLOUR.into()),
        ("ROW_LIMIT", delkuthi::ROW_LIMIT as u64),
        ("WAITING_LIMIT", delkuthi::WAITING_LIMIT as u64),
        ("REPORT_LIMIT", delkuthi::REPORT_LIMIT as u64),
        ("PAGE_LIMIT", delkuthi::PAGE_LIMIT as u64),
        ("TABLE_LIMIT", delkuthi::TABLE_LIMIT as u64),
        ("NEWEST_EDITION", delkuthi::NEWEST_EDITION.into()),
        ("NO_LIMIT", delkuthi::NO_LIMIT),
        ("OPEN", word("OPEN")),
        ("KEPT", word("KEPT")),
        ("BROKEN", word("BROKEN")),
    ]);
    for (name, number) in of_crate {
        assert_eq!(header.defined.get(&name), Some(&number), "{name}");
    }
}

#[test]
fn the_models_numbers_are_the_crates() {
    use model::limits::{
        FIRST_COLOURED, LAST_COLOUR, LAST_COUNT, LAST_KIND, LAST_TIME, NO_LIMIT, REPETITION_SPAN_LIMIT, ROW_LIMIT,
    };
    use model::limits::{SPAN_LIMIT, STREAMS, WAITING_LIMIT};
    use model::report::{RECORDING_SIZE_LIMIT, TABLE_SIZE_LIMIT};
    const PROGRAM: &str = "crates/delkuthi/src/lib.rt";
    let limits = [
        (LAST_KIND.into(), CONSTRAINT, "LAST_KIND", "last_kind"),
        (FIRST_COLOURED.into(), CONSTRAINT, "FIRST_COLOURED", "first_coloured"),
        (LAST_COLOUR.into(), CONSTRAINT, "LAST_COLOUR", "last_colour"),
        (STREAMS.into(), CONSTRAINT, "STREAM_COUNT", "stream_count"),
        (LAST_TIME, CONSTRAINT, "LAST_TIME", "last_time"),
        (LAST_COUNT, CONSTRAINT, "LAST_COUNT", "last_count"),
        (NO_LIMIT, CONSTRAINT, "NO_LIMIT", "no_limit"),
        (ROW_LIMIT as u64, CONSTRAINT, "ROW_LIMIT", "row_limit"),
        (SPAN_LIMIT.into(), CONSTRAINT, "SPAN_LIMIT", "span_limit"),
        (REPETITION_SPAN_LIMIT.into(), CONSTRAINT, "REPETITION_SPAN_LIMIT", "repetition_span_limit"),
        (WAITING_LIMIT as u64, CONSTRAINT, "WAITING_LIMIT", "waiting_limit"),
    ];
    for (number, file, in_code, defined) in limits {
        assert_eq!((number, number), (constant(file, in_code), definition(LIMITS, defined)), "{defined}");
    }
    let sizes = [
        (TABLE_SIZE_LIMIT as u64, "TABLE_SIZE_LIMIT", "table_size_limit"),
        (RECORDING_SIZE_LIMIT as u64, "RECORDING_SIZE_LIMIT", "recording_size_limit"),
    ];
    for (number, in_code, defined) in sizes {
        assert_eq!((number, number), (constant(PROGRAM, in_code), definition(PROGRAM_DEFINED, defined)), "{defined}");
    }
}

#[test]
fn the_size_of_a_monitor_is_the_same_everywhere() {
    let size = size_of::<delkuthi::Monitor>() as u64;
    assert_eq!(size, constant(LENT, "MONITOR_SIZE"));
    assert_eq!(size, definition(LENT_DEFINED, "monitor_size"));
    assert_eq!(size, 8 * constant("host/delkuthi/src/monitor.rs", "WORDS"));
    let header = Header::read();
    assert_eq!(size, 8 * number_between(&header.text, "uint64_t words[", "]"));
    let written = format!("{},{:03} bytes", size / 1000, size % 1000);
    let documents = ["README.md", "docs/CALLS.md", "docs/DATASHEET.md", "docs/ARCHITECTURE.md"];
    for (name, file) in documents.map(|name| (name, text(name))).into_iter().chain([("header", header.text)]) {
        assert!(file.contains(&written), "the {name} says {written}");
    }
    assert!(text("host/delkuthi/src/monitor.rs").contains(&written));
}

/// The data sheet has each limit on the stack as the header defines it.
#[test]
fn the_limits_on_the_stack_are_the_headers() {
    let header = Header::read();
    let sheet = text("docs/DATASHEET.md");
    let limits: Vec<_> = header.defined.iter().filter(|(name, _)| name.ends_with("_STACK")).collect();
    assert!(limits.len() >= 9, "{limits:?}");
    for (name, bytes) in limits {
        let said = sheet.split(&format!("`DELKUTHI_{name}` ")).nth(1).unwrap_or_default();
        let said = said.trim_start_matches("(fresh) ").split(' ').next().unwrap_or_default();
        assert_eq!(said, (bytes / 1024).to_string(), "{name}");
    }
}

/// The words that the tests know by their places stand where the code has them.
#[test]
fn the_places_of_words_are_the_crates() {
    let of_lent = |name| constant("crates/in_place/src/lib.rt", name) as usize;
    let beside = |name| 128 * of_lent("NUMBERS") + of_lent(name);
    assert_eq!([words::ROWS, words::SOONEST, words::FULL], ["ROWS", "SOONEST", "FULL"].map(beside));
    assert_eq!(words::LAST_STEP, beside("UNDO_ALLOWED")..beside("UNDO_CLOSED") + 1);
    let of_row = |name| 128 + 64 + constant("crates/row_type/src/row_words.rt", name) as usize;
    assert_eq!(words::past(1), of_row("UNDO_LAST")..of_row("UNDO_STEP") + 1);
}

/// A row for the writer has as many bytes in the header, in the Rust crate and in the definitions, and so has the longest row.
#[test]
fn the_size_of_a_row_is_the_same_everywhere() {
    assert_eq!(longest_row(), constant("host/delkuthi/src/table.rs", "LONGEST_ROW"));
    let size = model::limits::SHORT_ROW as u64;
    assert_eq!(size, number_between(&Header::read().text, "uint8_t body[", "]"));
    assert_eq!(size, constant("host/delkuthi/src/table.rs", "ROW_SIZE"));
    assert_eq!(size, number_between(&text("crates/table/specs/Raw.antt"), "\nraw_size = ", "\n"));
    assert_eq!(size, constant("crates/table/src/raw.rt", "RAW_SIZE"));
}

#[test]
fn expressions_of_numbers() {
    let expected = [("63", 63), ("2 ^ 56 - 1", (1 << 56) - 1), ("UINT64_C(1024)", 1024), ("1,024", 1024)];
    for (expression, value) in expected {
        assert_eq!(number(expression), value, "{expression}");
    }
    assert_eq!(number("0 * 1000000 + 3 * 1000 + 0"), 3000);
    assert_eq!(number("2^64 - 1"), u64::MAX);
}
