//! The contract in words, `docs/CONTRACT.md`: every example in it is what library and model do.

use checks::beside::{fresh, put, take, take_all, verdict};
use checks::contract::{
    Asked, Example, WRITES_ROOM, blocks, clauses, example, examples, files, pages, rows_back, takes, text, writes,
};
use checks::pages::page_in;
use checks::refusals::refusal;
use checks::reports::report_in;
use delkuthi::Recording;
use model::recording::put_record;
use model::types::delay;
use model::{Constraint, Step, page_text, report_text};
use std::collections::HashSet;

/// What the rows read, as the contract writes it.
fn read(verdicts: impl Iterator<Item = model::Verdict>) -> String {
    verdicts.map(|verdict| verdict.to_string()).collect::<Vec<String>>().join("/")
}

/// Every recording of an example, by library and model; each says what the contract says, where it says something.
fn play(Example { rows, recordings }: &Example) -> usize {
    let mut said = 0;
    for recording in recordings {
        let mut model = model::Monitor::fresh(rows).expect("an accepted table");
        let mut library = fresh(rows);
        for (step, expected) in recording {
            let (answer, given) = match *step {
                Asked::Step(step) => (model.step(step), take(&mut library, step)),
                Asked::Withdraw => (model.withdraw(), library.withdraw().map_err(|refusal| refusal.number())),
                Asked::WithdrawStep(step) => {
                    (model.withdraw_step(step), library.withdraw_step(step).map_err(|refusal| refusal.number()))
                }
            };
            assert_eq!(given, answer, "{rows:?}: {step:?}");
            let modelled = read(model.verdicts().into_iter());
            let proved = read((0..rows.len()).map(|row| verdict(&library, row).expect("a row")));
            assert_eq!(proved, modelled, "{rows:?}: {step:?}");
            let told = answer.map_or_else(|number| format!("refused {number}"), |()| proved);
            assert_eq!(expected.as_ref().unwrap_or(&told), &told, "{rows:?}: {step:?}");
            assert!(
                answer.is_ok() || expected.is_some(),
                "a refusal that the contract does not show: {rows:?}: {step:?}"
            );
            said += usize::from(expected.is_some());
        }
    }
    said
}

#[test]
fn the_examples_are_so() {
    let examples = examples(&text());
    let said: usize = examples.iter().map(play).sum();
    assert!(examples.len() >= 40 && said >= 80, "{} examples with {said} verdicts", examples.len());
    let types: HashSet<u8> = examples.iter().flat_map(|example| &example.rows).map(Constraint::type_byte).collect();
    assert_eq!(types, HashSet::from(model::TYPES));
}

#[test]
fn the_files_are_so() {
    let files = files(&text());
    assert!(files.len() >= 4);
    for (table, recording, report) in files {
        assert_eq!(report_text(&table, &recording), report);
        let written = report_in(&table, &recording, delkuthi::REPORT_LIMIT).expect("a report");
        assert_eq!(String::from_utf8(written).expect("ASCII"), report);
    }
}

#[test]
fn the_takes_are_so() {
    let text = text();
    let lines: Vec<&str> = blocks(&text, "take").into_iter().flatten().collect();
    assert!(lines.len() >= 4);
    for line in lines {
        let takes = takes(line);
        let mut model = model::Monitor::fresh(&[delay(2, 3)]).expect("an accepted table");
        let mut library = fresh(&[delay(2, 3)]);
        for (recording, expected) in takes.recordings {
            let answer = model.take(&recording).err();
            assert_eq!(
                answer.map_or(0, |refusal| 256 * refusal.place as u64 + u64::from(refusal.number)),
                expected,
                "{line}"
            );
            assert_eq!(library.take(&recording).err().map(refusal), answer, "{line}");
        }
        assert_eq!(read(model.verdicts().into_iter()), takes.reads, "{line}");
        assert_eq!(verdict(&library, 0).map(|verdict| verdict.to_string()), Ok(takes.reads), "{line}");
    }
}

#[test]
fn the_causes_are_so() {
    let text = text();
    let examples: Vec<Example> = blocks(&text, "cause").iter().map(|lines| example(lines)).collect();
    assert!(examples.len() >= 3);
    for Example { rows, recordings } in examples {
        for recording in recordings {
            let (mut model, mut library) = (model::Monitor::fresh(&rows).expect("an accepted table"), fresh(&rows));
            let steps: Vec<Step> = recording.iter().map(|(asked, _)| asked.step()).collect();
            steps.iter().for_each(|step| model.step(*step).expect("a step that is taken"));
            assert!(take_all(&mut library, &steps).iter().all(Result::is_ok));
            let said = recording.last().and_then(|(_, said)| said.clone());
            assert_eq!(model.row_cause(0).map(|cause| cause.to_string()), said, "{rows:?}: {steps:?}");
            assert_eq!(library.cause(0).map(|cause| cause.to_string()), said, "{rows:?}: {steps:?}");
        }
    }
}

#[test]
fn the_oldest_are_so() {
    let text = text();
    let examples: Vec<Example> = blocks(&text, "oldest").iter().map(|lines| example(lines)).collect();
    assert!(examples.len() >= 4);
    let told = |oldest: Option<(u64, u8)>| match oldest {
        Some((time, stream)) => format!("time {time} stream {stream}"),
        None => "none".to_string(),
    };
    for Example { rows, recordings } in examples {
        for recording in recordings {
            let (mut model, mut library) = (model::Monitor::fresh(&rows).expect("an accepted table"), fresh(&rows));
            let steps: Vec<Step> = recording.iter().map(|(asked, _)| asked.step()).collect();
            steps.iter().for_each(|step| model.step(*step).expect("a step that is taken"));
            assert!(take_all(&mut library, &steps).iter().all(Result::is_ok));
            let said = recording.last().and_then(|(_, said)| said.clone());
            assert_eq!(Some(told(model.row_oldest(0))), said, "{rows:?}: {steps:?}");
            assert_eq!(Some(told(library.row_oldest(0))), said, "{rows:?}: {steps:?}");
        }
    }
}

#[test]
fn the_writes_are_so() {
    let text = text();
    let lines: Vec<&str> = blocks(&text, "write").into_iter().flatten().collect();
    assert!(lines.len() >= 8);
    for line in lines {
        let writes = writes(line);
        let (mut buffer, mut modelled, mut size) = ([0; WRITES_ROOM], [0; WRITES_ROOM], 0);
        let mut recording = Recording::new(&mut buffer);
        let mut last = Ok(());
        for step in &writes.steps {
            assert_eq!(last, Ok(()), "{line}");
            last = put(&mut recording, *step);
            let expected = put_record(&mut modelled, size, *step);
            size = expected.unwrap_or(size);
            assert_eq!(last, expected.map(|_| ()), "{line}");
        }
        assert_eq!(recording.bytes(), &modelled[..size], "{line}");
        assert_eq!(last.map(|()| recording.bytes().to_vec()), writes.written, "{line}");
    }
}

#[test]
fn the_rows_read_back_are_so() {
    let text = text();
    let lines: Vec<&str> = blocks(&text, "row").into_iter().flatten().collect();
    assert!(lines.len() >= 5);
    for line in lines {
        let back = rows_back(line);
        assert_eq!(model::table_row(&back.table, back.row, back.room), back.given, "{line}");
        let mut body = vec![7; back.room];
        let answer = delkuthi::table_row(&back.table, back.row as usize, &mut body).map_err(refusal);
        assert_eq!(answer, back.given.as_ref().map(Vec::len).map_err(Clone::clone), "{line}");
        let given = back.given.unwrap_or_default();
        assert!(body.starts_with(&given) && body[given.len()..].iter().all(|byte| *byte == 7), "{line}");
    }
}

#[test]
fn the_pages_are_so() {
    let pages = pages(&text());
    assert!(pages.len() >= 2);
    for page in pages {
        let mut model = model::Monitor::fresh(&page.rows).expect("an accepted table");
        page.steps.iter().for_each(|step| model.step(*step).expect("a step that is taken"));
        assert_eq!(page_text(&model), page.printed);
        let mut library = fresh(&page.rows);
        assert!(take_all(&mut library, &page.steps).iter().all(Result::is_ok));
        assert_eq!(page_in(&library, delkuthi::PAGE_LIMIT), Some(page.printed.into_bytes()));
    }
}

/// Each number stands once, and no section leaves one out: what is given up keeps its number.
#[test]
fn the_clauses_are_numbered_without_a_gap() {
    let clauses = clauses(&text());
    let numbers: HashSet<&str> = clauses.iter().map(|clause| clause.number.as_str()).collect();
    assert_eq!(numbers.len(), clauses.len(), "a clause's number stands twice");
    for number in &numbers {
        let (section, last) = number.rsplit_once('.').expect("a clause's number");
        let before: u32 = last.parse::<u32>().expect("a number") - 1;
        assert!(before == 0 || numbers.contains(format!("{section}.{before}").as_str()), "none before {number}");
    }
}
