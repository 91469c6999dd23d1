//! The printed page through the exported function, beside the model's, byte by byte.
//! Clauses: §7.14 to §7.19.

use checks::beside::{fresh, take, take_all};
use checks::pages::{compare, lines, page_in, read_back};
use checks::places::example_bytes;
use delkuthi::{Monitor, PAGE_LIMIT, WORDS};
use model::random::Random;
use model::random::calls::{Play, calls};
use model::random::tables::{any_table, table};
use model::{page_text, read_recording, read_table};

/// Monitors closed or not: the page after each call of a list.
#[test]
fn thousands_of_pages() {
    let mut random = Random::new(501);
    for _ in 0..600 {
        let rows = any_table(&mut random);
        let mut monitor = fresh(&rows);
        let number = 1 + random.place(60);
        let mut play = Play::new(random.fork(), &rows, number);
        compare(&monitor, play.monitor());
        while let Some((call, answer)) = play.call() {
            assert_eq!(take(&mut monitor, call), answer);
            compare(&monitor, play.monitor());
        }
    }
}

#[test]
fn the_drive() {
    let rows = read_table(&example_bytes("table.bin")).expect("an accepted table");
    let model = model::Monitor::fresh(&rows).expect("an accepted table");
    let model = read_recording(model, &example_bytes("recording.bin")).expect("records that are all taken");
    let mut monitor = fresh(&rows);
    take_all(&mut monitor, model.steps());
    compare(&monitor, &model);
    monitor.close().expect("a recording not yet closed");
    assert_eq!(page_in(&monitor, PAGE_LIMIT), Some(example_bytes("page.txt")));
}

/// Buffers of every length, to some bytes more than the page has; and the monitor is only read.
#[test]
fn buffers_of_every_length() {
    let mut random = Random::new(502);
    for number in [0, 1, 2, 15, 16, 17, 31, 32] {
        let rows = table(&mut random, number);
        let list = calls(&mut random, &rows, 30);
        let mut model = model::Monitor::fresh(&rows).expect("an accepted table");
        let mut monitor = fresh(&rows);
        for call in list {
            assert_eq!(take(&mut monitor, call), model.step(call));
        }
        let (before, expected) = (monitor.clone(), page_text(&model).into_bytes());
        assert_eq!(expected.len(), 73 * (number + number.div_ceil(16).max(1)));
        for length in 0..expected.len() + 40 {
            let written = (length >= expected.len()).then_some(&expected);
            assert_eq!(page_in(&monitor, length).as_ref(), written, "a buffer of {length} bytes");
        }
        assert!(monitor == before, "a page changed the monitor");
    }
}

/// What is read off the columns of a page is what the calls for a row answer.
#[test]
fn verdicts_are_read_back() {
    let mut random = Random::new(503);
    for _ in 0..500 {
        let rows = any_table(&mut random);
        let mut monitor = fresh(&rows);
        let list = calls(&mut random, &rows, 50);
        take_all(&mut monitor, &list[..random.place(list.len() + 1)]);
        let page = page_in(&monitor, PAGE_LIMIT).expect("a page");
        for (row, constraint) in rows.iter().enumerate() {
            let (number, name, verdict) = read_back(&page, row);
            assert_eq!((number, Ok(verdict)), (row, monitor.verdict(row)));
            assert!(format!("{constraint:?}").starts_with(&name), "{name}: {constraint:?}");
        }
    }
}

/// Whatever a monitor's memory holds: no more than 32 rows, and each line has its width, with the longest steps too.
#[test]
fn every_line_has_its_width_on_any_memory() {
    let mut random = Random::new(504);
    for turn in 0..2_000 {
        let words = match turn % 4 {
            0 => [u64::MAX; WORDS],
            1 => std::array::from_fn(|_| random.number()),
            2 => std::array::from_fn(|_| random.number() >> random.below(64)),
            _ => std::array::from_fn(|_| *random.pick(&[0, 1, 7, 32, 33, u64::MAX])),
        };
        let page = page_in(&Monitor::from_words(words), PAGE_LIMIT).expect("a page of at most 32 rows");
        let lines = lines(&page);
        assert!(
            lines.len() <= 34
                && lines.iter().all(|line| line.len() == 72 && line.iter().all(|b| (32..127).contains(b)))
        );
    }
}
