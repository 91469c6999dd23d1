//! The recording's bytes, the report and what the program prints.

mod common;

use common::{delay, fresh, order, steps};
use model::examples::{RECORDING, REPORT, TABLE};
use model::recording::read_record;
use model::report::{RECORDING_SIZE_LIMIT, TABLE_SIZE_LIMIT};
use model::{
    LAST_TIME, Step, program_output, read_recording, recording_bytes, report, report_text, report_text_up_to,
    table_bytes,
};

#[test]
fn the_contracts_file() {
    assert_eq!(table_bytes(&[delay(2, 3)]), TABLE);
    assert_eq!(recording_bytes(&steps("0@10, tick 14")), RECORDING);
    assert_eq!(report_text(&TABLE, &RECORDING), REPORT);
    assert_eq!(program_output(&TABLE, &RECORDING), REPORT);
}

#[test]
fn buffers() {
    let mut buffer = [b'#'; 40];
    assert_eq!(report(&TABLE, &RECORDING, &mut buffer), 20);
    assert_eq!(&buffer[..22], b"closed 3\n0 broken 2\n##");
    let mut buffer = [b'#'; 20];
    assert_eq!((report(&TABLE, &RECORDING, &mut buffer[..19]), buffer), (0, [b'#'; 20]));
    assert_eq!(report(&TABLE, &RECORDING, &mut buffer), 20);
    assert_eq!((report(&[], &RECORDING, &mut buffer[..12]), report(&[], &RECORDING, &mut [])), (12, 0));
    assert_eq!(&buffer, b"refused 1 0\nroken 2\n");
}

#[test]
fn kept_rows_and_no_rows() {
    let recording = recording_bytes(&steps("0@10, 1@12, 0@20, 1@23"));
    assert_eq!(report_text(&table_bytes(&[delay(2, 3), order()]), &recording), "closed 5\n0 kept\n1 kept\n");
    assert_eq!(report_text(&[1], &[1]), "closed 1\n");
    let many = report_text(&table_bytes(&vec![order(); 32]), &recording_bytes(&steps("0@1")));
    assert!(many.starts_with("closed 2\n0 broken 2\n1 broken 2\n") && many.ends_with("\n31 broken 2\n"));
}

#[test]
fn refusals_with_their_places() {
    let text = |table: &[u8], recording: &[u8]| report_text(table, recording);
    assert_eq!((text(&[3], &[]), report_text_up_to(1, &[2], &[])), ("refused 1 0\n".into(), "refused 1 0\n".into()));
    assert_eq!(text(&[2], &[1]), "closed 1\n");
    assert_eq!(text(&TABLE[..21], &[]), "refused 2 1\n");
    assert_eq!(text(&table_bytes(&[order(), delay(3, 2)]), &[]), "refused 7 6\n");
    assert_eq!(text(&TABLE, &[]), "refused 13 0\n");
    assert_eq!(text(&TABLE, &[0, 0, 8]), "refused 13 0\n");
    assert_eq!(text(&TABLE, &RECORDING[..21]), "refused 14 12\n");
    assert_eq!(text(&TABLE, &RECORDING[..13]), "refused 14 12\n");
    assert_eq!(text(&TABLE, &[1, 0, 0]), "refused 14 1\n");
    assert_eq!(text(&TABLE, &[1, 0, 7, 0, 0, 0, 0, 0, 0, 0]), "refused 14 1\n");
    assert_eq!(text(&TABLE, &[1, 0, 10, 0, 0, 0, 0, 0, 0, 0, 0, 0, 0]), "refused 19 1\n");
    assert_eq!(text(&TABLE, &[1, 0, 11, 0, 0, 0, 0, 0, 0, 0, 0, 0, 0, 0]), "refused 14 1\n");
    let steps_text = |list: &str| text(&TABLE, &recording_bytes(&steps(list)));
    assert_eq!(steps_text("0@10, 64@11"), "refused 9 12\n");
    assert_eq!(steps_text("tick 10, 1@1152921504606846976"), "refused 10 11\n");
    assert_eq!(steps_text("tick 10, tick 10"), "refused 11 11\n");
    assert_eq!(steps_text("0@10, 0@10"), "refused 11 12\n");
}

#[test]
fn the_first_refusal_on_the_way_counts() {
    let table = table_bytes(&[delay(0, 1000)]);
    let crowd: Vec<Step> = (1..=65).map(|time| Step::Event { kind: 0, time }).collect();
    let mut recording = recording_bytes(&crowd);
    // the 65th source is refused before the half record behind it is looked at
    recording.extend([0, 9, 0]);
    assert_eq!(report_text(&table, &recording), "refused 12 705\n");
    let half = [&recording_bytes(&crowd[..64])[..], &[0, 9, 0]].concat();
    assert_eq!(report_text(&table, &half), "refused 14 705\n");
}

#[test]
fn records() {
    assert_eq!(read_record(1, &RECORDING[1..]), Ok((Step::Event { kind: 0, time: 10 }, 11)));
    assert_eq!(read_record(1, &RECORDING[12..]), Ok((Step::Tick { time: 14 }, 10)));
    assert_eq!((read_record(1, &[]), read_record(1, &[0]), read_record(1, &[0, 8, 0])), (Err(14), Err(14), Err(14)));
    let all = "0@0, 63/7@0, 48/0@0, 48/1@0, tick 5, 47@1152921504606846975";
    let monitor = read_recording(fresh(&[]), &recording_bytes(&steps(all))).expect("an accepted recording");
    assert_eq!((monitor.steps(), monitor.recorded().clock()), (&steps(all)[..], LAST_TIME));
}

#[test]
fn versions_and_colours() {
    let text = |bytes: &[u8]| report_text(&[1], bytes);
    let coloured = recording_bytes(&steps("48/1@10"));
    assert_eq!(coloured, [2, 0, 10, 48, 1, 0, 0, 0, 0, 0, 0, 0, 10]);
    assert_eq!(text(&coloured), "closed 2\n");
    // in version 1 there is no colour, and a kind above 63 is asked for first
    let with = |version: u8, kind: u8, colour: u8| [&[version, 0, 10, kind, colour], &[0; 8][..]].concat();
    assert_eq!(text(&with(1, 48, 1)), "refused 19 1\n");
    assert_eq!(text(&with(1, 64, 1)), "refused 9 1\n");
    assert_eq!(text(&with(2, 48, 8)), "refused 19 1\n");
    assert_eq!(text(&with(2, 47, 0)), "refused 19 1\n");
    assert_eq!(text(&with(3, 48, 1)), "refused 13 0\n");
    // an event of a coloured kind without a colour, in both versions, and version 2 without colours
    for version in [1, 2] {
        let plain = |kind: u8| [&[version, 0, 9, kind], &[0; 8][..]].concat();
        assert_eq!((text(&plain(48)), text(&plain(47))), ("refused 19 1\n".to_string(), "closed 2\n".to_string()));
    }
    assert_eq!(text(&[&[2, 0, 11], &[0; 11][..]].concat()), "refused 14 1\n");
    // times rise within a kind and a colour
    assert_eq!(text(&recording_bytes(&steps("48/1@10, 48/2@10, 49/1@10"))), "closed 4\n");
    assert_eq!(text(&recording_bytes(&steps("48/1@10, 48/1@10"))), "refused 11 13\n");
}

#[test]
fn files_that_are_too_large() {
    let refused = "refused 17 0\n";
    let table = vec![0; TABLE_SIZE_LIMIT];
    let recording = vec![0; RECORDING_SIZE_LIMIT];
    assert_eq!(program_output(&table, &recording), "refused 1 0\n");
    assert_eq!(program_output(&[&table[..], &[0]].concat(), &recording), refused);
    assert_eq!(program_output(&table, &[&recording[..], &[0]].concat()), refused);
    assert_eq!(program_output(&TABLE, &recording), "refused 13 0\n");
    assert_eq!(program_output(&[], &[]), "refused 1 0\n");
}
