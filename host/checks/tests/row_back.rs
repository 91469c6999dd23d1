//! Rows read back from a table and from a monitor, beside the model. Clauses: §9.13, §9.14, §11.5.

use checks::beside::{fresh, take_all};
use checks::refusals::refusal;
use delkuthi::{LONGEST_ROW, TABLE_LIMIT, add_row, table_row};
use model::random::Random;
use model::random::seen::Seen;
use model::random::tables::{any_table_in, damaged_table, table};
use model::{Step, row_back, table_bytes};

/// What a call gives in a buffer of this size, whose other bytes have to stay.
fn given(
    room: usize,
    call: impl FnOnce(&mut [u8]) -> Result<usize, model::Refusal>,
) -> Result<Vec<u8>, model::Refusal> {
    let mut buffer = vec![7; room];
    let answer = call(&mut buffer);
    let length = answer.clone().unwrap_or(0);
    assert!(buffer[length..].iter().all(|byte| *byte == 7));
    answer.map(|length| buffer[..length].to_vec())
}

#[test]
fn rows_of_tables_are_read_back() {
    let mut random = Random::new(913);
    let mut seen = Seen::default();
    for _ in 0..4_000 {
        let table =
            if random.chance(80) { table_bytes(&any_table_in(2, &mut random)) } else { damaged_table(&mut random) };
        let row = random.below(34);
        let room = if random.chance(70) { LONGEST_ROW } else { random.place(LONGEST_ROW + 1) };
        let expected = model::table_row(&table, row, room);
        let answer = given(room, |body| table_row(&table, row as usize, body).map_err(refusal));
        assert_eq!(answer, expected, "row {row} of {table:?}");
        match answer {
            Err(refused) => seen.refusal(refused.number),
            Ok(body) => {
                let mut again = [0; TABLE_LIMIT];
                again[0] = 1;
                let length = add_row(&mut again, 1, &body).expect("a row that was read");
                assert_eq!(given(LONGEST_ROW, |same| table_row(&again[..length], 0, same).map_err(refusal)), Ok(body));
            }
        }
    }
    seen.demand_refusals([1, 4, 5, 6, 7, 15, 16, 18]);
}

#[test]
fn rows_of_monitors_are_those_of_their_table() {
    let mut random = Random::new(914);
    for _ in 0..1_500 {
        let number = random.place(33);
        let rows = table(&mut random, number);
        let mut monitor = fresh(&rows);
        let mut time = 0;
        for _ in 0..random.below(80) {
            time += random.below(12);
            let kind = random.below(64) as u8;
            let step = if kind < 48 {
                Step::Event { kind, time }
            } else {
                Step::Coloured { kind, colour: random.below(8) as u8, time }
            };
            let _ = take_all(&mut monitor, &[step]);
            if random.chance(20) {
                let _ = monitor.withdraw();
            }
        }
        if random.chance(30) {
            let _ = monitor.close();
        }
        for row in 0..rows.len() as u64 + 2 {
            let room = if random.chance(80) { LONGEST_ROW } else { random.place(LONGEST_ROW + 1) };
            let answer = given(room, |body| monitor.row(row as usize, body).map_err(refusal));
            assert_eq!(answer.map_err(|refused| refused.number), row_back(&rows, row, room), "row {row} of {rows:?}");
        }
    }
}
