//! Rows of any length added to a table in a buffer, beside the model's reader. Clauses: §9.12, §11.5.

use checks::refusals::refusal;
use delkuthi::{TABLE_LIMIT, add_row};
use model::Refusal;
use model::random::Random;
use model::random::seen::Seen;
use model::random::tables::any_table_in;
use model::{read_table_up_to, table_bytes_in};

/// What the contract says: the table is read, then the row behind it in edition 2, and then the room is asked for.
fn expected(buffer: &[u8], length: usize, body: &[u8]) -> Result<Vec<u8>, Refusal> {
    let table = &buffer[..length.min(buffer.len())];
    read_table_up_to(2, table)?;
    let mut with_row = [&[2], &table[1..], &(body.len() as u16).to_be_bytes(), body].concat();
    read_table_up_to(2, &with_row)?;
    with_row[0] = if body[0] <= 10 { table[0] } else { 2 };
    if buffer.len() < with_row.len() {
        return Err(Refusal { number: 16, place: table.len() });
    }
    Ok(with_row)
}

/// The body of a row of a table in edition 2: often one that is accepted, sometimes one that is cut or changed.
fn body(random: &mut Random) -> Vec<u8> {
    let rows = any_table_in(2, random);
    let bytes = table_bytes_in(2, &rows[..rows.len().min(1)]);
    let mut body = bytes.get(3..).unwrap_or(&[]).to_vec();
    if random.chance(25) && !body.is_empty() {
        let place = random.place(body.len());
        body[place] = random.below(256) as u8;
    }
    if random.chance(12) {
        body.pop();
    }
    body
}

#[test]
fn rows_are_added_as_the_reader_takes_them() {
    let mut random = Random::new(912);
    let mut seen = Seen::default();
    for _ in 0..2_000 {
        let mut buffer = vec![7; random.below(TABLE_LIMIT as u64) as usize + 1];
        buffer[0] = *random.pick(&[1, 1, 2, 2, 2, 3]);
        let mut length = 1;
        for _ in 0..random.below(90) {
            let body = body(&mut random);
            let before = buffer.clone();
            let answer = expected(&buffer, length, &body);
            assert_eq!(add_row(&mut buffer, length, &body).map_err(refusal), answer.clone().map(|table| table.len()));
            match answer {
                Ok(table) => {
                    assert_eq!((&buffer[..table.len()], &buffer[table.len()..]), (&table[..], &before[table.len()..]));
                    length = table.len();
                }
                Err(refused) => {
                    assert_eq!(buffer, before);
                    seen.refusal(refused.number);
                }
            }
        }
    }
    seen.demand_refusals([1, 3, 4, 5, 6, 7, 16, 18]);
}
