//! The qualification kit: vectors with the answers of the model, which was written from the contract's words, for a library on any
//! machine. `runner.c` plays them there. The library takes no part in making them.

pub mod bytes;
pub mod chosen;
pub mod clauses;
pub mod contract;
pub mod random;
pub mod vector;

use bytes::{put_number, sum};
use clauses::{Rule, rule};
use model::contract::{clauses as clauses_of, text};
use std::fmt::Write;
use vector::Vector;

/// All vectors, the same at every time and place: those of the contract, the chosen ones and the random ones.
pub fn vectors() -> Vec<Vector> {
    let mut made = contract::vectors(&text());
    made.extend(chosen::vectors());
    made.extend(random::vectors());
    made
}

/// The vectors as bytes: for each the length of what follows, the number of items, and the items.
pub fn packed(vectors: &[Vector]) -> Vec<u8> {
    let mut bytes = Vec::new();
    for vector in vectors {
        let mut body = Vec::new();
        put_number(&mut body, vector.items);
        body.extend_from_slice(&vector.bytes);
        put_number(&mut bytes, body.len() as u64);
        bytes.extend(body);
    }
    bytes
}

/// The bytes as a file of C, with a sum that finds a damaged copy.
pub fn c_file(vectors: &[Vector], version: &str) -> String {
    let bytes = packed(vectors);
    let mut text = format!(
        "/* Vectors of the qualification kit of Delkuthi {version}, made by the model. The file is generated. */\n\
         #include \"vectors.h\"\n\nconst uint32_t kit_count = {};\nconst uint32_t kit_length = {};\n\
         const uint64_t kit_sum = UINT64_C(0x{:016x});\nconst uint8_t kit_vectors[] = {{\n",
        vectors.len(),
        bytes.len(),
        sum(&bytes)
    );
    for line in bytes.chunks(32) {
        let numbers: Vec<String> = line.iter().map(u8::to_string).collect();
        writeln!(text, "{},", numbers.join(",")).expect("a string takes all");
    }
    text + "};\n"
}

/// The vectors that cover a clause, by their numbers from 1, or the reason why none can.
pub fn covering(vectors: &[Vector], clause: &str) -> Result<Vec<usize>, &'static str> {
    let example = format!("example {clause}");
    let facts = match rule(clause) {
        Some(Rule::Not(reason)) => return Err(reason),
        Some(Rule::Facts(facts)) => facts,
        None => Vec::new(),
    };
    let covers = |vector: &Vector| {
        vector.facts.contains(&example) || !facts.is_empty() && facts.iter().all(|fact| vector.facts.contains(*fact))
    };
    Ok((1..).zip(vectors).filter(|(_, vector)| covers(vector)).map(|(number, _)| number).collect())
}

/// The table that says which vectors cover which clause.
pub fn coverage(vectors: &[Vector], version: &str) -> String {
    let mut table = format!(
        "# What the vectors of Delkuthi {version} cover\n\n{} vectors. A clause is covered by the vectors of its examples in the \
         contract, or by those that show what it is about. The first three are named.\n\n| clause | vectors | the first |\n|---|---|---|\n",
        vectors.len()
    );
    for clause in clauses_of(&text()) {
        let number = &clause.number;
        match covering(vectors, number) {
            Ok(found) => {
                let first: Vec<String> = found.iter().take(3).map(usize::to_string).collect();
                writeln!(table, "| §{number} | {} | {} |", found.len(), first.join(", "))
            }
            Err(reason) => writeln!(table, "| §{number} | none | {reason} |"),
        }
        .expect("a string takes all");
    }
    table + &sources(vectors)
}

/// Where the vectors come from, by their numbers.
fn sources(vectors: &[Vector]) -> String {
    let mut table = "\n| vectors | from |\n|---|---|\n".to_string();
    let mut first = 1;
    for run in vectors.chunk_by(|one, next| one.source == next.source) {
        let last = first + run.len() - 1;
        let numbers = if run.len() == 1 { first.to_string() } else { format!("{first} to {last}") };
        writeln!(table, "| {numbers} | {} |", run[0].source.replace(", ", ": ")).expect("a string takes all");
        first = last + 1;
    }
    table
}
