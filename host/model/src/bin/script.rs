//! `script SEED NUMBER` prints random calls of every sort, for a host that plays them on any machine.

use model::random::script::script;

fn main() {
    let mut given = std::env::args().skip(1).map(|word| word.parse::<u64>().expect("a number"));
    let (seed, number) = (given.next().unwrap_or(1), given.next().unwrap_or(100));
    print!("{}", script(seed, number));
}
