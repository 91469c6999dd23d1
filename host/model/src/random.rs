//! Random tables, recordings and lists of calls for tests: the same from the same seed, on every machine.

pub mod calls;
pub mod executions;
pub mod one_row;
pub mod recordings;
pub mod repetitions;
pub mod script;
pub mod seen;
pub mod tables;

/// A xorshift generator (Marsaglia's 13, 7, 17, with Vigna's multiplication of the output).
#[derive(Clone, Debug)]
pub struct Random {
    state: u64,
}

impl Random {
    /// A generator whose numbers depend on the seed alone.
    pub fn new(seed: u64) -> Random {
        let mut random = Random { state: seed.wrapping_mul(0x9E37_79B9_7F4A_7C15) | 1 };
        random.number();
        random.number();
        random
    }

    /// Any number of 64 bits but one.
    pub fn number(&mut self) -> u64 {
        self.state ^= self.state << 13;
        self.state ^= self.state >> 7;
        self.state ^= self.state << 17;
        self.state.wrapping_mul(0x2545_F491_4F6C_DD1D)
    }

    /// A number from 0 to `limit` − 1.
    pub fn below(&mut self, limit: u64) -> u64 {
        (self.number() >> 8) % limit
    }

    /// A number from `first` to `last`.
    pub fn from_to(&mut self, first: u64, last: u64) -> u64 {
        first + self.below(last - first + 1)
    }

    /// A place in a list of this length.
    pub fn place(&mut self, length: usize) -> usize {
        self.below(length as u64) as usize
    }

    /// True in this many of 100 cases.
    pub fn chance(&mut self, percent: u64) -> bool {
        self.below(100) < percent
    }

    /// One of the list.
    pub fn pick<'a, T>(&mut self, list: &'a [T]) -> &'a T {
        &list[self.place(list.len())]
    }

    /// A generator with a separate sequence of numbers.
    pub fn fork(&mut self) -> Random {
        Random::new(self.number())
    }
}

/// Damages bytes in one place: a version, length, type or other byte changed, bytes lost or added.
pub fn damage(random: &mut Random, bytes: &mut Vec<u8>) {
    let place = random.place(bytes.len().max(1)).min(bytes.len());
    // the length field and the type byte of the first row or record have these places
    let near_start = random.place(6).min(bytes.len());
    match random.below(9) {
        0 => bytes.truncate(place),
        1 => bytes.truncate(near_start),
        2 => bytes.truncate(bytes.len().saturating_sub(1)),
        3 => bytes.insert(place, random.number() as u8),
        4 => bytes.extend([0, *random.pick(&[0, 1, 3, 8, 9, 10, 11, 19]), 7].iter().take(1 + random.place(3))),
        5 => set(bytes, 0, *random.pick(&[0, 1, 2, 3, 255])),
        6 => set(bytes, near_start, random.below(24) as u8),
        7 => set(bytes, place, random.below(12) as u8),
        _ => set(bytes, place, random.number() as u8),
    }
}

/// Sets the byte at a place, if there is one.
fn set(bytes: &mut [u8], place: usize, value: u8) {
    if let Some(byte) = bytes.get_mut(place) {
        *byte = value;
    }
}
