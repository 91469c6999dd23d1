//! The times that a row keeps: at most 64, the oldest first.

/// How many times it can hold.
const SIZE: usize = 64;

/// A ring of times in an array.
#[derive(Clone, Debug)]
pub struct Ring {
    times: [u64; SIZE],
    ends: Ends,
}

/// Where the oldest time is, and how many there are. An event that adds no time over an older one is withdrawn by these alone.
#[derive(Clone, Copy, Debug, Default)]
pub struct Ends {
    head: usize,
    length: usize,
}

impl Default for Ring {
    fn default() -> Ring {
        Ring { times: [0; SIZE], ends: Ends::default() }
    }
}

impl Ring {
    pub fn length(&self) -> usize {
        self.ends.length
    }

    pub fn is_empty(&self) -> bool {
        self.ends.length == 0
    }

    pub fn is_full(&self) -> bool {
        self.length() == SIZE
    }

    /// The oldest time.
    pub fn first(&self) -> Option<u64> {
        if self.is_empty() { None } else { Some(self.at_head()) }
    }

    /// The oldest two. There must be at least two.
    pub fn two(&self) -> (u64, u64) {
        debug_assert!(self.length() > 1);
        (self.at_head(), self.times[(self.ends.head + 1) % SIZE])
    }

    /// Takes the oldest time away.
    pub fn pop(&mut self) -> Option<u64> {
        let first = self.first()?;
        self.ends.head = (self.ends.head + 1) % SIZE;
        self.ends.length -= 1;
        Some(first)
    }

    /// Adds a time behind the others. There must be room.
    pub fn push(&mut self, time: u64) {
        debug_assert!(!self.is_full());
        self.times[(self.ends.head + self.ends.length) % SIZE] = time;
        self.ends.length += 1;
    }

    /// What is at the place of the oldest time, if there is one or not.
    pub fn at_head(&self) -> u64 {
        self.times[self.ends.head % SIZE]
    }

    pub fn ends(&self) -> Ends {
        self.ends
    }

    /// Goes back to where the ends were.
    pub fn restore(&mut self, ends: Ends) {
        self.ends = ends;
    }

    /// Goes back to where the ends were, with what was at the place of the oldest time, as a full ring needs it.
    pub fn restore_all(&mut self, ends: Ends, at_head: u64) {
        self.ends = ends;
        self.times[ends.head % SIZE] = at_head;
    }
}
