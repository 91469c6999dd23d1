//! What may still come (§2.3).

use crate::limits::STREAMS;
use crate::steps::{Events, History, Step};

/// An event of a continuation. Its time has no largest value but that of its number.
#[derive(Clone, Copy, Debug, PartialEq, Eq)]
pub struct Event {
    pub stream: u8,
    pub time: u64,
}

/// Could these further events be taken next, one after the other? After the close only an empty list is a continuation.
pub fn is_continuation(recorded: &History, further: &[Event]) -> bool {
    let mut after = recorded.clone();
    further.iter().all(|&Event { stream, time }| {
        let fits = !after.closed() && stream < STREAMS && after.event_in_order(stream, time);
        if fits {
            after.record(Step::of_stream(stream, time));
        }
        fits
    })
}

/// The recorded events and those of a continuation, together.
pub struct Together<'a> {
    recorded: &'a History,
    /// The whole lists of the streams that have further events.
    joined: Vec<(u8, Vec<u64>)>,
}

impl<'a> Together<'a> {
    pub fn of(recorded: &'a History, further: &[Event]) -> Together<'a> {
        let mut together = Together { recorded, joined: Vec::new() };
        further.iter().for_each(|event| together.push(*event));
        together
    }

    /// The first time that a further event of this stream can have: the clock's, or the one after its last.
    pub fn first_free(&self, stream: u8) -> u64 {
        let after_last = self.times(stream).last().map_or(0, |last| last + 1);
        after_last.max(self.recorded.clock())
    }

    /// Adds a further event.
    pub fn push(&mut self, event: Event) {
        let known = self.joined.iter().position(|(stream, _)| *stream == event.stream);
        let place = known.unwrap_or_else(|| {
            self.joined.push((event.stream, self.recorded.times(event.stream).to_vec()));
            self.joined.len() - 1
        });
        self.joined[place].1.push(event.time);
    }

    /// Takes the last further event of a stream away again.
    pub fn pop(&mut self, stream: u8) {
        let list = self.joined.iter_mut().find(|(joined, _)| *joined == stream);
        list.expect("a further event of this stream").1.pop();
    }
}

impl Events for Together<'_> {
    fn times(&self, stream: u8) -> &[u64] {
        let joined = self.joined.iter().find(|(joined, _)| *joined == stream);
        joined.map_or_else(|| self.recorded.times(stream), |(_, times)| times)
    }

    /// A continuation closes at its last event or, if it is empty, at the present clock.
    fn clock(&self) -> u64 {
        let last = self.joined.iter().filter_map(|(_, times)| times.last()).max();
        last.map_or(self.recorded.clock(), |last| self.recorded.clock().max(*last))
    }
}
