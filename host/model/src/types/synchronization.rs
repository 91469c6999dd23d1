//! Synchronization (§5.11): each event in a full window, a stretch of tolerance in which every kind has an event.

use super::{Constraint, RowType, row_type};
use crate::continuation::Event;
use crate::random::Random;
use crate::random::tables::{Draw, odd_kind, odd_time};
use crate::steps::{Events, History};

row_type! {
    /// A row of type 11. The n is the number of kinds.
    Synchronization { kinds: Kinds, tolerance: Time }
}

impl Synchronization {
    /// The times of all events of the row, in order.
    fn own(&self, events: &dyn Events) -> Vec<u64> {
        let mut times: Vec<u64> = self.kinds.iter().flat_map(|kind| events.times(*kind).iter().copied()).collect();
        times.sort_unstable();
        times
    }

    /// Is the window that begins at x full?
    fn is_full(&self, events: &dyn Events, x: u64) -> bool {
        self.kinds.iter().all(|kind| {
            let times = events.times(*kind);
            let place = times.partition_point(|time| *time < x);
            times.get(place).is_some_and(|time| *time <= x + self.tolerance)
        })
    }

    /// The events that lie in no full window, in order. A full window can be moved up to the first event in it, so it is enough to
    /// look at those that begin with an event.
    pub fn in_no_full_window(&self, events: &dyn Events) -> Vec<u64> {
        let times = self.own(events);
        let full: Vec<u64> = times.iter().copied().filter(|x| self.is_full(events, *x)).collect();
        let lies_in_none = |time: &u64| {
            let place = full.partition_point(|x| x + self.tolerance < *time);
            full.get(place).is_none_or(|x| x > time)
        };
        times.into_iter().filter(lies_in_none).collect()
    }
}

impl RowType for Synchronization {
    /// Each event lies in a full window.
    fn meets(&self, events: &dyn Events) -> bool {
        self.in_no_full_window(events).is_empty()
    }

    /// At the clock an event of each kind that has none there. Every window that holds the clock is full then, so all events are in
    /// one that are at most tolerance before it. An older one that lies in no full window never will: a window that holds it ends
    /// before the clock, and no further event can lie in it.
    fn earliest_continuation(&self, recorded: &History) -> Vec<Event> {
        let time = recorded.clock();
        let lacking = self.kinds.iter().filter(|kind| recorded.times(**kind).last() != Some(&time));
        lacking.map(|kind| Event { stream: *kind, time }).collect()
    }

    /// The clock itself will do; one place more is searched to see that it changes nothing.
    fn reach(&self, recorded: &History) -> u64 {
        recorded.clock() + 1
    }

    fn random(draw: &mut Draw) -> Synchronization {
        let number = 2 + draw.random.place(3);
        Synchronization { kinds: draw.different(number), tolerance: draw.bounds.1 }
    }

    fn damage(&mut self, random: &mut Random) {
        match random.below(5) {
            _ if self.kinds.len() < 2 => {}
            0 => self.kinds[0] = odd_kind(random),
            1 => self.kinds[1] = self.kinds[0],
            2 => self.tolerance = odd_time(random),
            3 => self.kinds.truncate(random.place(3)),
            _ => self.kinds.extend([45, 46, 47]),
        }
    }
}

/// For tests: kinds 0 to n − 1.
pub fn synchronization(n: u8, tolerance: u64) -> Constraint {
    Synchronization { kinds: (0..n).collect(), tolerance }.into()
}

#[cfg(test)]
mod tests {
    use super::{Synchronization, synchronization};
    use crate::notation::steps;
    use crate::search::open_within;
    use crate::steps::Step;
    use crate::types::{RowType, strong_synchronization};
    use crate::{Constraint, Events, History, Monitor, Verdict, open};

    /// What the row reads after a list.
    fn reads(row: &Constraint, list: &str) -> Verdict {
        let mut monitor = Monitor::fresh(std::slice::from_ref(row)).expect("an accepted row");
        steps(list).into_iter().for_each(|step| monitor.step(step).expect("a step in order"));
        monitor.verdict(0).expect("a row")
    }

    /// The examples of §5.11, and how far the last one goes.
    #[test]
    fn examples() {
        use Verdict::{Broken, Kept, Open};
        let two = synchronization(2, 2);
        let of_two = [
            ("0@5, 1@7, close", Kept),
            ("0@5, 0@6, 1@7, close", Kept),
            ("0@5, 1@7, 0@9, close", Kept),
            ("0@5, 1@7, 0@10, tick 12", Open),
            ("0@5, 1@7, 0@10, tick 12, tick 13", Broken(5)),
            ("0@5, tick 7", Open),
            ("0@5, tick 8", Broken(2)),
            ("0@5, close", Broken(2)),
            ("tick 9, close", Kept),
        ];
        of_two.iter().for_each(|(list, end)| assert_eq!(reads(&two, list), *end, "{list}"));
        assert_eq!(reads(&strong_synchronization(2, 2), "0@5, 0@6, 1@7, close"), Broken(4));
        let of_none = [("1@5, 0@5, close", Kept), ("0@5, tick 6", Broken(2)), ("0@5, 1@5, 0@6, 1@6, close", Kept)];
        of_none.iter().for_each(|(list, end)| assert_eq!(reads(&synchronization(2, 0), list), *end, "{list}"));
        let of_three = [
            ("0@5, 1@6, 2@7, 0@8, close", Kept),
            ("0@5, 1@6, 2@7, 0@9, close", Broken(5)),
            ("0@5, 1@6, 2@7, 0@9, 1@9, close", Kept),
        ];
        of_three.iter().for_each(|(list, end)| assert_eq!(reads(&synchronization(3, 2), list), *end, "{list}"));
        let many: Vec<String> = (1..=200).map(|time| format!("0@{time}")).collect();
        for (end, verdict) in [("1@201, close", Kept), ("tick 1001", Open), ("tick 1002", Broken(201))] {
            assert_eq!(reads(&synchronization(2, 1000), &format!("{}, {end}", many.join(", "))), verdict, "{end}");
        }
    }

    /// Is each event in a full window, by trying each whole number for its beginning, those below 0 too?
    fn by_definition(row: &Synchronization, events: &History) -> bool {
        let lies = |time: u64, x: i64| x <= time as i64 && time as i64 <= x + row.tolerance as i64;
        let full = |x: i64| row.kinds.iter().all(|kind| events.times(*kind).iter().any(|time| lies(*time, x)));
        let all = |time: &u64| (*time as i64 - row.tolerance as i64..=*time as i64).any(|x| lies(*time, x) && full(x));
        row.kinds.iter().all(|kind| events.times(*kind).iter().all(all))
    }

    /// Every list of events of two or three kinds up to a last time, with ticks between them: met by definition exactly when it is met,
    /// and open exactly when some continuation up to some places later meets it.
    fn every_list(row: &Synchronization, kinds: u8, recorded: &History, last: u64) -> u64 {
        let whole = Constraint::from(row.clone());
        assert_eq!(row.meets(recorded), by_definition(row, recorded), "{row:?} after {recorded:?}");
        let found = open_within(&whole, recorded, recorded.clock() + 2);
        assert_eq!(open(&whole, recorded), found, "{row:?} after {recorded:?}");
        let times = recorded.clock()..=last;
        let events = times.flat_map(|time| (0..kinds).map(move |kind| (kind, time)));
        let events = events.filter(|(kind, time)| recorded.event_in_order(*kind, *time));
        let events = events.map(|(kind, time)| Step::Event { kind, time });
        let ticks = (recorded.clock() + 1..=last).map(|time| Step::Tick { time });
        let next = events.chain(ticks).map(|step| recorded.after(step));
        1 + next.map(|after| every_list(row, kinds, &after, last)).sum::<u64>()
    }

    #[test]
    fn every_short_list() {
        let mut lists = 0;
        for (n, last) in [(2, 3), (3, 1)] {
            for tolerance in 0..=2 {
                let Constraint::Synchronization(row) = synchronization(n, tolerance) else { unreachable!() };
                lists += every_list(&row, n, &History::default(), last);
            }
        }
        assert!(lists > 10_000, "{lists} lists");
    }
}
