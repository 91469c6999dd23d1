//! The hidden points of a Sporadic or a Repetition row (§5.4, §5.10).

use crate::meets::{apart, between, not_later};

/// What a row says of its hidden points. A Sporadic has span 1.
#[derive(Clone, Copy, Debug)]
pub struct Spacing {
    pub span: usize,
    pub lower: u64,
    pub upper: u64,
    pub jitter: u64,
}

impl Spacing {
    /// Are these hidden points for the events: one for each, rising, lower to upper apart at the span, each at most
    /// jitter before its event and not after it?
    pub fn are_hidden_points(&self, points: &[u64], events: &[u64]) -> bool {
        let far = |stretch: &[u64]| apart(self.lower, self.upper, stretch[0], stretch[self.span]);
        points.len() == events.len()
            && points.iter().zip(events).all(|(&point, &event)| between(0, self.jitter, point, event))
            && points.windows(2).all(|pair| pair[0] < pair[1])
            && points.windows(self.span + 1).all(far)
    }

    /// Is the last point, where there is one, at most upper and jitter before the clock?
    pub fn last_is_not_silent(&self, points: &[u64], clock: u64) -> bool {
        points.last().is_none_or(|last| not_later(self.upper, last.saturating_add(self.jitter), clock))
    }

    /// Are there hidden points for these events?
    ///
    /// The latest points that the events leave are tried against the definition. A "yes" has its points. A "no" is
    /// right too: points that fit are nowhere later, so the latest can only be wrong by being too early.
    pub fn has_points(&self, events: &[u64]) -> bool {
        self.latest_points(events).is_some_and(|points| self.are_hidden_points(&points, events))
    }

    /// And is the last of them, at the latest, not too long before the clock?
    pub fn has_hidden_points(&self, events: &[u64], clock: u64) -> bool {
        let fit = |points: Vec<u64>| self.are_hidden_points(&points, events) && self.last_is_not_silent(&points, clock);
        self.latest_points(events).is_some_and(fit)
    }

    /// The latest numbers of which each is not after its event, at most upper after the one span places before, at
    /// least lower before the one span places after, and before its neighbour. What one of these asks is a difference
    /// between two places, so the latest are the shortest ways from the events: each round over the list draws some of
    /// them down, and what still moves after a round for each place has no end. None where there are no such numbers.
    fn latest_points(&self, events: &[u64]) -> Option<Vec<u64>> {
        let mut points = events.to_vec();
        for _ in 0..=events.len() {
            let before = points.clone();
            for i in self.span..points.len() {
                points[i] = points[i].min(points[i - self.span].saturating_add(self.upper));
            }
            for i in (0..points.len()).rev() {
                if let Some(next) = points.get(i + 1) {
                    points[i] = points[i].min(next.checked_sub(1)?);
                }
                if let Some(later) = points.get(i + self.span) {
                    points[i] = points[i].min(later.checked_sub(self.lower)?);
                }
            }
            if points == before {
                return Some(points);
            }
        }
        None
    }

    /// Has each chain its points, taken singly: every span-th event, without a thought for those between?
    pub fn each_chain_has_points(&self, events: &[u64]) -> bool {
        let chain = |first: usize| events.iter().skip(first).step_by(self.span).copied().collect::<Vec<u64>>();
        (0..self.span).all(|first| self.chain_has_points(&chain(first)))
    }

    /// The same of one chain: the places of its last point, from the first one on.
    fn chain_has_points(&self, events: &[u64]) -> bool {
        let mut places = 0..=u64::MAX;
        for (place, &event) in events.iter().enumerate() {
            let (low, high) = (event.saturating_sub(self.jitter), event);
            places = if place == 0 {
                low..=high
            } else {
                low.max(places.start().saturating_add(self.lower))..=high.min(places.end().saturating_add(self.upper))
            };
            if places.is_empty() {
                return false;
            }
        }
        true
    }

    /// Both questions answered by trying every list of points. For small numbers only.
    pub fn has_points_by_search(&self, events: &[u64]) -> bool {
        self.search(&mut Vec::new(), events, &|_| true)
    }

    pub fn has_hidden_points_by_search(&self, events: &[u64], clock: u64) -> bool {
        self.search(&mut Vec::new(), events, &|points| self.last_is_not_silent(points, clock))
    }

    /// Can the points found so far be followed by one for each event that has none yet?
    fn search(&self, points: &mut Vec<u64>, events: &[u64], fits: &impl Fn(&[u64]) -> bool) -> bool {
        let Some(&event) = events.get(points.len()) else {
            return self.are_hidden_points(points, events) && fits(points);
        };
        (0..=event).any(|point| {
            points.push(point);
            let found = self.are_hidden_points(points, &events[..points.len()]) && self.search(points, events, fits);
            points.pop();
            found
        })
    }
}
