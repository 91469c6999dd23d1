//! The rules of types 12 to 17, and what they keep of the events so far.

use model::Constraint;
use model::limits::stream;
use model::types::{Age, Arbitrary, InputSynchronization, OutputSynchronization, Pattern};

/// No time: later than all.
const NEVER: u64 = u64::MAX;
/// How many kinds, offsets or pairs a row has at most.
const KINDS: usize = 4;
const MOST: usize = 8;

/// What an event changes, as it was before: of each type only its own words count.
pub type Before = [u64; 4];

/// A row type with its fields and its state.
#[derive(Clone, Debug)]
pub enum Later {
    /// For each colour the latest stimulus, the first response, and when the row is due for it.
    Age { stimuli: u8, minimum: u64, maximum: u64, latest: [u64; 8], first: [u64; 8], due: [u64; 8] },
    /// For each colour whether it has a stimulus, its first response, a bit for each kind that has responded, and when it is due.
    Output {
        streams: [u8; KINDS],
        all: u64,
        tolerance: u64,
        asked: [bool; 8],
        first: [u64; 8],
        seen: [u64; 8],
        due: [u64; 8],
    },
    /// For each colour the latest stimulus of each kind, the first response, and when it is due.
    Input { streams: [u8; KINDS], n: usize, tolerance: u64, latest: [[u64; KINDS]; 8], first: [u64; 8], due: [u64; 8] },
    /// The number of the next event in its group, and from where to where the newest group's point can be.
    Pattern {
        offsets: [u64; MOST],
        n: u64,
        period: u64,
        jitter: u64,
        minimum: u64,
        next: u64,
        low: u64,
        high: u64,
        last: u64,
    },
    /// The last times, the next place among them, and how many there are.
    Arbitrary { pairs: [(u64, u64); MOST], n: usize, times: [u64; MOST], next: usize, length: usize },
    /// True.
    Comparison,
}

/// The first of the streams of each kind, and behind them no stream.
fn streams(kinds: &[u8]) -> [u8; KINDS] {
    std::array::from_fn(|place| kinds.get(place).map_or(u8::MAX, |kind| stream(*kind, 0)))
}

/// A list, and nothing behind it.
fn filled<T: Copy + Default>(list: &[T]) -> [T; MOST] {
    std::array::from_fn(|place| list.get(place).copied().unwrap_or_default())
}

impl Later {
    /// The rule before any event, if the row is of one of these types.
    pub fn new(row: &Constraint) -> Option<Later> {
        Some(match row {
            Constraint::Age(Age { stimulus, minimum, maximum, .. }) => {
                let (stimuli, never) = (stream(*stimulus, 0), [NEVER; 8]);
                Later::Age { stimuli, minimum: *minimum, maximum: *maximum, latest: never, first: never, due: never }
            }
            Constraint::OutputSynchronization(OutputSynchronization { responses, tolerance, .. }) => Later::Output {
                streams: streams(responses),
                all: (1 << responses.len()) - 1,
                tolerance: *tolerance,
                asked: [false; 8],
                first: [NEVER; 8],
                seen: [0; 8],
                due: [NEVER; 8],
            },
            Constraint::InputSynchronization(InputSynchronization { stimuli, tolerance, .. }) => Later::Input {
                streams: streams(stimuli),
                n: stimuli.len(),
                tolerance: *tolerance,
                latest: [[NEVER; KINDS]; 8],
                first: [NEVER; 8],
                due: [NEVER; 8],
            },
            Constraint::Pattern(Pattern { period, jitter, minimum, offsets, .. }) => Later::Pattern {
                offsets: filled(offsets),
                n: offsets.len() as u64,
                period: *period,
                jitter: *jitter,
                minimum: *minimum,
                next: 0,
                low: 0,
                high: 0,
                last: NEVER,
            },
            Constraint::Arbitrary(Arbitrary { pairs, .. }) => {
                Later::Arbitrary { pairs: filled(pairs), n: pairs.len(), times: [0; MOST], next: 0, length: 0 }
            }
            Constraint::Comparison(_) => Later::Comparison,
            _ => return None,
        })
    }

    /// Takes an event of one of its streams, before which it was not overdue, and keeps what that changes. When it is due then, if
    /// the row is still open.
    pub fn event(&mut self, stream: u8, time: u64, before: &mut Before) -> Option<u64> {
        match self {
            Later::Age { .. } => self.age_event(stream, time, before),
            Later::Output { .. } => self.output_event(stream, time, before),
            Later::Input { .. } => self.input_event(stream, time, before),
            Later::Pattern { .. } => self.pattern_event(time, before),
            Later::Arbitrary { .. } => self.arbitrary_event(time, before),
            Later::Comparison => Some(NEVER),
        }
    }

    /// Goes back to before an event of a stream, the last that it took.
    pub fn withdraw(&mut self, stream: u8, before: &Before) {
        let (colour, [a, b, c, d]) = (usize::from(stream % 8), *before);
        match self {
            Later::Age { latest, first, due, .. } => (latest[colour], first[colour], due[colour]) = (a, b, c),
            Later::Output { asked, first, seen, due, .. } => {
                (asked[colour], first[colour], seen[colour], due[colour]) = (a != 0, b, c, d);
            }
            Later::Input { streams, latest, first, due, .. } => {
                (first[colour], due[colour]) = (b, c);
                if let Some(place) = place(streams, stream) {
                    latest[colour][place] = a;
                }
            }
            Later::Pattern { next, low, high, last, .. } => [*next, *low, *high, *last] = [a, b, c, d],
            Later::Arbitrary { times, next, length, .. } => {
                (*next, *length) = (b as usize, c as usize);
                times[*next] = a;
            }
            Later::Comparison => {}
        }
    }

    /// Is it kept if the recording is closed now?
    pub fn kept(&self) -> bool {
        match self {
            Later::Age { due, .. } | Later::Input { due, .. } => due.iter().all(|due| *due == NEVER),
            Later::Output { all, asked, seen, .. } => asked.iter().zip(seen).all(|(asked, seen)| !asked || seen == all),
            Later::Pattern { .. } | Later::Arbitrary { .. } | Later::Comparison => true,
        }
    }

    fn age_event(&mut self, stream: u8, time: u64, before: &mut Before) -> Option<u64> {
        let Later::Age { stimuli, minimum, maximum, latest, first, due } = self else { return None };
        let colour = usize::from(stream % 8);
        let (old, answered) = (latest[colour], first[colour]);
        [before[0], before[1], before[2]] = [old, answered, due[colour]];
        if stream - stream % 8 == *stimuli {
            if answered != NEVER && (*minimum > 0 || time != answered) {
                return None;
            }
            (latest[colour], due[colour]) = (time, NEVER);
        } else if answered != NEVER {
            if time > old.saturating_add(*maximum) {
                return None;
            }
        } else {
            let suits = old != NEVER && old + *minimum <= time && time <= old + *maximum;
            if !suits && *minimum > 0 {
                return None;
            }
            (first[colour], due[colour]) = (time, if suits { NEVER } else { time });
        }
        Some(least(due))
    }

    fn output_event(&mut self, stream: u8, time: u64, before: &mut Before) -> Option<u64> {
        let Later::Output { streams, all, tolerance, asked, first, seen, due } = self else { return None };
        let colour = usize::from(stream % 8);
        *before = [asked[colour].into(), first[colour], seen[colour], due[colour]];
        match place(streams, stream) {
            None if seen[colour] != 0 && time > first[colour] => return None,
            None => asked[colour] = true,
            Some(place) => {
                if seen[colour] == 0 {
                    first[colour] = time;
                }
                seen[colour] |= 1 << place;
            }
        }
        let begun = asked[colour] && seen[colour] != 0 && seen[colour] != *all;
        due[colour] = if begun { first[colour] + *tolerance } else { NEVER };
        Some(least(due))
    }

    fn input_event(&mut self, stream: u8, time: u64, before: &mut Before) -> Option<u64> {
        let Later::Input { streams, n, tolerance, latest, first, due } = self else { return None };
        let colour = usize::from(stream % 8);
        let known = place(streams, stream);
        *before = [known.map_or(0, |place| latest[colour][place]), first[colour], due[colour], 0];
        match known {
            Some(_) if first[colour] < time => return None,
            Some(place) => latest[colour][place] = time,
            None => first[colour] = first[colour].min(time),
        }
        if first[colour] != NEVER {
            let kinds = &latest[colour][..*n];
            let (low, high) = (kinds.iter().min().unwrap_or(&0), kinds.iter().max().unwrap_or(&0));
            due[colour] = if *high == NEVER || high - low > *tolerance { first[colour] } else { NEVER };
        }
        Some(least(due))
    }

    fn pattern_event(&mut self, time: u64, before: &mut Before) -> Option<u64> {
        let Later::Pattern { offsets, n, period, jitter, minimum, next, low, high, last } = self else { return None };
        *before = [*next, *low, *high, *last];
        let (offset, begun) = (offsets[*next as usize % MOST], *last != NEVER);
        let again = begun && *next == 0;
        if time < offset || begun && time - *last < *minimum || again && *period == 0 {
            return None;
        }
        let step = if again { *period } else { 0 };
        let (near, far) = (time.saturating_sub(offset + *jitter), time - offset);
        (*low, *high) = if begun { (near.max(*low + step), far.min(*high + step)) } else { (near, far) };
        *next = if *next + 1 == *n { 0 } else { *next + 1 };
        *last = time;
        let due = *high + if *next == 0 { *period } else { 0 } + offsets[*next as usize % MOST] + *jitter;
        (*low <= *high && time <= due).then_some(due)
    }

    fn arbitrary_event(&mut self, time: u64, before: &mut Before) -> Option<u64> {
        let Later::Arbitrary { pairs, n, times, next, length } = self else { return None };
        *before = [times[*next], *next as u64, *length as u64, 0];
        for (i, (minimum, _)) in pairs[..(*n).min(*length)].iter().enumerate() {
            if time < times[(*next + MOST - 1 - i) % MOST] + minimum {
                return None;
            }
        }
        times[*next] = time;
        (*next, *length) = ((*next + 1) % MOST, (*length + 1).min(MOST));
        let newest = |i: usize| times[(*next + MOST - 1 - i.min(*length - 1)) % MOST];
        pairs[..*n].iter().enumerate().map(|(i, (_, maximum))| newest(i).saturating_add(*maximum)).min()
    }
}

/// The place of a stream's kind in a list of kinds.
fn place(streams: &[u8; KINDS], stream: u8) -> Option<usize> {
    streams.iter().position(|one| *one == stream - stream % 8)
}

fn least(due: &[u64; 8]) -> u64 {
    due.iter().copied().min().unwrap_or(NEVER)
}
