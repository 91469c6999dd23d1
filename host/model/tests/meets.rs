//! The definitions beside their plainest wording, and the corners of each.
//! Clauses: §2.2, §5.1 to §5.10.

mod common;

use common::{burst, delay, order, recorded, repeat, repetition, sporadic, strong_delay, strong_synchronization};
use model::hidden_points::Spacing;
use model::random::Random;
use model::random::tables::Scale;
use model::{Constraint, Events, History, NO_LIMIT, Step, meets};

/// Rising times: this many, with gaps of the scale.
fn rising(random: &mut Random, number: u64, scale: Scale) -> Vec<u64> {
    let mut time = 0;
    let next = |_| {
        time += 1 + scale.time(random) / (number + 1);
        time - 1
    };
    (0..number).map(next).collect()
}

/// What is recorded of kinds 0 and on with these times.
fn events_at(lists: &[Vec<u64>]) -> History {
    let mut events: Vec<(u64, u8)> = Vec::new();
    for (kind, times) in lists.iter().enumerate() {
        events.extend(times.iter().map(|time| (*time, kind as u8)));
    }
    events.sort_unstable();
    let steps: Vec<Step> = events.into_iter().map(|(time, kind)| Step::Event { kind, time }).collect();
    History::of(&steps)
}

/// Sentence 1 with both loops written out.
fn delay_word_by_word(lower: u64, upper: u64, sources: &[u64], targets: &[u64]) -> bool {
    for s in sources {
        let mut found = false;
        for t in targets {
            found |= s <= t && lower <= t - s && (upper == NO_LIMIT || t - s <= upper);
        }
        if !found {
            return false;
        }
    }
    true
}

/// Sentence 7 by the largest and the least of each group.
fn synchronization_by_spread(tolerance: u64, lists: &[Vec<u64>]) -> bool {
    let number = lists[0].len();
    let spread = |i: usize| {
        let group = || lists.iter().map(|list| list[i]);
        group().max().unwrap() - group().min().unwrap()
    };
    lists.iter().all(|list| list.len() == number) && (0..number).all(|i| spread(i) <= tolerance)
}

#[test]
fn delay_and_synchronization_in_other_words() {
    let mut random = Random::new(5);
    let mut met = [0; 2];
    for _ in 0..20_000 {
        let number = random.below(5);
        let list = |random: &mut Random| {
            let number = if random.chance(80) { number } else { random.below(7) };
            rising(random, number, Scale::Small)
        };
        let lists = [list(&mut random), list(&mut random), list(&mut random)];
        let (lower, upper) = (random.below(3), *random.pick(&[0, 1, 2, 3, 4, 5, NO_LIMIT]));
        let events = events_at(&lists);
        assert_eq!(events.times(1), lists[1]);
        let plain = delay_word_by_word(lower, upper, &lists[0], &lists[1]);
        assert_eq!(meets(&delay(lower, upper), &events), plain, "{lower} to {upper} of {lists:?}");
        let plain_too = synchronization_by_spread(upper, &lists);
        assert_eq!(meets(&strong_synchronization(3, upper), &events), plain_too, "{upper} of {lists:?}");
        met[0] += u64::from(plain);
        met[1] += u64::from(plain_too);
    }
    assert!(met.iter().all(|met| (1_000..19_000).contains(met)), "{met:?}");
}

#[test]
fn hidden_points_beside_the_search() {
    let mut random = Random::new(6);
    let mut found = 0;
    for _ in 0..20_000 {
        let number = random.below(6);
        let events = rising(&mut random, number, Scale::Patient).iter().map(|time| time / 16).collect::<Vec<u64>>();
        if events.windows(2).any(|pair| pair[0] == pair[1]) {
            continue;
        }
        let upper = *random.pick(&[0, 1, 2, 3, 4, 5, NO_LIMIT]);
        let spacing = Spacing { span: 1, lower: random.below(4).min(upper), upper, jitter: random.below(7) };
        let clock = events.last().map_or(0, |last| last + random.below(8));
        let searched = spacing.has_hidden_points_by_search(&events, clock);
        assert_eq!(spacing.has_hidden_points(&events, clock), searched, "{spacing:?} of {events:?} at {clock}");
        found += u64::from(searched);
    }
    assert!((2_000..18_000).contains(&found), "{found}");
}

#[test]
fn points_of_a_span_beside_the_search() {
    let mut random = Random::new(10);
    let mut found = [[0; 2]; 5];
    let mut by_the_rise = 0;
    for _ in 0..20_000 {
        let number = random.below(8);
        let times: Vec<u64> = (0..12).filter(|_| random.chance(60)).take(number as usize).collect();
        let span = 1 + random.place(4);
        let upper = random.below(9);
        let lower = if random.chance(40) { upper } else { random.below(9).min(upper) };
        let spacing = Spacing { span, lower, upper, jitter: random.below(6) };
        let searched = spacing.has_points_by_search(&times);
        assert_eq!(spacing.has_points(&times), searched, "{spacing:?} of {times:?}");
        assert!(!searched || spacing.each_chain_has_points(&times), "{spacing:?} of {times:?}");
        by_the_rise += u64::from(!searched && span <= upper as usize && spacing.each_chain_has_points(&times));
        found[span][usize::from(searched)] += u64::from(times.len() > span);
    }
    let often = |counts: &[u64; 2]| counts.iter().all(|count| *count > 100);
    assert!(found[1..].iter().all(often) && by_the_rise > 10, "{found:?}, {by_the_rise} by the rise alone");
}

/// Do two events contradict each other: the later too early or too late for any points between?
fn contradiction(spacing: &Spacing, events: &[u64]) -> bool {
    let step = i128::from(spacing.lower.max(1));
    let first = |i: usize| i128::from(events[i].saturating_sub(spacing.jitter));
    let last = |i: usize| i128::from(events[i]);
    let limited = spacing.upper != NO_LIMIT;
    let steps = |i: usize, j: usize| (j - i) as i128;
    let contradict = |i: usize, j: usize| {
        let too_early = first(i) + steps(i, j) * step > last(j);
        let too_late = limited && last(i) + steps(i, j) * i128::from(spacing.upper) < first(j);
        too_early || too_late || limited && step > i128::from(spacing.upper)
    };
    (0..events.len()).any(|j| (0..j).any(|i| contradict(i, j)))
}

#[test]
fn no_hidden_points_has_a_contradiction() {
    let mut random = Random::new(7);
    let mut found = 0;
    for _ in 0..40_000 {
        let scale = *random.pick(&[Scale::Small, Scale::Patient, Scale::Extreme]);
        let number = random.below(9);
        let events = rising(&mut random, number, scale);
        let gap = events.windows(2).map(|pair| pair[1] - pair[0]).max().unwrap_or(1);
        let any = scale.time(&mut random);
        let upper = *random.pick(&[NO_LIMIT, gap, gap + 1, gap / 2 + 2, any]);
        let (lower, jitter) = (scale.time(&mut random).min(upper), gap / (1 + random.below(4)));
        let spacing = Spacing { span: 1, lower, upper, jitter };
        // at the last event's own time the clock asks nothing that the point there does not
        let points = spacing.has_hidden_points(&events, events.last().copied().unwrap_or(0));
        assert_eq!(points, !contradiction(&spacing, &events), "{spacing:?} of {events:?}");
        found += u64::from(points);
    }
    assert!((4_000..36_000).contains(&found), "{found}");
}

/// Is the row's definition true of these events?
fn of(row: &Constraint, text: &str) -> bool {
    meets(row, &recorded(text))
}

#[test]
fn source_and_target_at_one_time() {
    for text in ["0@5, 1@5", "1@5, 0@5"] {
        assert!(of(&delay(0, 0), text) && of(&strong_delay(0, 0), text) && of(&order(), text));
        assert!(of(&strong_synchronization(2, 0), text));
        assert!(!of(&delay(1, 9), text) && !of(&strong_delay(1, 9), text));
    }
}

#[test]
fn further_targets() {
    assert!(of(&delay(0, 3), "1@1, 0@5, 1@6, 1@7, 1@90"));
    assert!(!of(&strong_delay(0, 3), "0@5, 1@6, 1@7"));
    assert!(!of(&order(), "0@5, 1@6, 1@7"));
    assert!(of(&delay(0, 3), "0@5, 0@6, 0@7, 1@8"));
}

#[test]
fn sporadic_corners() {
    assert!(of(&sporadic(0, 0, 9, 0), "0@5") && !of(&sporadic(0, 0, 9, 0), "0@5, 0@6"));
    assert!(of(&sporadic(0, 1, 0, 0), "0@5, 0@6") && !of(&sporadic(0, 1, 0, 0), "0@5, 0@7"));
    // jitter larger than the time: no point below 0
    assert!(!of(&sporadic(10, 10, 5, 0), "0@2, 0@9") && of(&sporadic(10, 10, 5, 0), "0@2, 0@10"));
    assert!(of(&sporadic(0, NO_LIMIT, 0, 0), "0@0, 0@1152921504606846975"));
    assert!(!of(&sporadic(0, NO_LIMIT, 0, 3), "0@5, 0@7") && of(&sporadic(0, NO_LIMIT, 0, 3), "0@5, 0@8"));
    // three events need three points: 0, 1 and 2
    assert!(of(&sporadic(0, NO_LIMIT, 9, 0), "0@0, 0@1, 0@2"));
    assert!(!of(&sporadic(2, NO_LIMIT, 9, 0), "0@0, 0@1"));
}

#[test]
fn repetition_corners() {
    // each chain taken singly has its points, 31 included
    assert!(of(&repetition(2, 10, 10, 5), "0@5, 0@16, 0@17, 0@29"));
    assert!(!of(&repetition(2, 10, 10, 5), "0@5, 0@16, 0@17, 0@30"));
    assert!(!of(&repetition(2, 10, 10, 5), "0@5, 0@16, 0@17, 0@31"));
    // a list as long as the span is always its own points; one longer needs an upper of the span at least
    assert!(of(&repetition(2, 0, 1, 9), "0@10, 0@11") && !of(&repetition(2, 0, 1, 9), "0@10, 0@11, 0@12"));
    assert!(of(&repetition(2, 0, 10, 0), "0@0, 0@100") && !of(&repetition(2, 0, 10, 0), "0@0, 0@100, 0@101"));
    assert!(of(&repetition(8, 0, 8, 0), "0@1, 0@2, 0@3, 0@4, 0@5, 0@6, 0@7, 0@8, 0@9"));
    // no point below 0, and a span of 1 is a Sporadic without a minimum
    assert!(!of(&repetition(1, 2, 2, 1), "0@0, 0@1") && of(&repetition(1, 2, 2, 1), "0@0, 0@2"));
    assert!(of(&repetition(2, 0, 1152921504606846975, 1152921504606846975), "0@0, 0@1, 0@2, 0@1152921504606846975"));
    // silence is without effect
    assert!(of(&repetition(1, 5, 5, 0), "0@0, tick 1152921504606846975"));
}

#[test]
fn a_span_of_one_is_a_sporadic() {
    let mut random = Random::new(1010);
    for _ in 0..20_000 {
        let scale = *random.pick(&[Scale::Small, Scale::Patient, Scale::Extreme]);
        let number = random.below(9);
        let events = events_at(&[rising(&mut random, number, scale)]);
        let (lower, upper, jitter) = (scale.time(&mut random), scale.time(&mut random), scale.time(&mut random));
        let lower = lower.min(upper);
        // at the last event's own time the clock asks nothing that the point there does not
        let alike =
            (meets(&repetition(1, lower, upper, jitter), &events), meets(&sporadic(lower, upper, jitter, 0), &events));
        assert_eq!(alike.0, alike.1, "{lower} to {upper}, {jitter} of {events:?}");
    }
}

#[test]
fn repeat_and_burst_corners() {
    assert!(of(&repeat(1, 0, 0), "0@5") && !of(&repeat(1, 0, 0), "0@5, 0@6"));
    assert!(of(&repeat(64, 1, 2), "0@5, 0@6, 0@7") && !of(&repeat(64, 1, 1), "0@5, 0@6, 0@7"));
    assert!(of(&repeat(2, 4, NO_LIMIT), "0@0, 0@1, 0@4, 0@5000"));
    assert!(of(&burst(2, 4, 1), "0@0, 0@1, 0@4") && !of(&burst(2, 4, 2), "0@0, 0@1, 0@4"));
    assert!(!of(&burst(2, 4, 0), "0@0, 0@1, 0@3") && of(&burst(1, 0, 0), "0@0, 0@1, 0@2"));
}

#[test]
fn signals_that_stop() {
    // the last event, and with a larger span the oldest that has no event span places after it
    assert!(of(&repeat(1, 4, 4), "0@0, 0@4, tick 8") && !of(&repeat(1, 4, 4), "0@0, 0@4, tick 9"));
    assert!(of(&repeat(2, 4, 5), "0@1, 0@3, tick 6") && !of(&repeat(2, 4, 5), "0@1, 0@3, tick 7"));
    assert!(of(&repeat(2, 4, 5), "0@1, 0@3, 0@6, 9@8") && !of(&repeat(2, 4, 5), "0@1, 0@3, 0@6, 9@9"));
    // a point as late as it may be; the second one here can only be at 7
    assert!(of(&sporadic(5, 5, 2, 0), "0@2, tick 9") && !of(&sporadic(5, 5, 2, 0), "0@2, tick 10"));
    assert!(of(&sporadic(5, 5, 2, 0), "0@2, 0@9, tick 14") && !of(&sporadic(5, 5, 2, 0), "0@2, 0@9, tick 15"));
    // nothing is due before the first event, without a limit, or in a Burst
    let late = "tick 1152921504606846975";
    assert!(of(&repeat(1, 0, 0), late) && of(&sporadic(0, 0, 0, 0), late));
    let late = "0@3, tick 1152921504606846975";
    assert!(of(&repeat(1, 9, NO_LIMIT), late) && of(&sporadic(9, NO_LIMIT, 0, 0), late) && of(&burst(1, 9, 0), late));
}

#[test]
fn synchronization_corners() {
    let within = |tolerance, text| of(&strong_synchronization(3, tolerance), text);
    assert!(within(0, "0@5, 2@5, 1@5") && !within(0, "0@5, 2@5, 1@6") && within(1, "0@5, 2@5, 1@6"));
    assert!(within(0, "") && !within(9, "0@5, 2@5"));
    // each within tolerance of a neighbour, but not of one another
    assert!(!within(2, "0@5, 1@7, 2@9") && within(4, "0@5, 1@7, 2@9"));
}

#[test]
fn no_number_is_too_large_for_the_definitions() {
    let text = "0@0, 1@1152921504606846975, 0@1152921504606846975";
    assert!(!of(&delay(NO_LIMIT, NO_LIMIT), text) && !of(&strong_delay(0, NO_LIMIT), text));
    assert!(
        of(&delay(0, NO_LIMIT), text) && of(&delay(1_152_921_504_606_846_975, NO_LIMIT), "0@0, 1@1152921504606846975")
    );
    assert!(of(&repeat(1, 0, NO_LIMIT - 1), text) && !of(&repeat(1, NO_LIMIT, NO_LIMIT), text));
    assert!(!of(&sporadic(NO_LIMIT, NO_LIMIT, NO_LIMIT, 0), text) && of(&sporadic(0, NO_LIMIT, NO_LIMIT, 0), text));
    assert!(!of(&burst(1, NO_LIMIT, NO_LIMIT), text) && of(&strong_synchronization(1, 0), text));
}
