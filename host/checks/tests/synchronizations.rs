//! Long lists of events over a Synchronization of two, three and four kinds, beside the model: it stays open for long, with windows that
//! overlap, and breaks in every way there is.
//! Clauses: §5.11, §6.4, §15.5 to §15.8.

use checks::beside::{fresh, take, verdict};
use model::random::Random;
use model::types::Synchronization;
use model::{Events, History, Monitor, Step, Verdict};
use std::collections::BTreeSet;

/// How a list ends.
#[derive(Clone, Copy, Debug, PartialEq, Eq, PartialOrd, Ord)]
enum End {
    /// A tick, an event of the row's or one of another kind past the deadline.
    Tick,
    Own,
    Other,
    /// The close, while an event lies in no full window, and while none does.
    CloseBroken,
    CloseKept,
}

const ENDS: [End; 5] = [End::Tick, End::Own, End::Other, End::CloseBroken, End::CloseKept];
/// A kind that no row here has.
const STRANGER: u8 = 40;
/// A list has at least this many steps before its end.
const LONG: u64 = 90;

fn row(random: &mut Random, n: usize, tolerance: u64) -> Synchronization {
    Synchronization { kinds: model::random::tables::different(random, &[0, 1, 2, 3, 4, 5], n), tolerance }
}

/// The last time at which the row is open without a further event, if it has one.
fn deadline(row: &Synchronization, recorded: &History) -> Option<u64> {
    row.in_no_full_window(recorded).first().map(|oldest| oldest + row.tolerance)
}

/// The kinds that have no event from a time less tolerance on, and can have one at that time.
fn lacking(row: &Synchronization, recorded: &History, time: u64) -> Vec<u8> {
    let has = |kind: u8| recorded.times(kind).last().is_some_and(|last| last + row.tolerance >= time);
    row.kinds.iter().copied().filter(|kind| !has(*kind)).collect()
}

/// A next step that leaves the row open: events soon one after the other or just in time, of a kind that is lacking or of any.
fn next_step(random: &mut Random, row: &Synchronization, recorded: &History) -> Step {
    let (clock, due) = (recorded.clock(), deadline(row, recorded));
    let soon = clock + *random.pick(&[0, 0, 0, 1, 1, 2, row.tolerance / 2, row.tolerance, row.tolerance + 1]);
    let time = match due {
        Some(due) if random.chance(15) => due,
        Some(due) => soon.min(due),
        None => soon,
    };
    let lacking = lacking(row, recorded, time);
    let kinds = if lacking.is_empty() || due != Some(time) && random.chance(40) { &row.kinds } else { &lacking };
    let kind = *random.pick(kinds);
    match random.below(12) {
        0 if time > clock => Step::Tick { time },
        1 if recorded.event_in_order(STRANGER, time) => Step::Event { kind: STRANGER, time },
        _ if recorded.event_in_order(kind, time) => Step::Event { kind, time },
        _ if due.is_none_or(|due| clock < due) => Step::Tick { time: clock + 1 },
        _ => Step::Event { kind: lacking[0], time },
    }
}

/// The step that ends a list so, where it can.
fn last_step(random: &mut Random, row: &Synchronization, recorded: &History, end: End) -> Option<Step> {
    let due = deadline(row, recorded);
    let past = due.map(|due| due + 1 + *random.pick(&[0, 0, 0, 1, row.tolerance]));
    match end {
        End::Tick => Some(Step::Tick { time: past? }),
        End::Own => Some(Step::Event { kind: *random.pick(&row.kinds), time: past? }),
        End::Other => Some(Step::Event { kind: STRANGER, time: past? }),
        End::CloseBroken => due.map(|_| Step::Close),
        End::CloseKept => due.is_none().then_some(Step::Close),
    }
}

/// Takes a step on both monitors, and compares all that they say of the row; at times it is withdrawn, and taken again.
fn both(random: &mut Random, monitor: &mut delkuthi::Monitor, model: &mut Monitor, step: Step) {
    for turn in 0..=u8::from(random.chance(10)) {
        if turn > 0 {
            assert_eq!((monitor.withdraw().map_err(|refusal| refusal.number()), model.withdraw()), (Ok(()), Ok(())));
            assert_eq!(verdict(monitor, 0), model.verdict(0), "{step} withdrawn, over {:?}", model.rows());
        }
        assert_eq!((take(monitor, step), model.step(step)), (Ok(()), Ok(())), "{step} over {:?}", model.rows());
        let told = || format!("{step} over {:?} after {:?}", model.rows(), model.recorded());
        assert_eq!(verdict(monitor, 0), model.verdict(0), "{}", told());
        let deadline = model.row_deadline(0);
        assert_eq!(monitor.row_deadline(0), (deadline != model::NO_LIMIT).then_some(deadline), "{}", told());
        assert_eq!(monitor.row_waiting(0), 0, "{}", told());
    }
}

/// Plays a list over a row up to an end; says whether more than 64 events lay in no full window at one time.
fn play(random: &mut Random, row: &Synchronization, end: End) -> bool {
    let rows = [row.clone().into()];
    let (mut monitor, mut model) = (fresh(&rows), Monitor::fresh(&rows).expect("an accepted row"));
    let mut many = false;
    let last = loop {
        let step = next_step(random, row, model.recorded());
        both(random, &mut monitor, &mut model, step);
        assert_eq!(model.verdict(0), Ok(Verdict::Open), "{step} over {row:?}");
        many |= row.in_no_full_window(model.recorded()).len() > 64;
        let found = last_step(random, row, model.recorded(), end).filter(|_| model.recorded().count() >= LONG);
        if let Some(last) = found {
            break last;
        }
    };
    both(random, &mut monitor, &mut model, last);
    let count = model.recorded().count();
    let expected = if end == End::CloseKept { Verdict::Kept } else { Verdict::Broken(count) };
    assert_eq!(verdict(&monitor, 0), Ok(expected), "{last} over {row:?}");
    if last != Step::Close {
        both(random, &mut monitor, &mut model, Step::Close);
    }
    many
}

#[test]
fn open_for_long_and_broken_in_every_way() {
    let mut random = Random::new(1107);
    let mut seen = BTreeSet::new();
    for tolerance in [0, 1, 2, 3, 5, 9, 40] {
        for n in 2..=4 {
            for end in ENDS {
                let row = row(&mut random, n, tolerance);
                play(&mut random, &row, end);
                seen.insert((tolerance, n, end));
            }
        }
    }
    assert_eq!(seen.len(), 7 * 3 * 5);
}

/// However many events lie in no full window, all are taken; one of the kind that is lacking keeps them all.
#[test]
fn many_in_no_full_window() {
    for n in 2..=4_u8 {
        let row = Synchronization { kinds: (0..n).collect(), tolerance: 1_000 };
        let rows = [row.clone().into()];
        for (last, kept) in [(Step::Event { kind: n - 1, time: 1_001 }, true), (Step::Tick { time: 1_002 }, false)] {
            let (mut monitor, mut model) = (fresh(&rows), Monitor::fresh(&rows).expect("an accepted row"));
            let mut random = Random::new(1108);
            for time in 1..=300 {
                both(
                    &mut random,
                    &mut monitor,
                    &mut model,
                    Step::Event { kind: (time % u64::from(n - 1)) as u8, time },
                );
            }
            assert_eq!(row.in_no_full_window(model.recorded()).len(), 300);
            both(&mut random, &mut monitor, &mut model, last);
            both(&mut random, &mut monitor, &mut model, Step::Close);
            assert_eq!(verdict(&monitor, 0), Ok(if kept { Verdict::Kept } else { Verdict::Broken(301) }));
        }
    }
}
