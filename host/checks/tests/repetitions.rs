//! Long lists of events over a Repetition of every span, beside the model: it stays open beyond the second span, and
//! breaks there, in every way there is.
//! Clauses: §5.10.

use checks::beside::{fresh, take, verdict};
use model::random::Random;
use model::random::repetitions::{SeenOutcomes, next_step, outcome, row};
use model::types::Repetition;
use model::{Monitor, REPETITION_SPAN_LIMIT, Step, Verdict};

/// Plays a list until the row is broken, or this many steps and the close. Counts what became of the row.
fn play(random: &mut Random, row: &Repetition, span: u8, seen: &mut SeenOutcomes) {
    // from event span + 1 on, or not at all
    let (steps, wrong_at) = (5 * u64::from(span) + 12, usize::from(span) + random.place(5 * usize::from(span) + 12));
    let rows = [row.clone().into()];
    let (mut monitor, mut model) = (fresh(&rows), Monitor::fresh(&rows).expect("an accepted row"));
    while model.recorded().count() < steps {
        let step = next_step(random, row, model.recorded(), wrong_at);
        assert_eq!((take(&mut monitor, step), model.step(step)), (Ok(()), Ok(())), "{step} of {row:?}");
        assert_eq!(verdict(&monitor, 0), model.verdict(0), "{row:?} after {:?}", model.recorded());
        if let Ok(Verdict::Broken(_)) = model.verdict(0) {
            break;
        }
    }
    if let Some(outcome) = outcome(row, model.recorded()) {
        seen.outcome(span, outcome);
    }
    assert_eq!((take(&mut monitor, Step::Close), model.step(Step::Close)), (Ok(()), Ok(())));
    assert_eq!(verdict(&monitor, 0), model.verdict(0), "{row:?} after {:?}", model.recorded());
}

#[test]
fn open_and_broken_beyond_the_second_span() {
    let mut random = Random::new(1001);
    let mut seen = SeenOutcomes::default();
    for span in 1..=REPETITION_SPAN_LIMIT {
        for _ in 0..1_000 {
            let row = row(&mut random, span);
            play(&mut random, &row, span, &mut seen);
        }
    }
    seen.demand_all();
}
