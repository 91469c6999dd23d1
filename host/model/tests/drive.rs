//! The drive of `examples/`: its table and recording are what is written down here, and its report and its page are the
//! stored ones. Times are microseconds. To write the files again after a change here: `DRIVE=write cargo test --test
//! drive`.

use std::fs;
use std::path::{Path, PathBuf};

use model::types::{
    Burst, Delay, ExecutionTime, Order, Reaction, Repeat, Repetition, Sporadic, StrongDelay, StrongSynchronization,
};
use model::{Constraint, Monitor, NO_LIMIT, Step, page_text, read_recording, report_text};

const MILLISECOND: u64 = 1_000;

const BRAKE_PEDAL: u8 = 0;
const BRAKE_LIGHT: u8 = 1;
const STEERING_REQUEST: u8 = 2;
const STEERING_REPLY: u8 = 3;
const WHEEL_SPEED: u8 = 4;
const CAMERA_FRAME: u8 = 5;
const DIAGNOSTIC: u8 = 6;
const BELT_SENSOR: u8 = 7;
const BELT_LOG: u8 = 8;
const INDICATOR_FRONT: u8 = 9;
const INDICATOR_REAR: u8 = 10;
const INDICATOR_MIRROR: u8 = 11;
const DOOR_OPEN: u8 = 12;
const CABIN_LIGHT: u8 = 13;
const TYRE_PRESSURE: u8 = 14;
const TASK_START: u8 = 15;
const TASK_STOP: u8 = 16;
const TASK_PREEMPT: u8 = 17;
const TASK_RESUME: u8 = 18;
const GATEWAY_REQUEST: u8 = 48;
const GATEWAY_REPLY: u8 = 49;

/// The rows, in the order of `examples/README.md`.
fn rows() -> Vec<Constraint> {
    let ms = MILLISECOND;
    vec![
        Constraint::Delay(Delay { source: BRAKE_PEDAL, target: BRAKE_LIGHT, lower: 0, upper: 50 * ms }),
        Constraint::StrongDelay(StrongDelay {
            source: STEERING_REQUEST,
            target: STEERING_REPLY,
            lower: ms,
            upper: 20 * ms,
        }),
        Constraint::Repeat(Repeat { event: WHEEL_SPEED, span: 1, lower: 9 * ms, upper: 11 * ms }),
        Constraint::Sporadic(Sporadic {
            event: CAMERA_FRAME,
            lower: 40 * ms,
            upper: 40 * ms,
            jitter: 3 * ms,
            minimum: 35 * ms,
        }),
        Constraint::Burst(Burst { event: DIAGNOSTIC, maximum: 3, length: 100 * ms, minimum: ms }),
        Constraint::Order(Order { source: BELT_SENSOR, target: BELT_LOG }),
        Constraint::StrongSynchronization(StrongSynchronization {
            kinds: vec![INDICATOR_FRONT, INDICATOR_REAR, INDICATOR_MIRROR],
            tolerance: 5 * ms,
        }),
        Constraint::Delay(Delay { source: DOOR_OPEN, target: CABIN_LIGHT, lower: 0, upper: 150 * ms }),
        Constraint::Repeat(Repeat { event: CAMERA_FRAME, span: 2, lower: 70 * ms, upper: NO_LIMIT }),
        Constraint::Repeat(Repeat { event: TYRE_PRESSURE, span: 1, lower: 24 * ms, upper: 26 * ms }),
        Constraint::ExecutionTime(ExecutionTime {
            start: TASK_START,
            stop: TASK_STOP,
            preempt: TASK_PREEMPT,
            resume: TASK_RESUME,
            lower: 2 * ms,
            upper: 6 * ms,
        }),
        Constraint::Repetition(Repetition {
            event: CAMERA_FRAME,
            span: 2,
            lower: 80 * ms,
            upper: 80 * ms,
            jitter: 3 * ms,
        }),
        Constraint::Reaction(Reaction {
            stimulus: GATEWAY_REQUEST,
            response: GATEWAY_REPLY,
            minimum: 3 * ms,
            maximum: 8 * ms,
        }),
    ]
}

/// The drive: 300 ms, recorded in the order of time, with a tick where the bench's clock ran on without an event.
fn drive() -> Vec<Step> {
    let mut events: Vec<(u64, u8)> = Vec::new();
    events.extend((0..30).map(|i| (10 * i * MILLISECOND + 40 * (i % 7), WHEEL_SPEED)));
    events.extend([0, 41_500, 80_000, 122_900, 160_000, 201_000, 240_000, 281_000].map(|t| (t, CAMERA_FRAME)));
    events.extend([(20_500, BRAKE_PEDAL), (31_200, BRAKE_LIGHT), (180_700, BRAKE_PEDAL), (230_700, BRAKE_LIGHT)]);
    events.extend([(15_100, STEERING_REQUEST), (22_300, STEERING_REPLY)]);
    events.extend([(95_100, STEERING_REQUEST), (118_300, STEERING_REPLY)]);
    events.extend([5_300, 7_300, 9_300, 105_400, 107_500].map(|t| (t, DIAGNOSTIC)));
    events.extend([(140_200, BELT_SENSOR), (140_200, BELT_LOG)]);
    events.extend([(60_000, INDICATOR_FRONT), (62_500, INDICATOR_MIRROR), (64_900, INDICATOR_REAR)]);
    events.extend([(90_000, INDICATOR_REAR), (90_000, INDICATOR_FRONT), (95_000, INDICATOR_MIRROR)]);
    events.push((70_100, DOOR_OPEN));
    events.extend((0..6).map(|i| (1_500 + 25 * i * MILLISECOND, TYRE_PRESSURE)));
    events.extend([(250_000, TASK_START), (254_500, TASK_PREEMPT), (262_100, TASK_RESUME), (263_600, TASK_STOP)]);
    let mut steps: Vec<Step> = events.into_iter().map(|(time, kind)| Step::Event { kind, time }).collect();
    steps.extend(gateway());
    steps.push(Step::Tick { time: 300 * MILLISECOND });
    steps.sort_by_key(time);
    steps
}

/// Requests to the gateway and its replies on two channels, which are the colours 1 and 2.
fn gateway() -> [Step; 5] {
    let on = |channel, time, kind| Step::Coloured { kind, colour: channel, time };
    [
        on(1, 241_000, GATEWAY_REQUEST),
        on(2, 247_000, GATEWAY_REQUEST),
        on(1, 249_000, GATEWAY_REPLY),
        on(2, 251_400, GATEWAY_REPLY),
        on(1, 266_300, GATEWAY_REPLY),
    ]
}

fn time(step: &Step) -> u64 {
    match step {
        Step::Event { time, .. } | Step::Coloured { time, .. } | Step::Tick { time } => *time,
        Step::Close => u64::MAX,
    }
}

fn examples(name: &str) -> PathBuf {
    Path::new(env!("CARGO_MANIFEST_DIR")).join("../../examples").join(name)
}

fn stored(name: &str, bytes: &[u8]) {
    if std::env::var_os("DRIVE").is_some() {
        fs::write(examples(name), bytes).expect("examples/ can be written");
    }
    assert_eq!(fs::read(examples(name)).expect("the file of examples/"), bytes, "{name}");
}

#[test]
fn the_stored_drive_is_this_one() {
    let table = model::table_bytes(&rows());
    let recording = model::recording_bytes(&drive());
    stored("table.bin", &table);
    stored("recording.bin", &recording);
    stored("report.txt", report_text(&table, &recording).as_bytes());
    let fresh = Monitor::fresh(&rows()).expect("an accepted table");
    let mut monitor = read_recording(fresh, &recording).expect("records that are all taken");
    monitor.close().expect("a recording not yet closed");
    stored("page.txt", page_text(&monitor).as_bytes());
}
