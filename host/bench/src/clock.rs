//! The processor time of a thread: other work on the machine does not count in it.

use std::time::Duration;

/// A time as Linux has it on a machine of 64 bits.
#[repr(C)]
struct Timespec {
    seconds: i64,
    nanoseconds: i64,
}

/// Linux's number for the clock of the calling thread's processor time.
const THREAD_TIME: i32 = 3;

unsafe extern "C" {
    fn clock_gettime(clock: i32, time: *mut Timespec) -> i32;
}

/// The processor time that this thread has used so far.
///
/// # Panics
/// If the system has no such clock.
pub fn thread_time() -> Duration {
    let mut time = Timespec { seconds: 0, nanoseconds: 0 };
    // SAFETY: the time is this function's own, and has the form that Linux fills in.
    let failed = unsafe { clock_gettime(THREAD_TIME, &mut time) };
    assert_eq!(failed, 0, "the system has a clock of the thread's processor time");
    Duration::new(time.seconds.unsigned_abs(), time.nanoseconds as u32)
}
