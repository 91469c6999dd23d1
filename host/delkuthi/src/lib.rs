//! The proved monitor for TADL2 timing constraints, for Rust: a safe wrapper of `libdelkuthi.a`.
//!
//! A [`Monitor`] takes a table of timing constraints and the stamped events of a bench. For each row it says, while the
//! recording runs, whether the row is open, kept, or broken, and which step broke it. [`report`] judges a whole recording
//! at once. `include/delkuthi.h` is the manual: it has the bytes of a table and what is promised.
//!
//! ```
//! use delkuthi::{Monitor, Row, TABLE_LIMIT, Verdict, write_table};
//!
//! let rows = [Row::Delay { source: 0, target: 1, lower: 2, upper: 3 }];
//! let mut table = [0; TABLE_LIMIT];
//! let length = write_table(&rows, &mut table)?;
//! let mut monitor = Monitor::fresh(&table[..length])?;
//! monitor.event(0, 10)?;
//! monitor.tick(13)?;
//! assert_eq!(monitor.verdict(0), Ok(Verdict::Open));
//! monitor.tick(14)?;
//! assert_eq!(monitor.verdict(0), Ok(Verdict::Broken(3)));
//! # Ok::<(), delkuthi::Refusal>(())
//! ```
//!
//! The wrapper needs no heap and no other crate. Its feature `std` implements `std::error::Error` for the refusals; without
//! it the wrapper needs no operating system. It needs Rust 1.63 or newer.
//!
//! # Late events, and a full row
//!
//! A tick to t, or an event at t, says that every event stamped before t has been given: tick only as far as your slowest
//! source allows. The example `bench_loop` has such a lag. An event that is refused with 12 is lost to every row: do not
//! count such a recording as passed. The manual says more under LATE EVENTS and WHAT TO DO AFTER A 12.
//!
//! # The stack
//!
//! The library's calls behind [`Monitor::fresh`], [`Monitor::event`], [`Monitor::tick`], [`Monitor::close`],
//! [`Monitor::withdraw`] and [`Monitor::verdict`] use at most 1 KiB of stack each, a page at most 2 KiB, [`Monitor::take`] at most 3 KiB,
//! [`Monitor::report`] and [`Monitor::report_on`] at most 11 KiB, [`write_table`] at most 12 KiB, [`join`] at most 16 KiB,
//! [`stamped`] at most 20 KiB, [`shortest_stretch`] at most 32 KiB, and [`report`], which has its monitor on the stack, at
//! most 50 KiB. These are the limits of `include/delkuthi.h` (such as `DELKUTHI_STEP_STACK`). Tests measure the calls and
//! compare them with the limits.
//!
//! # Where the archive comes from
//!
//! The build links `libdelkuthi.a` from the folder that the environment variable `DELKUTHI_LIB` names, for example
//! `DELKUTHI_LIB=/usr/local/lib cargo build` after `make install`. Then it needs no proof tool. Without that variable the
//! build proves and builds the archive from the crates of the repository, which needs `rt` of the Rattle kit in the
//! `PATH`. If there is neither, the build ends and says so.

#![no_std]
#![warn(missing_docs)]

#[cfg(feature = "std")]
extern crate std;

mod ffi;
mod join;
mod monitor;
mod page;
mod refusal;
mod report;
mod stamps;
mod stretches;
mod table;
mod version;
mod writer;

pub use join::{Input, JoinRefusal, join};
pub use monitor::{Cause, Monitor, Verdict, WORDS};
pub use page::PAGE_LIMIT;
pub use refusal::{Refusal, refusal_text};
pub use report::{REPORT_LIMIT, report};
pub use stamps::{Stamped, stamped};
pub use stretches::{RECORD_LIMIT, Stretch, shortest_stretch};
pub use table::{LONGEST_ROW, NEWEST_EDITION, NO_LIMIT, Row, TABLE_LIMIT, add_row, table_row, type_text, write_table};
pub use version::{VERSION, library_version, matches};
pub use writer::Recording;

/// The largest kind of event.
pub const LAST_KIND: u8 = 63;
/// The first coloured kind: events of the kinds from here on have a colour.
pub const FIRST_COLOURED: u8 = 48;
/// The largest colour.
pub const LAST_COLOUR: u8 = 7;
/// The largest time, 2^60 − 1.
pub const LAST_TIME: u64 = (1 << 60) - 1;
/// The largest count of steps, 2^64 − 1: a step or close beyond it is refused with 24.
pub const LAST_COUNT: u64 = u64::MAX;
/// How many rows a table has at most.
pub const ROW_LIMIT: usize = 32;
/// How many a row keeps waiting at most.
pub const WAITING_LIMIT: usize = 64;
