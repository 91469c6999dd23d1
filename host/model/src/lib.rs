//! The contract's definitions in plain Rust, written from its words (`docs/CONTRACT.md`): a model for the proved monitor
//! to be executed beside. It keeps the list of accepted steps and works every answer out from that list, the slow and obvious way.
//!
//! ```
//! use model::types::Delay;
//! use model::{Constraint, Monitor, Verdict};
//!
//! // Example 2: Delay 0→1, 2 to 3.
//! let row = Constraint::from(Delay { source: 0, target: 1, lower: 2, upper: 3 });
//! let mut monitor = Monitor::fresh(&[row])?;
//! monitor.event(0, 10)?;
//! monitor.tick(13)?;
//! assert_eq!(monitor.verdict(0), Ok(Verdict::Open));
//! monitor.tick(14)?;
//! assert_eq!(monitor.verdict(0), Ok(Verdict::Broken(3)));
//! # Ok::<(), u8>(())
//! ```

pub mod beside;
pub mod continuation;
pub mod contract;
pub mod examples;
pub mod hidden_points;
pub mod join;
pub mod limits;
pub mod meets;
pub mod monitor;
pub mod notation;
pub mod open;
pub mod page;
pub mod questions;
pub mod random;
pub mod recording;
pub mod report;
pub mod search;
pub mod stamps;
pub mod status;
pub mod steps;
pub mod stretches;
pub mod table;
pub mod types;

pub use limits::{
    EARLIER_LAST_TIME, FIRST_COLOURED, LAST_COLOUR, LAST_COUNT, LAST_KIND, LAST_TIME, NEWEST_EDITION, NO_LIMIT,
    REPETITION_SPAN_LIMIT, ROW_LIMIT, SPAN_LIMIT, STREAMS, WAITING_LIMIT,
};
pub use meets::meets;
pub use monitor::{Monitor, Verdict};
pub use open::open;
pub use page::{page_of, page_text};
pub use questions::{Answer, Refusal};
pub use recording::{read_recording, recording_bytes};
pub use report::{program_output, program_output_up_to, report, report_of, report_text, report_text_up_to};
pub use stamps::{Stamped, Stamps, stamped, stamped_up_to};
pub use status::Cause;
pub use steps::{Events, History, Step};
pub use stretches::{RECORD_LIMIT, Stretch, first_breaking, shortest_stretch, shortest_stretch_up_to};
pub use table::{
    add_row, edition_of, read_table, read_table_up_to, refused_row, refused_row_in, refused_short_in, row_back,
    short_body, table_bytes, table_bytes_in, table_row, write_short_in, write_table, write_table_in,
};
pub use types::{Constraint, TYPES, types_in};
