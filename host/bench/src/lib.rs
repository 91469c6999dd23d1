//! What the benchmark measures, and a plain Rust monitor to measure it beside.

mod clock;
pub mod count;
mod drive;
pub mod line;
pub mod load;
pub mod measure;
pub mod plain;
