//! What the tests share.

pub mod beside;
pub mod documents;
pub mod editions;
pub mod hosts;
pub mod pages;
pub mod places;
pub mod portable;
pub mod program;
pub mod refusals;
pub mod release;
pub mod reports;
pub mod rows;
pub mod sources;
#[cfg(table_ffi)]
pub mod table_ffi;
pub mod words;

pub use model::contract;
