//! The functions of `libdelkuthi.a`, as `include/delkuthi.h` declares them: those that take tables of both editions.
//!
//! They follow Rust's rules for references: a monitor is passed by reference, bytes are read and written only up to their
//! length, and no pointer is kept. So the calls are safe if the references are.

use crate::monitor::Monitor;

/// Functions that take only numbers and references, so that every call of them is safe.
macro_rules! safe {
    ($(fn $name:ident($($argument:ident: $kind:ty),*) -> $answer:ty;)*) => {
        mod symbols {
            use super::Monitor;

            extern "C" {
                $(pub fn $name($($argument: $kind),*) -> $answer;)*
            }
        }

        $(
            #[inline]
            pub fn $name($($argument: $kind),*) -> $answer {
                // SAFETY: each pointer is a reference, and the function is proved to touch nothing else.
                unsafe { symbols::$name($($argument),*) }
            }
        )*
    };
}

safe! {
    fn delkuthi_version() -> u32;
    fn delkuthi_monitor_size() -> u64;
    fn delkuthi_event(monitor: &mut Monitor, kind: u8, time: u64) -> u8;
    fn delkuthi_coloured_event(monitor: &mut Monitor, kind: u8, colour: u8, time: u64) -> u8;
    fn delkuthi_tick(monitor: &mut Monitor, time: u64) -> u8;
    fn delkuthi_close(monitor: &mut Monitor) -> u8;
    fn delkuthi_withdraw(monitor: &mut Monitor) -> u8;
    fn delkuthi_withdraw_step(monitor: &mut Monitor, step: u64) -> u8;
    fn delkuthi_row_verdict(monitor: &Monitor, row: u64) -> u8;
    fn delkuthi_row_step(monitor: &Monitor, row: u64) -> u64;
    fn delkuthi_row_cause(monitor: &Monitor, row: u64) -> u8;
    fn delkuthi_row_moment(monitor: &Monitor, row: u64) -> u64;
    fn delkuthi_rows(monitor: &Monitor) -> u64;
    fn delkuthi_clock(monitor: &Monitor) -> u64;
    fn delkuthi_steps(monitor: &Monitor) -> u64;
    fn delkuthi_closed(monitor: &Monitor) -> u8;
    fn delkuthi_broken_rows(monitor: &Monitor) -> u32;
    fn delkuthi_row_waiting(monitor: &Monitor, row: u64) -> u64;
    fn delkuthi_row_oldest(monitor: &Monitor, row: u64) -> u64;
    fn delkuthi_row_oldest_stream(monitor: &Monitor, row: u64) -> u8;
    fn delkuthi_crowded_row(monitor: &Monitor, kind: u8, time: u64) -> u8;
    fn delkuthi_row_deadline(monitor: &Monitor, row: u64) -> u64;
    fn delkuthi_deadline(monitor: &Monitor) -> u64;
}

extern "C" {
    pub fn delkuthi_fresh_2(monitor: &mut Monitor, table: *const u8, table_length: usize) -> u64;
    pub fn delkuthi_take(monitor: &mut Monitor, recording: *const u8, recording_length: usize) -> u64;
    pub fn delkuthi_put_event(buffer: *mut u8, buffer_length: usize, size: usize, kind: u8, time: u64) -> u64;
    pub fn delkuthi_put_coloured_event(
        buffer: *mut u8,
        buffer_length: usize,
        size: usize,
        kind: u8,
        colour: u8,
        time: u64,
    ) -> u64;
    pub fn delkuthi_put_tick(buffer: *mut u8, buffer_length: usize, size: usize, time: u64) -> u64;
    pub fn delkuthi_table(rows: *const u8, rows_size: usize, table: *mut u8, table_length: usize) -> u64;
    pub fn delkuthi_table_2(rows: *const u8, rows_size: usize, table: *mut u8, table_length: usize) -> u64;
    pub fn delkuthi_add_row(
        table: *mut u8,
        table_length: usize,
        length: usize,
        body: *const u8,
        body_length: usize,
    ) -> u64;
    pub fn delkuthi_table_row(
        table: *const u8,
        table_length: usize,
        row: u64,
        body: *mut u8,
        body_length: usize,
    ) -> u64;
    pub fn delkuthi_monitor_row(monitor: &Monitor, row: u64, body: *mut u8, body_length: usize) -> u64;
    pub fn delkuthi_page(monitor: &Monitor, page: *mut u8, page_length: usize) -> usize;
    pub fn delkuthi_report_of(monitor: &Monitor, report: *mut u8, report_length: usize) -> usize;
    pub fn delkuthi_report_2(
        table: *const u8,
        table_length: usize,
        recording: *const u8,
        recording_length: usize,
        report: *mut u8,
        report_length: usize,
    ) -> usize;
    pub fn delkuthi_report_on_2(
        monitor: &mut Monitor,
        table: *const u8,
        table_length: usize,
        recording: *const u8,
        recording_length: usize,
        report: *mut u8,
        report_length: usize,
    ) -> usize;
    pub fn delkuthi_stamps_2(
        table: *const u8,
        table_length: usize,
        recording: *const u8,
        recording_length: usize,
        row: u64,
        late: u64,
    ) -> u64;
    pub fn delkuthi_join(
        first: *const u8,
        first_length: usize,
        second: *const u8,
        second_length: usize,
        joined: *mut u8,
        joined_length: usize,
    ) -> u64;
    pub fn delkuthi_shortest_stretch_2(
        table: *const u8,
        table_length: usize,
        recording: *const u8,
        recording_length: usize,
        row: u64,
    ) -> u64;
}
