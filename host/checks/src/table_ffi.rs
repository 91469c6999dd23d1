//! The proved table reader, and reader and writer together, through `libtable_ffi.a`.

use model::Refusal;

unsafe extern "C" {
    fn table_read(newest: u8, bytes: *const u8, bytes_length: usize) -> u64;
    fn table_rewrite(newest: u8, bytes: *const u8, bytes_length: usize, buffer: *mut u8, buffer_length: usize) -> u64;
}

/// What an answer says: a number, or above 2^32 a refusal's number and place.
fn answer(answer: u64) -> Result<usize, Refusal> {
    match ((answer >> 32) as u8, (answer & u64::from(u32::MAX)) as usize) {
        (0, number) => Ok(number),
        (number, place) => Err(Refusal { number, place }),
    }
}

/// Reads a table of an edition up to the newest; gives the number of its rows.
///
/// # Errors
/// The reader's refusal.
pub fn read_up_to(newest: u8, bytes: &[u8]) -> Result<usize, Refusal> {
    // SAFETY: pointer and length are a slice's.
    answer(unsafe { table_read(newest, bytes.as_ptr(), bytes.len()) })
}

/// Reads a table of the first edition.
///
/// # Errors
/// The reader's refusal.
pub fn read(bytes: &[u8]) -> Result<usize, Refusal> {
    read_up_to(1, bytes)
}

/// Reads a table of an edition up to the newest and writes its rows in that edition to the buffer; gives the number of bytes written.
///
/// # Errors
/// The reader's or the writer's refusal.
pub fn rewrite_up_to(newest: u8, bytes: &[u8], buffer: &mut [u8]) -> Result<usize, Refusal> {
    // SAFETY: pointers and lengths are slices', the buffer's memory its own.
    answer(unsafe { table_rewrite(newest, bytes.as_ptr(), bytes.len(), buffer.as_mut_ptr(), buffer.len()) })
}

/// Reads a table of the first edition and writes its rows to the buffer.
///
/// # Errors
/// The reader's or the writer's refusal.
pub fn rewrite(bytes: &[u8], buffer: &mut [u8]) -> Result<usize, Refusal> {
    rewrite_up_to(1, bytes, buffer)
}
