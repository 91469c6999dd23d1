//! Joins two recordings.

use crate::ffi;
use crate::refusal::Refusal;
use core::fmt;

/// One of the two recordings that are joined.
#[derive(Clone, Copy, Debug, PartialEq, Eq, Hash)]
pub enum Input {
    /// The first.
    First,
    /// The second.
    Second,
}

/// A join that was refused. The buffer stays as it was.
#[derive(Clone, Copy, Debug, PartialEq, Eq, Hash)]
pub struct JoinRefusal {
    input: Option<Input>,
    refusal: Refusal,
}

impl JoinRefusal {
    /// The recording that is refused; none if the buffer is too short.
    pub fn input(&self) -> Option<Input> {
        self.input
    }

    /// The refusal: its number, and the place of the length field concerned in the recording.
    pub fn refusal(&self) -> Refusal {
        self.refusal
    }

    /// What the call's answer says.
    fn of_answer(answer: u64) -> Result<usize, JoinRefusal> {
        let second = answer & 128 != 0;
        let number = answer & 127;
        match Refusal::of_bytes((answer & !255) | number) {
            Ok(()) => Ok((answer / 256) as usize),
            Err(refusal) if number == 16 => Err(JoinRefusal { input: None, refusal }),
            Err(refusal) => {
                Err(JoinRefusal { input: Some(if second { Input::Second } else { Input::First }), refusal })
            }
        }
    }
}

impl fmt::Display for JoinRefusal {
    fn fmt(&self, f: &mut fmt::Formatter) -> fmt::Result {
        match self.input {
            Some(Input::First) => write!(f, "the first recording is {}", self.refusal),
            Some(Input::Second) => write!(f, "the second recording is {}", self.refusal),
            None => write!(f, "{}", self.refusal),
        }
    }
}

#[cfg(feature = "std")]
impl std::error::Error for JoinRefusal {}

/// Joins two recordings that have no kind in common, at the front of a buffer, and returns the number of bytes. The records
/// are in the order of time; at equal times those of the first recording come first. A tick that is not later than the
/// joined clock is dropped. Bytes behind the joined recording stay as they were. It is at least one byte shorter than both
/// recordings together.
///
/// ```
/// use delkuthi::join;
///
/// let bus = [1, 0, 9, 0, 0, 0, 0, 0, 0, 0, 0, 10, 0, 8, 0, 0, 0, 0, 0, 0, 0, 20];
/// let button = [1, 0, 9, 1, 0, 0, 0, 0, 0, 0, 0, 12];
/// let mut joined = [0; 64];
/// let length = join(&bus, &button, &mut joined)?;
/// assert_eq!(length, bus.len() + button.len() - 1);
/// assert_eq!(joined[12..23], button[1..]);
/// # Ok::<(), delkuthi::JoinRefusal>(())
/// ```
///
/// # Errors
/// The refusal of a record of the first recording or of its step (never 12), then of the second, with its place; then 20
/// at the second recording's first record of a kind that both have; last 16 if the buffer is too short.
pub fn join(first: &[u8], second: &[u8], joined: &mut [u8]) -> Result<usize, JoinRefusal> {
    // SAFETY: the pointers and lengths are slices', and the buffer is lent alone.
    let answer = unsafe {
        ffi::delkuthi_join(
            first.as_ptr(),
            first.len(),
            second.as_ptr(),
            second.len(),
            joined.as_mut_ptr(),
            joined.len(),
        )
    };
    JoinRefusal::of_answer(answer)
}
