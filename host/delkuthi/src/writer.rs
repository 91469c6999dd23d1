//! Recordings written record by record.

use crate::ffi;
use crate::refusal::Refusal;

/// A recording in a buffer, which grows by one record with each call. It is of version 2, which has colours.
///
/// ```
/// let mut buffer = [0; 64];
/// let mut recording = delkuthi::Recording::new(&mut buffer);
/// recording.event(0, 10)?;
/// recording.tick(14)?;
/// assert_eq!(recording.bytes().len(), 22);
/// assert_eq!(recording.event(64, 15).map_err(|refusal| refusal.number()), Err(9));
/// # Ok::<(), delkuthi::Refusal>(())
/// ```
#[derive(Debug)]
pub struct Recording<'a> {
    buffer: &'a mut [u8],
    size: usize,
}

impl<'a> Recording<'a> {
    /// A recording of no bytes. The first record begins it.
    pub fn new(buffer: &'a mut [u8]) -> Recording<'a> {
        Recording { buffer, size: 0 }
    }

    /// Goes on with a recording that is the first `size` bytes of a buffer.
    pub fn continued(buffer: &'a mut [u8], size: usize) -> Recording<'a> {
        Recording { buffer, size }
    }

    /// The recording so far. Before the first record there are no bytes.
    pub fn bytes(&self) -> &[u8] {
        &self.buffer[..self.size.min(self.buffer.len())]
    }

    /// Writes an event of a plain kind, 0 to 47. A refusal leaves the buffer as it was.
    ///
    /// # Errors
    /// 13 the version of the recording, 9 the kind, 19 a coloured kind, 10 the time, 16 the buffer is too short.
    pub fn event(&mut self, kind: u8, time: u64) -> Result<(), Refusal> {
        // SAFETY: pointer and length are a slice's.
        let answer =
            unsafe { ffi::delkuthi_put_event(self.buffer.as_mut_ptr(), self.buffer.len(), self.size, kind, time) };
        self.grown(answer)
    }

    /// Writes an event of a coloured kind, 48 to 63, with a colour from 0 to 7. A refusal leaves the buffer as it was.
    ///
    /// # Errors
    /// 13 the version of the recording, 9 the kind, 19 a plain kind or no colour, 10 the time, 16 the buffer is too short.
    pub fn coloured_event(&mut self, kind: u8, colour: u8, time: u64) -> Result<(), Refusal> {
        let (buffer, length) = (self.buffer.as_mut_ptr(), self.buffer.len());
        // SAFETY: pointer and length are a slice's.
        let answer = unsafe { ffi::delkuthi_put_coloured_event(buffer, length, self.size, kind, colour, time) };
        self.grown(answer)
    }

    /// Writes a tick. A refusal leaves the buffer as it was.
    ///
    /// # Errors
    /// 13 the version of the recording, 10 the time, 16 the buffer is too short.
    pub fn tick(&mut self, time: u64) -> Result<(), Refusal> {
        // SAFETY: pointer and length are a slice's.
        let answer = unsafe { ffi::delkuthi_put_tick(self.buffer.as_mut_ptr(), self.buffer.len(), self.size, time) };
        self.grown(answer)
    }

    fn grown(&mut self, answer: u64) -> Result<(), Refusal> {
        Refusal::of_step((answer % 256) as u8)?;
        self.size = (answer / 256) as usize;
        Ok(())
    }
}
