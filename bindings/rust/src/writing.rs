//! What is made of a file and written to a buffer: another file, or its text (RULES 15).

use crate::{raw, Refusal};

/// A call of the engine that takes a file and a buffer, and gives the length of what it writes.
type Make = unsafe extern "C" fn(*const u8, usize, *mut u8, usize, *mut usize) -> u8;

/// Makes what such a call makes of a file, at the front of the buffer: its length.
pub(crate) fn made(call: Make, file: &[u8], buffer: &mut [u8]) -> Result<usize, Refusal> {
    let mut length = 0;
    // SAFETY: the call is one of the engine's; the pointers are those of slices with these lengths and of a
    // number of our own; the slice written overlaps nothing else.
    Refusal::unless_zero(unsafe {
        call(
            file.as_ptr(),
            file.len(),
            buffer.as_mut_ptr(),
            buffer.len(),
            &mut length,
        )
    })?;
    Ok(length)
}

/// A buffer of this length is enough for the text of any file (RULES 15.3).
pub const TEXT_BYTES: usize = 874_514;

/// Writes the file as typed text to the front of the buffer, and returns its length (RULES 15). [`read`]
/// gives a file that makes the same steps. A buffer of [`TEXT_BYTES`] is always enough. Files of edition 2
/// and files that are more than sixteen deep can't be written. Refusals 1 to 11, 46, 51, 45.
///
/// [`read`]: crate::read
pub fn write(file: &[u8], buffer: &mut [u8]) -> Result<usize, Refusal> {
    made(raw::mestecur_write, file, buffer)
}

/// The same text as a string of its own. Refusals 1 to 11, 46, 51.
pub fn text(file: &[u8]) -> Result<String, Refusal> {
    let mut buffer = vec![0; TEXT_BYTES];
    let length = write(file, &mut buffer)?;
    Ok(String::from_utf8_lossy(&buffer[..length]).into_owned())
}
