//! Charts from typed text (RULES 14).

use crate::{raw, Refusal};
use std::error::Error;
use std::fmt::{self, Display, Formatter};

/// A text that was refused: why, and with 50 the place of the first byte that no text could have there,
/// which is the text's length if it only breaks off. With every other refusal the place is 0. It prints
/// as the refusal does, and in 50 with the place.
#[derive(Clone, Copy, PartialEq, Eq, Debug)]
pub struct RefusedText {
    pub refusal: Refusal,
    pub place: usize,
}

impl RefusedText {
    /// The number of the refusal that has a place: the text is not of the notation.
    pub const NOTATION: u8 = 50;

    /// The refusal's number.
    pub fn number(self) -> u8 {
        self.refusal.number()
    }
}

impl Display for RefusedText {
    fn fmt(&self, out: &mut Formatter) -> fmt::Result {
        match self.number() {
            RefusedText::NOTATION => write!(out, "{}, from byte {} on", self.refusal, self.place),
            _ => self.refusal.fmt(out),
        }
    }
}

impl Error for RefusedText {}

/// The refusal alone, as other calls give it.
impl From<RefusedText> for Refusal {
    fn from(refused: RefusedText) -> Refusal {
        refused.refusal
    }
}

/// A buffer of this length is enough for the file of any text (RULES 14.5).
pub const FILE_BYTES: usize = 30_408;

/// Reads a chart that is typed as text, and writes the file that it means to the front of the buffer;
/// gives its length. A buffer of [`FILE_BYTES`] is always enough. Refusals 50, 51, 52, 1 to 11, 45.
pub fn read(text: &[u8], buffer: &mut [u8]) -> Result<usize, RefusedText> {
    let (mut length, mut place) = (0, 0);
    // SAFETY: the pointers are those of slices with these lengths and of two numbers of our own, and
    // the slices do not overlap.
    let number = unsafe {
        raw::mestecur_read(
            text.as_ptr(),
            text.len(),
            buffer.as_mut_ptr(),
            buffer.len(),
            &mut length,
            &mut place,
        )
    };
    match Refusal::of(number) {
        None => Ok(length),
        Some(refusal) => Err(RefusedText { refusal, place }),
    }
}
