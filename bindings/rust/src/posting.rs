//! The day's posting for a book of cases (RULES 11).

use crate::{raw, Refusal, Row, Set};

/// The most cases of a book.
pub const CASES: usize = 64;

/// The bytes that a case has for its configuration.
pub const CONFIGURATION: usize = 16;

/// A case of a book, as the engine reads and writes it: its configuration is the first `length`
/// bytes of `config`.
#[repr(C)]
#[derive(Clone, Copy, PartialEq, Eq, Debug)]
pub struct Case {
    /// What refused days left for the next one.
    pub carried: Set,
    /// The number of its last row; 0 before the first.
    pub last_row: u32,
    /// The length of its configuration, which has to be the number of charts.
    pub length: u8,
    /// Its configuration, and bytes that no one reads.
    pub config: [u8; CONFIGURATION],
}

impl Case {
    /// A case without a row, at a configuration; none if that is longer than a case's can be.
    pub fn new(config: &[u8]) -> Option<Case> {
        let mut bytes = [0; CONFIGURATION];
        bytes.get_mut(..config.len())?.copy_from_slice(config);
        Some(Case {
            carried: Set::EMPTY,
            last_row: 0,
            length: config.len() as u8,
            config: bytes,
        })
    }

    /// Its configuration; none if the length is above the bytes that there are.
    pub fn configuration(&self) -> Option<&[u8]> {
        self.config.get(..usize::from(self.length))
    }
}

/// What arrived for a case on a day: the case's number in the book, from 0 on, and the signals.
#[repr(C)]
#[derive(Clone, Copy, PartialEq, Eq, Debug)]
pub struct Entry {
    pub number: u64,
    pub signals: Set,
}

/// Posts a day: makes one step for each case of a book, in case order, under its carried signals and
/// all its entries together. Writes one row for each case to the front of the buffer, and the new
/// configuration, carried set and row number to the case; [`posted_rows`] reads the rows. A step that
/// is refused (24 or 23) has a row as well. Refusals, which change nothing: 1 to 11; 20 or 21 of the first
/// case whose configuration is wrong; 60 to 63.
pub fn post(
    file: &[u8],
    cases: &mut [Case],
    entries: &[Entry],
    buffer: &mut [u8],
) -> Result<(), Refusal> {
    // SAFETY: the pointers are those of slices with these lengths, and cases and entries are laid out
    // as in C; what is written overlaps nothing else.
    Refusal::unless_zero(unsafe {
        raw::mestecur_post(
            file.as_ptr(),
            file.len(),
            cases.as_mut_ptr(),
            cases.len(),
            entries.as_ptr(),
            entries.len(),
            buffer.as_mut_ptr(),
            buffer.len(),
        )
    })
}

/// The bytes of a row's number (RULES 11.4).
const NUMBER_BYTES: usize = 4;

/// A case's row: its number, and a row as in a run.
#[derive(Clone, Copy, PartialEq, Eq, Debug)]
pub struct PostedRow<'a> {
    pub number: u32,
    pub row: Row<'a>,
}

/// How long a buffer must be for a day of so many cases, with a file of so many charts.
pub fn posted_bytes(cases: usize, charts: usize) -> usize {
    cases * posted_row_bytes(charts)
}

/// The rows in a buffer that a day of a file of so many charts wrote, by case; bytes that make no
/// whole row are left out.
pub fn posted_rows(buffer: &[u8], charts: usize) -> impl Iterator<Item = PostedRow<'_>> {
    buffer.chunks_exact(posted_row_bytes(charts)).map(|bytes| {
        let (number, row) = bytes.split_at(NUMBER_BYTES);
        let digits = number.iter().rev();
        PostedRow {
            number: digits.fold(0, |sum, &byte| sum << 8 | u32::from(byte)),
            row: crate::row::row(row),
        }
    })
}

/// The bytes of one posted row.
fn posted_row_bytes(charts: usize) -> usize {
    NUMBER_BYTES + crate::rows_bytes(1, charts)
}
