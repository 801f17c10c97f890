//! The rows of a run.

use crate::{Refusal, Set};

/// The bytes of a row before its configuration: output (8), mark (1), refusal (1) (RULES 6.3).
const HEAD_BYTES: usize = 10;

/// What a row has of a step that was given: the output, and whether all permitted choices have the
/// same output and the same next configuration. Rows have no places.
#[derive(Clone, Copy, PartialEq, Eq, Debug)]
pub struct Given {
    pub output: Set,
    pub mark: bool,
}

/// One row of a run: the step's answer, and the configuration after it.
#[derive(Clone, Copy, PartialEq, Eq, Debug)]
pub struct Row<'a> {
    pub answer: Result<Given, Refusal>,
    pub config: &'a [u8],
}

/// How long a buffer must be for a run of so many inputs through so many charts.
pub fn rows_bytes(inputs: usize, charts: usize) -> usize {
    inputs * (HEAD_BYTES + charts)
}

/// The rows in a buffer that a run of so many charts wrote; bytes that make no whole row are left out.
pub fn rows(buffer: &[u8], charts: usize) -> impl Iterator<Item = Row<'_>> {
    buffer.chunks_exact(HEAD_BYTES + charts).map(row)
}

/// One row from its bytes.
pub(crate) fn row(bytes: &[u8]) -> Row<'_> {
    let (head, config) = bytes.split_at(HEAD_BYTES);
    let output = head[..8].iter().rev();
    let given = Given {
        output: Set(output.fold(0, |set, &byte| set << 8 | u64::from(byte))),
        mark: head[8] == 1,
    };
    let answer = Refusal::of(head[9]).map_or(Ok(given), Err);
    Row { answer, config }
}
