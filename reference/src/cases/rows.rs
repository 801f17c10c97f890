//! The thirteen charts of docs/EXAMPLES.md, section 2, with their seventeen answers.

use super::charts::*;
use super::Case;
use crate::command::Command;
use crate::limits::refusal;
use crate::model::Model;
use crate::set::Set;

/// What a row says: the next configuration, the output and the mark, or refusal 23.
pub type Result = Option<(Vec<u8>, Set, bool)>;

/// One answer of a row.
pub struct RowAnswer {
    pub name: &'static str,
    pub model: Model,
    pub configuration: Vec<u8>,
    pub input: Set,
    pub result: Result,
}

impl RowAnswer {
    /// The call under a name, with a buffer so many bytes longer than needed.
    pub fn case(&self, name: &str, spare: usize) -> Case {
        let number = match self.result {
            Some(_) => refusal::SUCCESS,
            None => refusal::NO_STEP,
        };
        let (file, at) = (self.model.file(), &self.configuration);
        let command = Command::step(name, file, at, self.input, at.len() + spare);
        Case::new(command, number)
    }
}

/// An answer, by hand.
pub fn row(
    name: &'static str,
    model: Model,
    at: &[u8],
    input: &[u32],
    result: Result,
) -> RowAnswer {
    RowAnswer {
        name,
        model,
        configuration: at.to_vec(),
        input: Set::of(input),
        result,
    }
}

/// An answer of a step that is given.
pub fn gives(next: &[u8], output: &[u32], mark: bool) -> Result {
    Some((next.to_vec(), Set::of(output), mark))
}

/// The seventeen answers, from the configuration of zeros unless one is given.
pub fn rows() -> Vec<RowAnswer> {
    let (yes, no) = (true, false);
    vec![
        row("L1", l1(), &[0], &[], gives(&[1], &[0], yes)),
        row("L2-none", l2(), &[0], &[], None),
        row("L2-0", l2(), &[0], &[0], None),
        row("L3", l3(), &[0], &[], None),
        row("P1", p1(), &[0, 0], &[0], gives(&[1, 1], &[1, 2], yes)),
        row("P2", p2(), &[0, 0], &[0], None),
        row("P3-0", p3(), &[0, 0], &[0], gives(&[1, 1], &[2], yes)),
        row("P3-1", p3(), &[0, 0], &[1], None),
        row("P4", p4(), &[0, 0], &[], gives(&[1, 1], &[0, 1], yes)),
        row("N1", n1(), &[0], &[], gives(&[0], &[1], no)),
        row("N2", n2(), &[0], &[], gives(&[1], &[1], yes)),
        row("D1-0", d(), &[0, 0], &[0], gives(&[1, 1], &[1, 2], yes)),
        row(
            "D1-0-9",
            d(),
            &[0, 0],
            &[0, 9],
            gives(&[1, 1], &[1, 2], yes),
        ),
        row("D2", d(), &[0, 0], &[], gives(&[0, 0], &[], yes)),
        row("D3", d(), &[1, 1], &[3], gives(&[0, 1], &[4], yes)),
        row("D4-0", d(), &[0, 1], &[0], None),
        row(
            "D4-0-3",
            d(),
            &[0, 1],
            &[0, 3],
            gives(&[1, 1], &[1, 4], yes),
        ),
    ]
}

/// The seventeen answers as named calls, each with a buffer two bytes longer than needed.
pub fn cases() -> Vec<Case> {
    let case = |row: RowAnswer| row.case(&format!("row-{}", row.name), 2);
    rows().into_iter().map(case).collect()
}
