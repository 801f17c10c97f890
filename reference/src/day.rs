//! The day program (RULES 10).

use crate::check::{accept, refuse_if};
use crate::first::first_configuration;
use crate::limits::*;
use crate::model::Model;
use crate::run::{run_model, Row};
use crate::set::Set;

/// What the day program prints for an input; of a refused file one line only (RULES 10.2).
pub fn day(input: &[u8]) -> Vec<u8> {
    let text = match try_day(input) {
        Ok(text) => text,
        Err(number) => format!("file refused {number}\n"),
    };
    text.into_bytes()
}

/// Tests 31, then 1 to 11, then 30 (RULES 10.2). Makes a run from the first configuration, with
/// nothing carried, and prints a line for each input (RULES 10.1, 10.3).
fn try_day(input: &[u8]) -> Result<String, u8> {
    refuse_if(input.len() > DAY_INPUT, refusal::DAY_INPUT)?;
    let model = accept(input)?;
    let front = front(input, &model);
    let odd = front.chunks_exact(SET_BYTES).remainder();
    refuse_if(!odd.is_empty(), refusal::DAY_FRONT)?;
    let first = first_configuration(&model);
    let (rows, _) = run_model(&model, &first, Set::EMPTY, &inputs(front));
    let lines = rows.iter().zip(1..).map(|(row, number)| line(number, row));
    Ok(lines.collect())
}

/// The bytes before the body: the inputs (RULES 10.1).
fn front<'a>(input: &'a [u8], model: &Model) -> &'a [u8] {
    &input[..input.len() - model.file().len()]
}

/// The inputs in the front, 8 bytes each, little-endian (RULES 1.2).
fn inputs(front: &[u8]) -> Vec<Set> {
    front
        .chunks_exact(SET_BYTES)
        .map(|bytes| Set(u64::from_le_bytes(bytes.try_into().unwrap())))
        .collect()
}

/// The line of a row: its number, output, states and mark; or its number and the refusal
/// (RULES 10.3).
pub fn line(number: usize, row: &Row) -> String {
    if row.refusal != refusal::SUCCESS {
        return format!("{number} refused {}\n", row.refusal);
    }
    let states: Vec<String> = row.configuration.iter().map(u8::to_string).collect();
    let mark = if row.mark { "y" } else { "n" };
    format!(
        "{number} {} {} {mark}\n",
        row.output.hex(),
        states.join(".")
    )
}
