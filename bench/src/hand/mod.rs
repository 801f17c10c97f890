//! The engine's own algorithm, written by hand in plain Rust, to know what the proved one costs: check,
//! fold the tree into masks, count the open choices, leave out of actions what nobody reads if many choices
//! are open, filter the candidates and skip equal ones and those that begin no open choice, settle charts in
//! order with what each is surely offered and could be and what the settled ones ask of the next one's
//! action, stop where two permitted choices disagree. Under edition 2 a chart may also stay, last of all, as
//! long as none of the transitions from its state is surely triggered.

mod check;
mod layout;
mod open;
mod rewriting;
mod search;
mod wire;

pub use rewriting::rewrite;
pub use search::{NO_PLACE, STAYED};

use check::opened;
use layout::{Body, CHARTS};
use search::{found, Found, Refused};
use wire::wired;

/// The refusal of a file, or 0.
pub fn check(file: &[u8]) -> u8 {
    opened(file).err().unwrap_or(0)
}

/// The answer of a step.
#[derive(Clone, Copy, PartialEq, Eq, Debug)]
pub struct Stepped {
    pub refusal: u8,
    pub output: u64,
    pub mark: bool,
    pub places: [u8; CHARTS],
    pub open: u64,
}

/// One step.
pub fn step(file: &[u8], config: &[u8], input: u64, next: &mut [u8]) -> Stepped {
    match stepped(file, config, input, next) {
        Ok(found) => Stepped {
            refusal: 0,
            output: found.output,
            mark: found.agree,
            places: found.places,
            open: found.open,
        },
        Err(Refused { number, open }) => Stepped {
            refusal: number,
            output: 0,
            mark: false,
            places: [NO_PLACE; CHARTS],
            open,
        },
    }
}

/// A refusal below 24.
impl From<u8> for Refused {
    fn from(number: u8) -> Refused {
        Refused { number, open: 0 }
    }
}

/// What a step found, its states written, or the refusal. Tables have room for 4, 8 or 16 charts.
fn stepped(file: &[u8], config: &[u8], input: u64, next: &mut [u8]) -> Result<Found, Refused> {
    let body = opened(file)?;
    fitting(&body, config)?;
    let next = next.get_mut(..body.charts).ok_or(22)?;
    let found = match body.charts {
        ..=4 => found::<4>(&body, &wired(&body), config, input),
        5..=8 => found::<8>(&body, &wired(&body), config, input),
        _ => found::<CHARTS>(&body, &wired(&body), config, input),
    }?;
    next.copy_from_slice(&found.next[..body.charts]);
    Ok(found)
}

/// 20 and 21.
fn fitting(body: &Body, config: &[u8]) -> Result<(), u8> {
    if config.len() != body.charts {
        return Err(20);
    }
    let mut states = config.iter().enumerate();
    match states.any(|(c, &state)| state >= body.chart(c).states) {
        true => Err(21),
        false => Ok(()),
    }
}

/// How many guards the search of a step looks at, at most so many: what its time grows with, on any
/// machine. A chart that is settled counts for one at each chart that is settled after it, with one more
/// for each of its triggers if it stays.
pub fn guards(file: &[u8], config: &[u8], input: u64, most: u64) -> Result<u64, u8> {
    let body = opened(file)?;
    fitting(&body, config)?;
    Ok(search::guards(&body, config, input, most))
}

/// A row for each input; the refusal or 0, and what is carried after the last.
pub fn run(file: &[u8], config: &[u8], carried: u64, inputs: &[u64], rows: &mut [u8]) -> (u8, u64) {
    match ran(file, config, carried, inputs, rows) {
        Ok(carried) => (0, carried),
        Err(refusal) => (refusal, 0),
    }
}

/// The rows written and what is carried, or the refusal.
fn ran(
    file: &[u8],
    config: &[u8],
    carried: u64,
    inputs: &[u64],
    rows: &mut [u8],
) -> Result<u64, u8> {
    let body = opened(file)?;
    fitting(&body, config)?;
    let long = 10 + body.charts;
    let rows = rows.get_mut(..inputs.len() * long).ok_or(27)?;
    Ok(match body.charts {
        ..=4 => put_rows::<4>(&body, config, carried, inputs, rows),
        5..=8 => put_rows::<8>(&body, config, carried, inputs, rows),
        _ => put_rows::<CHARTS>(&body, config, carried, inputs, rows),
    })
}

/// Writes the rows; what is carried after the last.
fn put_rows<const N: usize>(
    body: &Body,
    config: &[u8],
    carried: u64,
    inputs: &[u64],
    rows: &mut [u8],
) -> u64 {
    let wiring = wired::<N>(body);
    let mut present = [0; CHARTS];
    present[..body.charts].copy_from_slice(config);
    let mut carried = carried;
    for (row, &input) in rows.chunks_exact_mut(10 + body.charts).zip(inputs) {
        let offered = carried | input;
        let found = found(body, &wiring, &present[..body.charts], offered);
        (present, carried) = found.map_or((present, offered), |found| (found.next, 0));
        put_row(row, found, &present[..body.charts]);
    }
    carried
}

/// A row's bytes.
fn put_row(row: &mut [u8], found: Result<Found, Refused>, present: &[u8]) {
    row[..8].copy_from_slice(&found.map_or(0, |found| found.output).to_le_bytes());
    row[8] = found.map_or(0, |found| u8::from(found.agree));
    row[9] = found.map_or_else(|refused| refused.number, |_| 0);
    row[10..].copy_from_slice(present);
}
