//! The day's posting for a whole book (RULES 11).

use crate::check::{accept, refuse_if};
use crate::limits::*;
use crate::model::Model;
use crate::run::{run_model, Row};
use crate::set::Set;
use crate::step::accept_configuration;

/// A case record (RULES 11.1).
#[derive(Clone, Copy, PartialEq, Eq, Debug)]
pub struct CaseRecord {
    pub carried: Set,
    pub last_row: u32,
    pub length: u8,
    pub config: [u8; CASE_CONFIGURATION],
}

impl CaseRecord {
    /// The configuration of a case: as many bytes as its length says. A byte that the record does not
    /// have counts as 0.
    pub fn configuration(&self) -> Vec<u8> {
        let byte = |place: usize| self.config.get(place).copied().unwrap_or(0);
        (0..usize::from(self.length)).map(byte).collect()
    }
}

/// An entry of a day: a case by its number, and what arrived for it (RULES 11.2).
#[derive(Clone, Copy, PartialEq, Eq, Debug)]
pub struct Entry {
    pub number: u64,
    pub signals: Set,
}

/// The call `post`. It tests 1 to 11, 20 or 21 case by case, 60, 61, 62, 63 (RULES 11.6). Each case gets
/// its row, at the front of the buffer, and its new record. A refusal changes nothing.
pub fn post(file: &[u8], cases: &mut [CaseRecord], entries: &[Entry], rows: &mut [u8]) -> u8 {
    match try_post(file, cases, entries, rows.len()) {
        Ok((written, posted)) => {
            rows[..written.len()].copy_from_slice(&written);
            cases.copy_from_slice(&posted);
            refusal::SUCCESS
        }
        Err(number) => number,
    }
}

/// The bytes of all rows and the new records, or the refusal.
fn try_post(
    file: &[u8],
    cases: &[CaseRecord],
    entries: &[Entry],
    room: usize,
) -> Result<(Vec<u8>, Vec<CaseRecord>), u8> {
    let model = accept(file)?;
    for case in cases {
        accept_configuration(&model, &case.configuration())?;
    }
    refuse_if(!(1..=CASES).contains(&cases.len()), refusal::BOOK)?;
    let outside = |entry: &Entry| entry.number >= cases.len() as u64;
    refuse_if(entries.iter().any(outside), refusal::ENTRY)?;
    let ended = |case: &CaseRecord| case.last_row == LAST_ROW;
    refuse_if(cases.iter().any(ended), refusal::ROW_NUMBER)?;
    let needed = cases.len() * (POSTED_HEAD_BYTES + model.charts.len());
    refuse_if(room < needed, refusal::POSTING_ROOM)?;
    let (mut rows, mut records) = (Vec::new(), Vec::new());
    for (number, case) in (0..).zip(cases) {
        let (row, record) = post_case(&model, case, input_of(number, entries));
        rows.extend(row);
        records.push(record);
    }
    Ok((rows, records))
}

/// What a case is offered on a day: its entries joined; nothing if it has none (RULES 11.2).
pub fn input_of(number: u64, entries: &[Entry]) -> Set {
    let own = entries.iter().filter(|entry| entry.number == number);
    Set::union(own.map(|entry| entry.signals))
}

/// The row of one case, and its new record: a run of one input from its record (RULES 11.3 to 11.5).
fn post_case(model: &Model, case: &CaseRecord, input: Set) -> (Vec<u8>, CaseRecord) {
    let (rows, carried) = run_model(model, &case.configuration(), case.carried, &[input]);
    let last_row = case.last_row + 1;
    let row: &Row = &rows[0];
    let mut config = case.config;
    config[..row.configuration.len()].copy_from_slice(&row.configuration);
    let record = CaseRecord {
        carried,
        last_row,
        config,
        ..*case
    };
    ([&last_row.to_le_bytes()[..], &row.bytes()].concat(), record)
}
