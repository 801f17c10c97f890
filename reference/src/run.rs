//! Runs (RULES 6).

use crate::check::{accept, refuse_if};
use crate::limits::{refusal, ROW_HEAD_BYTES};
use crate::model::Model;
use crate::set::Set;
use crate::step::{accept_configuration, enumerate, step_model, StepModel};

/// One row of a run (RULES 6.3).
#[derive(Clone, PartialEq, Eq, Debug)]
pub struct Row {
    pub output: Set,
    pub mark: bool,
    pub refusal: u8,
    pub configuration: Vec<u8>,
}

impl Row {
    /// The row's bytes: output, mark, refusal, configuration.
    pub fn bytes(&self) -> Vec<u8> {
        let mut bytes = self.output.bytes().to_vec();
        bytes.push(u8::from(self.mark));
        bytes.push(self.refusal);
        bytes.extend(&self.configuration);
        bytes
    }
}

/// What a run returns beside its rows; if it is refused, nothing is carried (RULES 1.4, 6.4).
#[derive(Clone, Copy, PartialEq, Eq, Debug)]
pub struct Ran {
    pub refusal: u8,
    pub carried: Set,
}

/// The call `run`, with the tests 1 to 11, 20, 21 and 27 (RULES 3.6). It writes one row for each
/// input to the front of the buffer, and leaves the rest of it unchanged.
pub fn run(
    file: &[u8],
    configuration: &[u8],
    carried: Set,
    inputs: &[Set],
    rows: &mut [u8],
) -> Ran {
    run_by(step_model, file, configuration, carried, inputs, rows)
}

/// The same run by plain enumeration, with which bench/ compares speed.
pub fn run_plainly(
    file: &[u8],
    configuration: &[u8],
    carried: Set,
    inputs: &[Set],
    rows: &mut [u8],
) -> Ran {
    run_by(enumerate, file, configuration, carried, inputs, rows)
}

/// The run with its steps made in one of the two ways.
fn run_by(
    made: StepModel,
    file: &[u8],
    configuration: &[u8],
    carried: Set,
    inputs: &[Set],
    rows: &mut [u8],
) -> Ran {
    match try_run(made, file, configuration, carried, inputs, rows.len()) {
        Ok((all, carried)) => {
            let written: Vec<u8> = all.iter().flat_map(Row::bytes).collect();
            rows[..written.len()].copy_from_slice(&written);
            Ran {
                refusal: refusal::SUCCESS,
                carried,
            }
        }
        Err(refusal) => Ran {
            refusal,
            carried: Set::EMPTY,
        },
    }
}

/// The rows to be written and the new carried set, or the refusal. 27: the buffer is too short for
/// the rows.
fn try_run(
    made: StepModel,
    file: &[u8],
    configuration: &[u8],
    carried: Set,
    inputs: &[Set],
    room: usize,
) -> Result<(Vec<Row>, Set), u8> {
    let model = accept(file)?;
    accept_configuration(&model, configuration)?;
    let row_bytes = ROW_HEAD_BYTES + model.charts.len();
    refuse_if(room < inputs.len() * row_bytes, refusal::RUN_ROOM)?;
    Ok(run_model_by(made, &model, configuration, carried, inputs))
}

/// The rows of a run, and what is carried after the last (RULES 6.2, 6.4). A refused step leaves
/// the configuration unchanged, and the set that it was made under is carried to the next input. A
/// step that is given ends this.
pub fn run_model(
    model: &Model,
    configuration: &[u8],
    carried: Set,
    inputs: &[Set],
) -> (Vec<Row>, Set) {
    run_model_by(step_model, model, configuration, carried, inputs)
}

/// The same with its steps made in one of the two ways.
fn run_model_by(
    made: StepModel,
    model: &Model,
    configuration: &[u8],
    carried: Set,
    inputs: &[Set],
) -> (Vec<Row>, Set) {
    let mut rows = Vec::new();
    let mut present = configuration.to_vec();
    let mut carried = carried;
    for &input in inputs {
        let joined = carried.joined(input);
        let row = one_row(made, model, &present, joined);
        carried = match row.refusal {
            refusal::SUCCESS => Set::EMPTY,
            _ => joined,
        };
        present.clone_from(&row.configuration);
        rows.push(row);
    }
    (rows, carried)
}

/// The row of one step. After tests 1 to 21, 24 and 23 are the only refusals left.
fn one_row(made: StepModel, model: &Model, present: &[u8], joined: Set) -> Row {
    match made(model, present, joined) {
        Ok(verdict) => Row {
            output: verdict.outcome.output,
            mark: verdict.mark,
            refusal: refusal::SUCCESS,
            configuration: verdict.outcome.next,
        },
        Err(refused) => Row {
            output: Set::EMPTY,
            mark: false,
            refusal: refused.number,
            configuration: present.to_vec(),
        },
    }
}
