//! The first configuration (RULES 6.1).

use crate::check::{accept, refuse_if};
use crate::limits::refusal;
use crate::model::Model;

/// The initial state of every chart, whether it is inside a slave or not.
pub fn first_configuration(model: &Model) -> Vec<u8> {
    model.charts.iter().map(|chart| chart.initial).collect()
}

/// The call `first`. It tests 1 to 11, 22 (RULES 3.6), and writes to the front of the buffer.
pub fn first(file: &[u8], next: &mut [u8]) -> u8 {
    match try_first(file, next.len()) {
        Ok(configuration) => {
            next[..configuration.len()].copy_from_slice(&configuration);
            refusal::SUCCESS
        }
        Err(number) => number,
    }
}

/// The configuration to be written, or the refusal.
fn try_first(file: &[u8], room: usize) -> Result<Vec<u8>, u8> {
    let model = accept(file)?;
    refuse_if(room < model.charts.len(), refusal::CONFIGURATION_ROOM)?;
    Ok(first_configuration(&model))
}
