//! Where the bytes of a file stand, to change one of them.

use crate::file::Records;
use crate::limits::*;
use crate::model::Model;

/// The places of a file's records, counted from its first byte; the file has no front bytes.
pub struct Places {
    records: Records,
}

impl Places {
    /// The places in the model's file.
    pub fn of(model: &Model) -> Places {
        Places {
            records: model.records(),
        }
    }

    /// The first byte of a chart record.
    pub fn chart(&self, number: usize) -> usize {
        number * CHART_BYTES
    }

    /// The first byte of a transition record, counted over all charts.
    pub fn transition(&self, number: usize) -> usize {
        self.chart(self.records.charts.len()) + number * TRANSITION_BYTES
    }

    /// The first byte of a slave record.
    pub fn slave(&self, number: usize) -> usize {
        self.transition(self.records.transitions.len()) + number * SLAVE_BYTES
    }

    /// The first byte of a node record.
    pub fn node(&self, number: usize) -> usize {
        self.slave(self.records.slaves.len()) + number * NODE_BYTES
    }

    /// The first byte of the trailer.
    pub fn trailer(&self) -> usize {
        self.node(self.records.nodes.len())
    }
}

/// The model's file with one byte set.
pub fn with_byte(model: &Model, place: usize, value: u8) -> Vec<u8> {
    with_bytes(model, &[(place, value)])
}

/// The model's file with some bytes set.
pub fn with_bytes(model: &Model, changes: &[(usize, u8)]) -> Vec<u8> {
    let mut file = model.file();
    for &(place, value) in changes {
        file[place] = value;
    }
    file
}

/// The file of the model's records after a change to them, the trailer as it was.
pub fn changed(model: &Model, change: impl FnOnce(&mut Records)) -> Vec<u8> {
    let mut records = model.records();
    change(&mut records);
    records.encode()
}

/// Front bytes and then a file.
pub fn behind(front: &[u8], file: Vec<u8>) -> Vec<u8> {
    [front, &file].concat()
}
