//! A checked file's records, read where they stand.

/// The bytes of a trailer.
pub const TRAILER: usize = 12;
/// The bytes of a chart record.
pub const CHART: usize = 24;
/// The bytes of a transition record.
pub const TRANSITION: usize = 28;
/// The bytes of a slave record.
pub const SLAVE: usize = 4;
/// The bytes of a node record.
pub const NODE: usize = 20;

/// The most charts, slaves, nodes and transitions of a file, and transitions from a state.
pub const CHARTS: usize = 16;
pub const SLAVES: usize = 15;
pub const NODES: usize = 64;
pub const TRANSITIONS: usize = 1_024;
pub const FROM_STATE: usize = 8;
/// The most open choices of a step.
pub const OPEN: u64 = 16_777_216;

/// The edition whose charts may stay; the other one is 1.
pub const STAY_EDITION: u8 = 2;

/// A body, its edition, and how many records of each kind it has.
#[derive(Clone, Copy)]
pub struct Body<'a> {
    pub bytes: &'a [u8],
    pub edition: u8,
    pub charts: usize,
    pub transitions: usize,
    pub slaves: usize,
    pub nodes: usize,
}

/// A chart record.
#[derive(Clone, Copy)]
pub struct Chart {
    pub states: u8,
    pub initial: u8,
    pub transitions: u8,
    pub feedback: u64,
    pub extra: u64,
}

/// A transition record.
#[derive(Clone, Copy, PartialEq)]
pub struct Transition {
    pub from: u8,
    pub to: u8,
    pub needed: u64,
    pub barred: u64,
    pub action: u64,
}

/// A slave record.
#[derive(Clone, Copy)]
pub struct Slave {
    pub chart: u8,
    pub state: u8,
    pub node: u8,
}

/// A node record.
#[derive(Clone, Copy)]
pub struct Node {
    pub kind: u8,
    pub a: u8,
    pub b: u8,
    pub x: u64,
    pub y: u64,
}

/// The set at a place.
pub fn set(bytes: &[u8], at: usize) -> u64 {
    u64::from_le_bytes(bytes[at..at + 8].try_into().unwrap())
}

impl<'a> Body<'a> {
    /// Whether its charts may stay.
    pub fn may_stay(&self) -> bool {
        self.edition == STAY_EDITION
    }

    /// How long a body with these counts is.
    pub fn size(&self) -> usize {
        self.node_at(self.nodes)
    }

    /// Where a transition stands.
    pub fn transition_at(&self, number: usize) -> usize {
        CHART * self.charts + TRANSITION * number
    }

    /// Where a slave stands.
    pub fn slave_at(&self, number: usize) -> usize {
        self.transition_at(self.transitions) + SLAVE * number
    }

    /// Where a node stands.
    pub fn node_at(&self, number: usize) -> usize {
        self.slave_at(self.slaves) + NODE * number
    }

    /// A chart.
    pub fn chart(&self, number: usize) -> Chart {
        let record = &self.bytes[CHART * number..][..CHART];
        Chart {
            states: record[0],
            initial: record[1],
            transitions: record[2],
            feedback: set(record, 8),
            extra: set(record, 16),
        }
    }

    /// A transition, counted over all charts.
    pub fn transition(&self, number: usize) -> Transition {
        let record = &self.bytes[self.transition_at(number)..][..TRANSITION];
        Transition {
            from: record[0],
            to: record[1],
            needed: set(record, 4),
            barred: set(record, 12),
            action: set(record, 20),
        }
    }

    /// A slave.
    pub fn slave(&self, number: usize) -> Slave {
        let record = &self.bytes[self.slave_at(number)..][..SLAVE];
        Slave {
            chart: record[0],
            state: record[1],
            node: record[2],
        }
    }

    /// A node.
    pub fn node(&self, number: usize) -> Node {
        let record = &self.bytes[self.node_at(number)..][..NODE];
        Node {
            kind: record[0],
            a: record[1],
            b: record[2],
            x: set(record, 4),
            y: set(record, 12),
        }
    }

    /// All slaves, by their numbers.
    pub fn all_slaves(self) -> impl Iterator<Item = Slave> + 'a {
        (0..self.slaves).map(move |number| self.slave(number))
    }
}
