//! The layout of a file (RULES 2.1 to 2.6): the bytes of the body and the trailer as records, and
//! records as bytes again. Nothing is checked here, and each record keeps its zero bytes, so that
//! every body and trailer is told apart from any other and written again byte for byte.

use crate::limits::*;
use crate::set::Set;

/// The trailer (RULES 2.2). Both editions have this layout.
#[derive(Clone, PartialEq, Eq, Debug)]
pub struct Trailer {
    pub distance: u32,
    pub charts: u8,
    pub slaves: u8,
    pub nodes: u8,
    pub edition: u8,
    pub transitions: u16,
    pub zeros: [u8; 2],
}

/// A chart record (RULES 2.3).
#[derive(Clone, PartialEq, Eq, Debug)]
pub struct ChartRecord {
    pub states: u8,
    pub initial: u8,
    pub transitions: u8,
    pub zeros: [u8; 5],
    pub feedback: Set,
    pub extra: Set,
}

/// A transition record (RULES 2.4).
#[derive(Clone, PartialEq, Eq, Debug)]
pub struct TransitionRecord {
    pub from: u8,
    pub to: u8,
    pub zeros: [u8; 2],
    pub needed: Set,
    pub barred: Set,
    pub action: Set,
}

/// A slave record (RULES 2.5).
#[derive(Clone, PartialEq, Eq, Debug)]
pub struct SlaveRecord {
    pub chart: u8,
    pub state: u8,
    pub node: u8,
    pub zero: u8,
}

/// A node record (RULES 2.6).
#[derive(Clone, PartialEq, Eq, Debug)]
pub struct NodeRecord {
    pub kind: u8,
    pub a: u8,
    pub b: u8,
    pub zero: u8,
    pub x: Set,
    pub y: Set,
}

/// All records of a file, in the order of the body, and its trailer (RULES 2.1).
#[derive(Clone, PartialEq, Eq, Debug)]
pub struct Records {
    pub charts: Vec<ChartRecord>,
    pub transitions: Vec<TransitionRecord>,
    pub slaves: Vec<SlaveRecord>,
    pub nodes: Vec<NodeRecord>,
    pub trailer: Trailer,
}

/// Bytes read one field after the other; numbers are little-endian (RULES 1.2).
struct Fields<'a> {
    rest: &'a [u8],
}

impl Fields<'_> {
    /// The next field of a known number of bytes.
    fn bytes<const N: usize>(&mut self) -> [u8; N] {
        let (field, rest) = self.rest.split_at(N);
        self.rest = rest;
        field.try_into().unwrap()
    }

    /// The next field of one byte.
    fn byte(&mut self) -> u8 {
        u8::from_le_bytes(self.bytes())
    }

    /// The next signal set.
    fn set(&mut self) -> Set {
        Set(u64::from_le_bytes(self.bytes()))
    }
}

impl Trailer {
    /// Reads the end of the file, which is not shorter than a trailer.
    pub fn read(file: &[u8]) -> Trailer {
        let mut fields = Fields {
            rest: &file[file.len() - TRAILER_BYTES..],
        };
        Trailer {
            distance: u32::from_le_bytes(fields.bytes()),
            charts: fields.byte(),
            slaves: fields.byte(),
            nodes: fields.byte(),
            edition: fields.byte(),
            transitions: u16::from_le_bytes(fields.bytes()),
            zeros: fields.bytes(),
        }
    }

    /// The size of the body, from the counts (RULES 2.1).
    pub fn body_bytes(&self) -> usize {
        usize::from(self.charts) * CHART_BYTES
            + usize::from(self.transitions) * TRANSITION_BYTES
            + usize::from(self.slaves) * SLAVE_BYTES
            + usize::from(self.nodes) * NODE_BYTES
    }

    /// The trailer's bytes.
    pub fn encode(&self) -> Vec<u8> {
        let mut bytes = Vec::new();
        bytes.extend(self.distance.to_le_bytes());
        bytes.extend([self.charts, self.slaves, self.nodes, self.edition]);
        bytes.extend(self.transitions.to_le_bytes());
        bytes.extend(self.zeros);
        bytes
    }
}

impl ChartRecord {
    fn read(fields: &mut Fields) -> ChartRecord {
        ChartRecord {
            states: fields.byte(),
            initial: fields.byte(),
            transitions: fields.byte(),
            zeros: fields.bytes(),
            feedback: fields.set(),
            extra: fields.set(),
        }
    }

    fn encode(&self) -> Vec<u8> {
        let mut bytes = vec![self.states, self.initial, self.transitions];
        bytes.extend(self.zeros);
        bytes.extend(self.feedback.bytes());
        bytes.extend(self.extra.bytes());
        bytes
    }
}

impl TransitionRecord {
    fn read(fields: &mut Fields) -> TransitionRecord {
        TransitionRecord {
            from: fields.byte(),
            to: fields.byte(),
            zeros: fields.bytes(),
            needed: fields.set(),
            barred: fields.set(),
            action: fields.set(),
        }
    }

    fn encode(&self) -> Vec<u8> {
        let mut bytes = vec![self.from, self.to];
        bytes.extend(self.zeros);
        bytes.extend(self.needed.bytes());
        bytes.extend(self.barred.bytes());
        bytes.extend(self.action.bytes());
        bytes
    }
}

impl SlaveRecord {
    fn read(fields: &mut Fields) -> SlaveRecord {
        SlaveRecord {
            chart: fields.byte(),
            state: fields.byte(),
            node: fields.byte(),
            zero: fields.byte(),
        }
    }

    fn encode(&self) -> Vec<u8> {
        vec![self.chart, self.state, self.node, self.zero]
    }
}

impl NodeRecord {
    fn read(fields: &mut Fields) -> NodeRecord {
        NodeRecord {
            kind: fields.byte(),
            a: fields.byte(),
            b: fields.byte(),
            zero: fields.byte(),
            x: fields.set(),
            y: fields.set(),
        }
    }

    fn encode(&self) -> Vec<u8> {
        let mut bytes = vec![self.kind, self.a, self.b, self.zero];
        bytes.extend(self.x.bytes());
        bytes.extend(self.y.bytes());
        bytes
    }
}

impl Records {
    /// Reads the body directly before the trailer; the front is not read (RULES 2.1). The file has
    /// passed 1 to 4.
    pub fn read(file: &[u8]) -> Records {
        let trailer = Trailer::read(file);
        let body = file.len() - TRAILER_BYTES - trailer.body_bytes();
        let mut fields = Fields {
            rest: &file[body..],
        };
        let fields = &mut fields;
        Records {
            charts: (0..trailer.charts)
                .map(|_| ChartRecord::read(fields))
                .collect(),
            transitions: (0..trailer.transitions)
                .map(|_| TransitionRecord::read(fields))
                .collect(),
            slaves: (0..trailer.slaves)
                .map(|_| SlaveRecord::read(fields))
                .collect(),
            nodes: (0..trailer.nodes)
                .map(|_| NodeRecord::read(fields))
                .collect(),
            trailer,
        }
    }

    /// Body and trailer as bytes, without front bytes.
    pub fn encode(&self) -> Vec<u8> {
        let mut bytes = Vec::new();
        bytes.extend(self.charts.iter().flat_map(ChartRecord::encode));
        bytes.extend(self.transitions.iter().flat_map(TransitionRecord::encode));
        bytes.extend(self.slaves.iter().flat_map(SlaveRecord::encode));
        bytes.extend(self.nodes.iter().flat_map(NodeRecord::encode));
        bytes.extend(self.trailer.encode());
        bytes
    }

    /// The transitions of one chart: they come after those of the lower charts (RULES 2.4). The
    /// charts' numbers add up to the trailer's.
    pub fn transitions_of(&self, chart: usize) -> &[TransitionRecord] {
        let number = |record: &ChartRecord| usize::from(record.transitions);
        let start: usize = self.charts[..chart].iter().map(number).sum();
        &self.transitions[start..start + number(&self.charts[chart])]
    }
}
