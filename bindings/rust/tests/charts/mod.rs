//! Chart files for the tests, byte by byte in the layout of RULES 2.
#![allow(dead_code)] // each test file uses a part

/// A set by its signals.
fn set(signals: &[u8]) -> [u8; 8] {
    let bits = signals.iter().fold(0_u64, |set, &signal| set | 1 << signal);
    bits.to_le_bytes()
}

/// A transition's 28 bytes.
pub fn go(from: u8, to: u8, needed: &[u8], barred: &[u8], action: &[u8]) -> Vec<u8> {
    let sets = [set(needed), set(barred), set(action)].concat();
    [vec![from, to, 0, 0], sets].concat()
}

/// A chart of 2 states that starts in state 0: its feedback and its transitions.
pub struct Chart {
    pub feedback: Vec<u8>,
    pub transitions: Vec<Vec<u8>>,
}

/// A chart.
pub fn chart(feedback: &[u8], transitions: Vec<Vec<u8>>) -> Chart {
    Chart {
        feedback: feedback.to_vec(),
        transitions,
    }
}

impl Chart {
    /// A chart's 24 bytes.
    fn record(&self) -> Vec<u8> {
        let counts = vec![2, 0, self.transitions.len() as u8, 0, 0, 0, 0, 0];
        [counts, set(&self.feedback).to_vec(), vec![0; 8]].concat()
    }
}

/// A node's 20 bytes.
pub fn node(kind: u8, a: u8, b: u8, x: &[u8], y: &[u8]) -> Vec<u8> {
    [vec![kind, a, b, 0], set(x).to_vec(), set(y).to_vec()].concat()
}

/// A file of charts, slaves and nodes.
pub fn file(charts: &[Chart], slaves: &[[u8; 4]], nodes: &[Vec<u8>]) -> Vec<u8> {
    let transitions: Vec<Vec<u8>> = charts.iter().flat_map(|c| c.transitions.clone()).collect();
    let mut bytes: Vec<u8> = charts.iter().flat_map(Chart::record).collect();
    bytes.extend(transitions.concat());
    bytes.extend(slaves.concat());
    bytes.extend(nodes.concat());
    bytes.extend((bytes.len() as u32).to_le_bytes());
    bytes.extend([charts.len() as u8, slaves.len() as u8, nodes.len() as u8, 1]);
    bytes.extend((transitions.len() as u16).to_le_bytes());
    bytes.extend([0, 0]);
    bytes
}

/// The same file under edition 2.
pub fn edition_2(mut file: Vec<u8>) -> Vec<u8> {
    let edition = file.len() - 5;
    file[edition] = 2;
    file
}

/// One chart that is the whole.
pub fn alone(only: Chart) -> Vec<u8> {
    file(&[only], &[], &[node(0, 0, 0, &[], &[])])
}

/// Two charts composed, with feedback.
pub fn beside(first: Chart, second: Chart, feedback: &[u8]) -> Vec<u8> {
    file(&[first, second], &[], &pair(feedback))
}

/// The nodes of two charts composed.
pub fn pair(feedback: &[u8]) -> Vec<Vec<u8>> {
    vec![
        node(0, 0, 0, &[], &[]),
        node(0, 1, 0, &[], &[]),
        node(1, 0, 1, feedback, &[]),
    ]
}

/// The whole file of docs/FORMAT.md, without its front.
pub fn whole_case() -> Vec<u8> {
    let there = go(0, 1, &[0], &[], &[1]);
    let back = go(1, 0, &[1], &[], &[]);
    alone(chart(&[], vec![there, back]))
}

/// D of docs/EXAMPLES.md: a master, and a slave of its state 1.
pub fn d() -> Vec<u8> {
    let master = chart(
        &[1],
        vec![
            go(0, 1, &[0], &[], &[1]),
            go(0, 0, &[], &[0], &[]),
            go(1, 0, &[3], &[], &[]),
        ],
    );
    let slave = chart(
        &[],
        vec![go(0, 1, &[1], &[], &[2]), go(1, 1, &[3], &[], &[4])],
    );
    let nodes = [node(0, 1, 0, &[], &[]), node(0, 0, 0, &[], &[])];
    file(&[master, slave], &[[0, 1, 0, 0]], &nodes)
}
