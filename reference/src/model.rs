//! A file as RULES 2 describes it: charts with their own transitions, slaves, and nodes of three
//! kinds.

use crate::file::*;
use crate::limits::*;
use crate::set::Set;

/// A transition of a chart.
#[derive(Clone, PartialEq, Eq, Debug)]
pub struct Transition {
    pub from: u8,
    pub to: u8,
    pub needed: Set,
    pub barred: Set,
    pub action: Set,
}

/// A chart with its own transitions, in file order.
#[derive(Clone, PartialEq, Eq, Debug)]
pub struct Chart {
    pub states: u8,
    pub initial: u8,
    pub feedback: Set,
    pub extra: Set,
    pub transitions: Vec<Transition>,
}

/// A slave: its master, the state of the master that it belongs to, and its node (RULES 2.5).
#[derive(Clone, PartialEq, Eq, Debug)]
pub struct Slave {
    pub chart: u8,
    pub state: u8,
    pub node: u8,
}

/// A node (RULES 2.6).
#[derive(Clone, PartialEq, Eq, Debug)]
pub enum Node {
    /// Kind 0: it holds a chart.
    Chart { chart: u8 },
    /// Kind 1: two nodes, with feedback.
    Composed { a: u8, b: u8, feedback: Set },
    /// Kind 2: a node, without some signals of its input and of its output.
    Hidden {
        part: u8,
        filtered: Set,
        hidden: Set,
    },
}

/// The rules that a file's charts follow (RULES 7).
#[derive(Clone, Copy, PartialEq, Eq, Debug)]
pub enum Edition {
    /// An active chart takes a transition.
    First,
    /// It takes one, or stays if nothing triggers it.
    Second,
}

impl Edition {
    /// The edition of a number; none if there is no such edition.
    pub fn of(number: u8) -> Option<Edition> {
        match number {
            FIRST_EDITION => Some(Edition::First),
            SECOND_EDITION => Some(Edition::Second),
            _ => None,
        }
    }

    /// Its number in a trailer.
    pub fn number(self) -> u8 {
        match self {
            Edition::First => FIRST_EDITION,
            Edition::Second => SECOND_EDITION,
        }
    }
}

/// All of a file.
#[derive(Clone, PartialEq, Eq, Debug)]
pub struct Model {
    pub edition: Edition,
    pub charts: Vec<Chart>,
    pub slaves: Vec<Slave>,
    pub nodes: Vec<Node>,
}

impl Transition {
    fn of(record: &TransitionRecord) -> Transition {
        Transition {
            from: record.from,
            to: record.to,
            needed: record.needed,
            barred: record.barred,
            action: record.action,
        }
    }

    fn record(&self) -> TransitionRecord {
        TransitionRecord {
            from: self.from,
            to: self.to,
            zeros: [0; 2],
            needed: self.needed,
            barred: self.barred,
            action: self.action,
        }
    }
}

impl Chart {
    fn of(record: &ChartRecord, transitions: &[TransitionRecord]) -> Chart {
        Chart {
            states: record.states,
            initial: record.initial,
            feedback: record.feedback,
            extra: record.extra,
            transitions: transitions.iter().map(Transition::of).collect(),
        }
    }

    fn record(&self) -> ChartRecord {
        ChartRecord {
            states: self.states,
            initial: self.initial,
            transitions: self.transitions.len() as u8,
            zeros: [0; 5],
            feedback: self.feedback,
            extra: self.extra,
        }
    }
}

impl Slave {
    fn of(record: &SlaveRecord) -> Slave {
        Slave {
            chart: record.chart,
            state: record.state,
            node: record.node,
        }
    }

    fn record(&self) -> SlaveRecord {
        SlaveRecord {
            chart: self.chart,
            state: self.state,
            node: self.node,
            zero: 0,
        }
    }
}

impl Node {
    /// The record has passed 9, so its kind is 0, 1 or 2.
    fn of(record: &NodeRecord) -> Node {
        match record.kind {
            KIND_CHART => Node::Chart { chart: record.a },
            KIND_COMPOSED => Node::Composed {
                a: record.a,
                b: record.b,
                feedback: record.x,
            },
            _ => Node::Hidden {
                part: record.a,
                filtered: record.x,
                hidden: record.y,
            },
        }
    }

    fn record(&self) -> NodeRecord {
        let (kind, a, b, x, y) = match *self {
            Node::Chart { chart } => (KIND_CHART, chart, 0, Set::EMPTY, Set::EMPTY),
            Node::Composed { a, b, feedback } => (KIND_COMPOSED, a, b, feedback, Set::EMPTY),
            Node::Hidden {
                part,
                filtered,
                hidden,
            } => (KIND_HIDDEN, part, 0, filtered, hidden),
        };
        NodeRecord {
            kind,
            a,
            b,
            zero: 0,
            x,
            y,
        }
    }

    /// The nodes that this node names: a and b of kind 1, a of kind 2.
    pub fn names(&self) -> Vec<u8> {
        match *self {
            Node::Chart { .. } => vec![],
            Node::Composed { a, b, .. } => vec![a, b],
            Node::Hidden { part, .. } => vec![part],
        }
    }

    /// The node with the nodes it names by other numbers.
    pub fn renamed(&self, new: impl Fn(u8) -> u8) -> Node {
        match *self {
            Node::Chart { chart } => Node::Chart { chart },
            Node::Composed { a, b, feedback } => Node::Composed {
                a: new(a),
                b: new(b),
                feedback,
            },
            Node::Hidden {
                part,
                filtered,
                hidden,
            } => Node::Hidden {
                part: new(part),
                filtered,
                hidden,
            },
        }
    }
}

impl Model {
    /// The model of records that have passed 1 to 9.
    pub fn of(records: &Records) -> Model {
        let chart = |number| Chart::of(&records.charts[number], records.transitions_of(number));
        Model {
            edition: Edition::of(records.trailer.edition).expect("an edition that passed 2"),
            charts: (0..records.charts.len()).map(chart).collect(),
            slaves: records.slaves.iter().map(Slave::of).collect(),
            nodes: records.nodes.iter().map(Node::of).collect(),
        }
    }

    /// The records of the model, zero bytes zero, with the trailer that the layout asks for.
    pub fn records(&self) -> Records {
        let all = self.charts.iter().flat_map(|chart| &chart.transitions);
        let mut records = Records {
            charts: self.charts.iter().map(Chart::record).collect(),
            transitions: all.map(Transition::record).collect(),
            slaves: self.slaves.iter().map(Slave::record).collect(),
            nodes: self.nodes.iter().map(Node::record).collect(),
            trailer: Trailer {
                distance: 0,
                charts: self.charts.len() as u8,
                slaves: self.slaves.len() as u8,
                nodes: self.nodes.len() as u8,
                edition: self.edition.number(),
                transitions: 0,
                zeros: [0; 2],
            },
        };
        records.trailer.transitions = records.transitions.len() as u16;
        records.trailer.distance = records.trailer.body_bytes() as u32;
        records
    }

    /// The same charts, slaves and nodes under another edition.
    pub fn under(self, edition: Edition) -> Model {
        Model { edition, ..self }
    }

    /// The model as a file without front bytes.
    pub fn file(&self) -> Vec<u8> {
        self.records().encode()
    }

    /// The node with the highest number (RULES 2.7).
    pub fn whole(&self) -> usize {
        self.nodes.len() - 1
    }

    /// The slaves of a chart, by state: of a master some, of other charts none (RULES 2.7).
    pub fn slaves_of(&self, chart: u8) -> impl Iterator<Item = &Slave> {
        self.slaves.iter().filter(move |slave| slave.chart == chart)
    }

    /// Whether a chart has slaves.
    pub fn is_master(&self, chart: u8) -> bool {
        self.slaves_of(chart).next().is_some()
    }

    /// The nodes that hold a chart; exactly one in an accepted file.
    pub fn holders(&self, chart: u8) -> Vec<u8> {
        let holds = |node: &Node| *node == Node::Chart { chart };
        (0..self.nodes.len() as u8)
            .filter(|&number| holds(&self.nodes[usize::from(number)]))
            .collect()
    }

    /// The charts that a node has as parts, slaves aside.
    pub fn charts_beside_slaves(&self, node: u8) -> Vec<u8> {
        match &self.nodes[usize::from(node)] {
            Node::Chart { chart } => vec![*chart],
            other => other
                .names()
                .into_iter()
                .flat_map(|part| self.charts_beside_slaves(part))
                .collect(),
        }
    }

    /// The charts inside a node at any depth, those in slaves of its charts too.
    pub fn charts_inside(&self, node: u8) -> Vec<u8> {
        let mut inside = self.charts_beside_slaves(node);
        for chart in inside.clone() {
            for slave in self.slaves_of(chart) {
                inside.extend(self.charts_inside(slave.node));
            }
        }
        inside
    }

    /// The place in the slave records of the nearest slave that a chart is inside of.
    pub fn nearest_slave(&self, chart: u8) -> Option<usize> {
        self.slaves
            .iter()
            .position(|slave| self.charts_beside_slaves(slave.node).contains(&chart))
    }
}
