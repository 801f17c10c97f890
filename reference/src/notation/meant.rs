//! The file that a typed chart means: docs/NOTATION.md, section 4.

use super::grammar::Kind;
use super::tree::{At, Tree};
use super::typed::{Form, Sequential};
use crate::model::{Chart, Edition, Model, Node, Slave, Transition};
use crate::set::Set;

/// The file of a text that has passed 50, 51 and 52, and whose counts are within the limits.
pub fn model(tree: &Tree) -> Model {
    let mut charts = tree.sequentials();
    charts.sort_by_key(|chart| chart.name);
    let mut laid = Laid {
        tree,
        slaves: vec![],
        nodes: vec![],
    };
    laid.lay(tree.whole());
    let (mut slaves, nodes) = (laid.slaves, laid.nodes);
    slaves.sort_by_key(|slave| (slave.chart, slave.state));
    Model {
        edition: Edition::First,
        charts: charts.iter().map(|chart| chart_of(tree, chart)).collect(),
        slaves,
        nodes,
    }
}

/// The record of a chart, with its transitions in the order of the text.
fn chart_of(tree: &Tree, chart: &Sequential) -> Chart {
    let transitions = chart.transitions.iter();
    Chart {
        states: chart.states.len() as u8,
        initial: chart.initial as u8,
        feedback: set_of(tree, chart.feedback),
        extra: optional_set(tree, chart.extra),
        transitions: transitions.map(|&at| transition_of(tree, at)).collect(),
    }
}

/// A transition: two states, literals, an action.
fn transition_of(tree: &Tree, at: At) -> Transition {
    let parts = tree.parts(at);
    let literals = |barred: bool| {
        let all = tree.parts_of(at, Kind::Literal);
        let these = all.filter(move |&literal| (tree.bytes(literal)[0] == b'-') == barred);
        Set::union(these.map(|literal| set_of(tree, literal)))
    };
    Transition {
        from: tree.number(parts[0]) as u8,
        to: tree.number(parts[1]) as u8,
        needed: literals(false),
        barred: literals(true),
        action: set_of(tree, parts[parts.len() - 1]),
    }
}

/// The signals that are parts of a set or a literal.
fn set_of(tree: &Tree, at: At) -> Set {
    let signals = tree.signals(at).into_iter();
    Set::union(signals.map(|signal| Set::one(signal as u32)))
}

/// A set that may be left out, and is empty then.
fn optional_set(tree: &Tree, at: Option<At>) -> Set {
    at.map_or(Set::EMPTY, |at| set_of(tree, at))
}

/// Nodes and slaves, as far as they are laid down.
struct Laid<'a> {
    tree: &'a Tree<'a>,
    slaves: Vec<Slave>,
    nodes: Vec<Node>,
}

impl Laid<'_> {
    /// Lays down a chart or a part; gives its node.
    fn lay(&mut self, at: At) -> u8 {
        let tree = self.tree;
        let node = match tree.form(at) {
            Form::Sequential(chart) => self.chart(chart),
            Form::Decomposed(master, slaves) => {
                self.lay_slaves(master, slaves);
                self.chart(master)
            }
            Form::Hidden(filtered, chart, hidden) => Node::Hidden {
                part: self.lay(chart),
                filtered: optional_set(tree, filtered),
                hidden: optional_set(tree, hidden),
            },
            Form::Composed(a, feedback, b) => Node::Composed {
                a: self.lay(a),
                b: self.lay(b),
                feedback: set_of(tree, feedback),
            },
        };
        self.nodes.push(node);
        (self.nodes.len() - 1) as u8
    }

    fn chart(&self, at: At) -> Node {
        let chart = self.tree.sequential(at).name as u8;
        Node::Chart { chart }
    }

    /// The slaves of a master, by state.
    fn lay_slaves(&mut self, master: At, mut slaves: Vec<At>) {
        let tree = self.tree;
        let chart = tree.sequential(master).name as u8;
        let state = |slave: At| tree.number(tree.parts(slave)[0]);
        slaves.sort_by_key(|&slave| state(slave));
        for slave in slaves {
            let node = self.lay(tree.parts(slave)[1]);
            let state = state(slave) as u8;
            self.slaves.push(Slave { chart, state, node });
        }
    }
}
