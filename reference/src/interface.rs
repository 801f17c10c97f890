//! Input and output interface (RULES 4).

use crate::check::accept;
use crate::limits::refusal;
use crate::model::{Chart, Model, Node};
use crate::set::Set;

/// The answer of [`interface`].
#[derive(Clone, PartialEq, Eq, Debug)]
pub struct Interface {
    pub refusal: u8,
    pub input: Set,
    pub output: Set,
}

/// The call `interface`. Refusals 1 to 11; both sets of a refused file are empty.
pub fn interface(file: &[u8]) -> Interface {
    match accept(file) {
        Ok(model) => Interface {
            refusal: refusal::SUCCESS,
            input: node_input(&model, model.whole() as u8),
            output: node_output(&model, model.whole() as u8),
        },
        Err(number) => Interface {
            refusal: number,
            input: Set::EMPTY,
            output: Set::EMPTY,
        },
    }
}

/// The signals that a chart's guards name, and its extra set (RULES 4.1).
pub fn chart_input(chart: &Chart) -> Set {
    let guards = chart.transitions.iter().map(|t| t.needed.joined(t.barred));
    Set::union(guards).joined(chart.extra)
}

/// The signals of a chart's actions (RULES 4.1). The extra set belongs to the input only.
pub fn chart_output(chart: &Chart) -> Set {
    Set::union(chart.transitions.iter().map(|t| t.action))
}

/// The input interface of a node; a hidden one removes x (RULES 4.2).
pub fn node_input(model: &Model, node: u8) -> Set {
    of_node(model, node, chart_input, |filtered, _| filtered)
}

/// The output interface of a node; a hidden one removes y (RULES 4.2).
pub fn node_output(model: &Model, node: u8) -> Set {
    of_node(model, node, chart_output, |_, hidden| hidden)
}

/// An interface of a node, from that of a chart and what a hidden node removes.
fn of_node(model: &Model, node: u8, own: fn(&Chart) -> Set, lost: fn(Set, Set) -> Set) -> Set {
    let of = |part: u8| of_node(model, part, own, lost);
    match model.nodes[usize::from(node)] {
        // a chart alone, or a master with its slaves
        Node::Chart { chart } => {
            let slaves = model.slaves_of(chart).map(|slave| of(slave.node));
            own(&model.charts[usize::from(chart)]).joined(Set::union(slaves))
        }
        // both parts
        Node::Composed { a, b, .. } => of(a).joined(of(b)),
        Node::Hidden {
            part,
            filtered,
            hidden,
        } => of(part).less(lost(filtered, hidden)),
    }
}
