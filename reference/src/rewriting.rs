//! The rewriting (RULES 9).

use crate::check::{accept, refuse_if};
use crate::limits::*;
use crate::model::{Chart, Edition, Model, Node, Slave, Transition};
use crate::set::Set;

/// The answer of [`rewrite`].
#[derive(Clone, PartialEq, Eq, Debug)]
pub struct Rewritten {
    pub refusal: u8,
    pub length: usize,
}

/// The call `rewriting`. It tests 1 to 11, 46, 40, 41, 42, 44, 45 (RULES 3.6): edition 2 is refused,
/// since a master that stays has no action in which it could call its slave. Writes the rewritten
/// file, which has no front, to the front of the buffer. The length of a refused one is 0.
pub fn rewrite(file: &[u8], room: &mut [u8]) -> Rewritten {
    match try_rewrite(file, room.len()) {
        Ok(written) => {
            room[..written.len()].copy_from_slice(&written);
            Rewritten {
                refusal: refusal::SUCCESS,
                length: written.len(),
            }
        }
        Err(number) => Rewritten {
            refusal: number,
            length: 0,
        },
    }
}

/// The file to be written, or the refusal.
fn try_rewrite(file: &[u8], room: usize) -> Result<Vec<u8>, u8> {
    let model = accept(file)?;
    refuse_if(model.edition == Edition::Second, refusal::REWRITING_EDITION)?;
    let calls = calls(&model).ok_or(refusal::REWRITING_SIGNALS)?;
    let rewritten = rewrite_model(&model, &calls);
    accept_limits(&rewritten)?;
    let written = rewritten.file();
    refuse_if(room < written.len(), refusal::REWRITING_ROOM)?;
    Ok(written)
}

/// 41, 42 and 44, each over the whole result before the next (RULES 9.6).
fn accept_limits(model: &Model) -> Result<(), u8> {
    let charts = &model.charts;
    refuse_if(charts.iter().any(state_full), refusal::REWRITING_STATE)?;
    refuse_if(charts.iter().any(chart_full), refusal::REWRITING_CHART)?;
    refuse_if(model.nodes.len() > NODES, refusal::REWRITING_NODES)
}

/// 41: more than 8 transitions would leave one state.
fn state_full(chart: &Chart) -> bool {
    let out_of = |state| chart.transitions.iter().filter(|t| t.from == state).count();
    (0..chart.states).any(|state| out_of(state) > STATE_TRANSITIONS)
}

/// 42: a chart would have more than 64 transitions.
fn chart_full(chart: &Chart) -> bool {
    chart.transitions.len() > CHART_TRANSITIONS
}

/// The call signals, one for each slave record: the lowest free signal, then the next one, and so
/// on (RULES 9.2). None if there are not enough.
pub fn calls(model: &Model) -> Option<Vec<Set>> {
    let free = Set::FULL.less(used_signals(model));
    let calls: Vec<Set> = free
        .signals()
        .take(model.slaves.len())
        .map(Set::one)
        .collect();
    if calls.len() == model.slaves.len() {
        Some(calls)
    } else {
        None
    }
}

/// The signals that are in a set of the file, so are not free (RULES 9.2).
fn used_signals(model: &Model) -> Set {
    let in_charts = model.charts.iter().map(|c| c.feedback.joined(c.extra));
    let all = model.charts.iter().flat_map(|chart| &chart.transitions);
    let in_transitions = all.map(|t| t.needed.joined(t.barred).joined(t.action));
    let in_nodes = model.nodes.iter().map(|node| match *node {
        Node::Chart { .. } => Set::EMPTY,
        Node::Composed { feedback, .. } => feedback,
        Node::Hidden {
            filtered, hidden, ..
        } => filtered.joined(hidden),
    });
    Set::union(in_charts.chain(in_transitions).chain(in_nodes))
}

/// The rewritten file, whatever its size: it has no slaves, and its charts keep their sets
/// (RULES 9.3, 9.5).
pub fn rewrite_model(model: &Model, calls: &[Set]) -> Model {
    let charts = 0..model.charts.len() as u8;
    Model {
        edition: model.edition,
        charts: charts
            .map(|chart| rewrite_chart(model, calls, chart))
            .collect(),
        slaves: vec![],
        nodes: rewrite_nodes(model, calls),
    }
}

/// A master's slaves with their call signals, by state.
fn called_slaves<'a>(model: &'a Model, calls: &[Set], chart: u8) -> Vec<(&'a Slave, Set)> {
    model
        .slaves
        .iter()
        .zip(calls.iter().copied())
        .filter(|(slave, _)| slave.chart == chart)
        .collect()
}

/// A chart's own transitions rewritten, then its idle transitions if it is inside a slave
/// (RULES 9.3).
fn rewrite_chart(model: &Model, calls: &[Set], number: u8) -> Chart {
    let chart = &model.charts[usize::from(number)];
    let slaves = called_slaves(model, calls, number);
    // the call signal of the nearest slave
    let own_call = model.nearest_slave(number).map(|place| calls[place]);
    let mut transitions: Vec<Transition> = chart
        .transitions
        .iter()
        .map(|transition| rewrite_transition(transition, &slaves, own_call))
        .collect();
    if let Some(call) = own_call {
        transitions.extend((0..chart.states).map(|state| idle(state, call)));
    }
    Chart {
        transitions,
        ..chart.clone()
    }
}

/// A chart's own transition: it outputs the call signals of the slaves whose state it leaves or
/// enters, and needs that of the chart's nearest slave (RULES 9.3).
fn rewrite_transition(
    transition: &Transition,
    slaves: &[(&Slave, Set)],
    own_call: Option<Set>,
) -> Transition {
    let called = slaves
        .iter()
        .filter(|(slave, _)| transition.from == slave.state || transition.to == slave.state)
        .map(|&(_, call)| call);
    Transition {
        needed: transition.needed.joined(own_call.unwrap_or(Set::EMPTY)),
        action: transition.action.joined(Set::union(called)),
        ..transition.clone()
    }
}

/// The idle transitions of a chart, by state: from the state to itself, barring the call signal,
/// without action, also in a master (RULES 9.3).
fn idle(state: u8, call: Set) -> Transition {
    Transition {
        from: state,
        to: state,
        needed: Set::EMPTY,
        barred: call,
        action: Set::EMPTY,
    }
}

/// All nodes, from node 0 up, with new numbers. Where an old node became several, its new number is
/// that of the last (RULES 9.4).
fn rewrite_nodes(model: &Model, calls: &[Set]) -> Vec<Node> {
    let mut made: Vec<Node> = Vec::new();
    let mut new_names: Vec<u8> = Vec::new();
    for node in &model.nodes {
        match *node {
            Node::Chart { chart } if model.is_master(chart) => {
                push_master(model, calls, chart, &new_names, &mut made)
            }
            _ => made.push(node.renamed(|old| new_names[usize::from(old)])),
        }
        new_names.push(last(&made));
    }
    made
}

/// A master's nodes (RULES 9.4): its chart; then a composed node for each slave by state, with the
/// master's feedback and all its call signals as x; last a hidden node that removes these call
/// signals on both sides.
fn push_master(model: &Model, calls: &[Set], chart: u8, new_names: &[u8], made: &mut Vec<Node>) {
    let slaves = called_slaves(model, calls, chart);
    let all_calls = Set::union(slaves.iter().map(|&(_, call)| call));
    let feedback = model.charts[usize::from(chart)].feedback;
    made.push(Node::Chart { chart });
    for (slave, _) in slaves {
        made.push(Node::Composed {
            a: last(made),
            b: new_names[usize::from(slave.node)],
            feedback: feedback.joined(all_calls),
        });
    }
    made.push(Node::Hidden {
        part: last(made),
        filtered: all_calls,
        hidden: all_calls,
    });
}

/// The number of the node made last.
fn last(made: &[Node]) -> u8 {
    (made.len() - 1) as u8
}
