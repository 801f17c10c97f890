//! Refusals 1 to 11 (RULES 3.2). Each test looks at all of the file before the next one begins.

use crate::file::{NodeRecord, Records, Trailer};
use crate::limits::*;
use crate::model::{Edition, Model};
use crate::set::Set;

/// The call `check`: 0, or one of 1 to 11 (RULES 3.6).
pub fn check(file: &[u8]) -> u8 {
    match accept(file) {
        Ok(_) => refusal::SUCCESS,
        Err(number) => number,
    }
}

/// The model of an accepted file, or the lowest of 1 to 11 that applies.
pub fn accept(file: &[u8]) -> Result<Model, u8> {
    let records = accept_layout(file)?;
    accept_records(&records)?;
    let model = Model::of(&records);
    accept_structure(&model)?;
    Ok(model)
}

/// 1 to 4: the trailer, by which the records are found.
fn accept_layout(file: &[u8]) -> Result<Records, u8> {
    refuse_if(file.len() < TRAILER_BYTES, refusal::TOO_SHORT)?;
    let trailer = Trailer::read(file);
    refuse_if(Edition::of(trailer.edition).is_none(), refusal::EDITION)?;
    refuse_if(counts_out_of_range(&trailer), refusal::COUNTS)?;
    refuse_if(distance_wrong(&trailer, file.len()), refusal::DISTANCE)?;
    Ok(Records::read(file))
}

/// 5 to 9: the records one by one.
fn accept_records(records: &Records) -> Result<(), u8> {
    refuse_if(zero_byte_set(records), refusal::ZERO_BYTE)?;
    refuse_if(chart_wrong(records), refusal::CHART)?;
    refuse_if(transition_wrong(records), refusal::TRANSITION)?;
    refuse_if(slave_wrong(records), refusal::SLAVE)?;
    refuse_if(node_wrong(records), refusal::NODE)
}

/// 10 and 11: how the nodes hang together.
fn accept_structure(model: &Model) -> Result<(), u8> {
    refuse_if(naming_wrong(model), refusal::NAMING)?;
    refuse_if(numbering_wrong(model), refusal::NUMBERING)
}

/// A refusal, if its test applies.
pub fn refuse_if(applies: bool, number: u8) -> Result<(), u8> {
    if applies {
        Err(number)
    } else {
        Ok(())
    }
}

/// 3: a count is outside the limits of RULES 2.8.
fn counts_out_of_range(trailer: &Trailer) -> bool {
    !(1..=CHARTS).contains(&usize::from(trailer.charts))
        || usize::from(trailer.slaves) > SLAVES
        || !(1..=NODES).contains(&usize::from(trailer.nodes))
        || usize::from(trailer.transitions) > TRANSITIONS
}

/// 4: the distance differs from the body size, or the file has fewer bytes before its trailer.
fn distance_wrong(trailer: &Trailer, length: usize) -> bool {
    trailer.distance as usize != trailer.body_bytes()
        || trailer.distance as usize > length - TRAILER_BYTES
}

/// 5: a zero byte is not 0, in a chart, transition, slave or node record or in the trailer. A
/// node's unused b, x and y are fields, not zero bytes, and fall under 9.
fn zero_byte_set(records: &Records) -> bool {
    records.charts.iter().any(|chart| chart.zeros != [0; 5])
        || records
            .transitions
            .iter()
            .any(|transition| transition.zeros != [0; 2])
        || records.slaves.iter().any(|slave| slave.zero != 0)
        || records.nodes.iter().any(|node| node.zero != 0)
        || records.trailer.zeros != [0; 2]
}

/// 6: no state or more than 16, an initial state that the chart lacks, more than 64 transitions, or
/// a sum that is not the trailer's number.
fn chart_wrong(records: &Records) -> bool {
    let sum: usize = records
        .charts
        .iter()
        .map(|chart| usize::from(chart.transitions))
        .sum();
    records.charts.iter().any(|chart| {
        !(1..=STATES).contains(&usize::from(chart.states))
            || chart.initial >= chart.states
            || usize::from(chart.transitions) > CHART_TRANSITIONS
    }) || sum != usize::from(records.trailer.transitions)
}

/// 7: a state that the chart lacks, or more than 8 transitions that leave one state.
fn transition_wrong(records: &Records) -> bool {
    (0..records.charts.len()).any(|chart| {
        let states = records.charts[chart].states;
        let transitions = records.transitions_of(chart);
        let out_of = |state| transitions.iter().filter(|t| t.from == state).count();
        transitions
            .iter()
            .any(|t| t.from >= states || t.to >= states)
            || (0..states).any(|state| out_of(state) > STATE_TRANSITIONS)
    })
}

/// 8: a slave names a chart, state or node that does not exist, or the slaves are out of order.
fn slave_wrong(records: &Records) -> bool {
    let out_of_range =
        records
            .slaves
            .iter()
            .any(|slave| match records.charts.get(usize::from(slave.chart)) {
                None => true,
                Some(chart) => {
                    slave.state >= chart.states || usize::from(slave.node) >= records.nodes.len()
                }
            });
    let not_rising = records
        .slaves
        .windows(2)
        .any(|pair| (pair[0].chart, pair[0].state) >= (pair[1].chart, pair[1].state));
    out_of_range || not_rising
}

/// 9: a kind above 2, a chart that does not exist, a named node that is not lower than the node
/// itself, or a value in a field that the kind does not use.
fn node_wrong(records: &Records) -> bool {
    let charts = records.charts.len();
    records
        .nodes
        .iter()
        .enumerate()
        .any(|(own, node)| names_wrong(node, own, charts) || unused_field_set(node))
}

/// 9: a node's kind and names.
fn names_wrong(node: &NodeRecord, own: usize, charts: usize) -> bool {
    let (a, b) = (usize::from(node.a), usize::from(node.b));
    match node.kind {
        KIND_CHART => a >= charts,
        KIND_COMPOSED => a >= own || b >= own,
        KIND_HIDDEN => a >= own,
        _ => true,
    }
}

/// 9: a value in a field that the node's kind does not use (the table of RULES 2.6).
fn unused_field_set(node: &NodeRecord) -> bool {
    match node.kind {
        KIND_CHART => node.b != 0 || node.x != Set::EMPTY || node.y != Set::EMPTY,
        KIND_COMPOSED => node.y != Set::EMPTY,
        KIND_HIDDEN => node.b != 0,
        _ => false,
    }
}

/// 10: the nodes do not make one tree. Each chart has one node that holds it, each node but the
/// last has one name, the last has none, and a slave's node is lower than its master's.
fn naming_wrong(model: &Model) -> bool {
    let whole = model.whole() as u8;
    (0..model.charts.len() as u8).any(|chart| model.holders(chart).len() != 1)
        || (0..whole).any(|node| times_named(model, node) != 1)
        || times_named(model, whole) != 0
        || model
            .slaves
            .iter()
            .any(|slave| slave.node >= model.holders(slave.chart)[0])
}

/// How many names a node has, those in nodes and those in slaves.
fn times_named(model: &Model, node: u8) -> usize {
    let by_nodes = model.nodes.iter().flat_map(|other| other.names());
    let by_slaves = model.slaves.iter().map(|slave| slave.node);
    by_nodes
        .chain(by_slaves)
        .filter(|&name| name == node)
        .count()
}

/// 11: a chart inside a slave has a number that is not above the slave's master's.
fn numbering_wrong(model: &Model) -> bool {
    model.slaves.iter().any(|slave| {
        model
            .charts_inside(slave.node)
            .iter()
            .any(|&chart| chart <= slave.chart)
    })
}
