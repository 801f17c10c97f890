//! The number of open choices (RULES 5.15), counted in two ways: one choice after the other, and
//! part by part where there are too many for that. The tests compare the two, and both with the
//! count over all choices that there are.

use crate::model::{Chart, Edition, Model, Node, Slave, Transition};
use crate::set::Set;
use crate::step::Situation;

/// The most open choices that are counted one by one.
pub const FEW: u64 = 2_000;

/// How many choices are open at a configuration that has passed 20 and 21. The input makes no
/// difference to it.
pub fn open_choices(model: &Model, configuration: &[u8]) -> u64 {
    match by_parts(model, configuration) {
        few if few <= FEW => one_by_one(model, configuration),
        many => many,
    }
}

/// The open choices, counted one after the other.
pub fn one_by_one(model: &Model, configuration: &[u8]) -> u64 {
    let mut count = 0;
    let situation = Situation::new(model, configuration, Set::EMPTY);
    situation.each_open_choice(&mut |_| count += 1);
    count
}

/// The ways of the whole, which is active (RULES 5.3).
pub fn by_parts(model: &Model, configuration: &[u8]) -> u64 {
    ways(model, configuration)[model.whole()]
}

/// For each node, in how many ways its charts can move while it is active, guards aside. An
/// inactive node has one way: none of its charts takes a transition. All parts of a node are lower
/// (tests 9 and 10). A chart has at most 9 moves, so no number is above 9^16, which is below 2^64.
pub fn ways(model: &Model, configuration: &[u8]) -> Vec<u64> {
    let mut ways: Vec<u64> = Vec::with_capacity(model.nodes.len());
    for node in &model.nodes {
        let of = |part: u8| ways[usize::from(part)];
        let own = match *node {
            // for each move of the chart, those of the slaves that it makes active
            Node::Chart { chart } => states_after(model, configuration, chart)
                .into_iter()
                .map(|after| ways_of_slaves(model, configuration, chart, after, &ways))
                .sum(),
            // every way of one part with every way of the other
            Node::Composed { a, b, .. } => of(a) * of(b),
            Node::Hidden { part, .. } => of(part),
        };
        ways.push(own);
    }
    ways
}

/// The state after each move that an active chart has, guards aside (RULES 5.7): after each
/// transition from its present state, and in edition 2 after staying.
fn states_after(model: &Model, configuration: &[u8], chart: u8) -> Vec<u8> {
    let before = configuration[usize::from(chart)];
    let Chart { transitions, .. } = &model.charts[usize::from(chart)];
    let leaving = |transition: &&Transition| transition.from == before;
    let entered = transitions.iter().filter(leaving).map(|t| t.to);
    let stayed = match model.edition {
        Edition::First => None,
        Edition::Second => Some(before),
    };
    entered.chain(stayed).collect()
}

/// The ways of all slaves of an active chart that goes to a state: the product of those of the
/// active ones (RULES 5.3).
pub fn ways_of_slaves(
    model: &Model,
    configuration: &[u8],
    chart: u8,
    after: u8,
    ways: &[u64],
) -> u64 {
    let before = configuration[usize::from(chart)];
    let active = |slave: &&Slave| slave.state == before || slave.state == after;
    let slaves = model.slaves_of(chart).filter(active);
    slaves.map(|slave| ways[usize::from(slave.node)]).product()
}
