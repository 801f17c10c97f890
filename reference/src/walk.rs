//! Random files with slaves that are small enough to be walked through all their configurations, and
//! what is offered to them on the way.

use crate::generate::{input, most_places, Random, Shape, Size};
use crate::interface::node_input;
use crate::model::{Model, Node, Slave};
use crate::rewriting::calls;
use crate::set::Set;
use crate::step::Place;

/// A random file with slaves, and its shape; it has at most so many configurations.
pub fn with_slaves(random: &mut Random, most: usize) -> (Shape, Model) {
    loop {
        let (shape, model) = any_size(random);
        if !model.slaves.is_empty() && has_few_configurations(&model, most) {
            return (shape, model);
        }
    }
}

/// A random file of up to eight charts, or of more: one in four.
pub fn any_size(random: &mut Random) -> (Shape, Model) {
    let size = random.pick(&[Size::Small, Size::Small, Size::Small, Size::Large]);
    size.any(random)
}

/// Whether a file has at most so many configurations.
pub fn has_few_configurations(model: &Model, most: usize) -> bool {
    let mut states = model.charts.iter().map(|c| usize::from(c.states));
    let product = states.try_fold(1_usize, |all, states| all.checked_mul(states));
    product.is_some_and(|all| all <= most)
}

/// Every configuration that passes 20 and 21, in order.
pub fn configurations(model: &Model) -> Vec<Vec<u8>> {
    let states = model.charts.iter().map(|chart| 0..chart.states);
    every(states.map(Iterator::collect).collect())
}

/// How many choices there are at most, each chart being in the state with the most transitions;
/// there are at most 9^16.
pub fn from_any_state(model: &Model) -> usize {
    let charts = model.charts.iter();
    let most = charts.map(|chart| {
        let places = |state| most_places(model.edition, chart, state);
        (0..chart.states).map(places).max().unwrap_or(1)
    });
    most.product()
}

/// Every list that has one of each list's values, in order.
pub fn every<T: Clone>(lists: Vec<Vec<T>>) -> Vec<Vec<T>> {
    let longer = |all: Vec<Vec<T>>, list: Vec<T>| {
        let one = |begun: Vec<T>| {
            let with = |value: &T| [&begun[..], std::slice::from_ref(value)].concat();
            list.iter().map(with).collect::<Vec<Vec<T>>>()
        };
        all.into_iter().flat_map(one).collect()
    };
    lists.into_iter().fold(vec![vec![]], longer)
}

/// Every choice there is, in order: for each chart none, then each of its transitions, then staying,
/// which edition 1 never permits.
pub fn all_choices(model: &Model) -> Vec<Vec<Place>> {
    let places = model.charts.iter().map(|chart| {
        let taken = (0..chart.transitions.len()).map(Place::Transition);
        let none = [Place::None].into_iter();
        none.chain(taken).chain([Place::Stay]).collect()
    });
    every(places.collect())
}

/// No signal, all of them, each of the interface alone, the call signals that the rewriting would
/// give, and three random inputs.
pub fn inputs(random: &mut Random, shape: &Shape, model: &Model) -> Vec<Set> {
    let interface = node_input(model, model.whole() as u8);
    let calls = calls(model).unwrap_or_default();
    let mut inputs = vec![Set::EMPTY, Set::FULL, Set::union(calls.into_iter())];
    inputs.extend(interface.signals().map(Set::one));
    inputs.extend((0..3).map(|_| input(random, shape)));
    inputs
}

/// Whether a slave has a master inside.
pub fn is_nested(model: &Model) -> bool {
    let mut masters = model.slaves.iter().map(|slave| slave.chart);
    masters.any(|master| model.nearest_slave(master).is_some())
}

/// Whether a slave has a hidden node inside.
pub fn hides_inside(model: &Model) -> bool {
    let mut slaves = model.slaves.iter();
    slaves.any(|slave| has_hidden(model, slave.node))
}

/// Whether a node is hidden or has a hidden part.
fn has_hidden(model: &Model, node: u8) -> bool {
    let node = &model.nodes[usize::from(node)];
    let mut parts = node.names().into_iter();
    matches!(node, Node::Hidden { .. }) || parts.any(|part| has_hidden(model, part))
}

/// Whether a master has several slaves.
pub fn has_several(model: &Model) -> bool {
    let chart = |slave: &Slave| slave.chart;
    model
        .slaves
        .windows(2)
        .any(|two| chart(&two[0]) == chart(&two[1]))
}
