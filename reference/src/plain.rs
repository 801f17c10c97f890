//! Which files are plain (RULES 8).

use crate::check::accept;
use crate::limits::refusal;
use crate::model::{Chart, Edition, Model, Node, Transition};
use crate::set::Set;

/// The answer of [`plain`].
#[derive(Clone, Copy, PartialEq, Eq, Debug)]
pub struct Plain {
    pub refusal: u8,
    pub plain: bool,
}

/// The call `plain`. Refusals 1 to 11. The answer is no for a refused file, and for every accepted
/// file of edition 2 (RULES 8.3).
pub fn plain(file: &[u8]) -> Plain {
    match accept(file) {
        Ok(model) => Plain {
            refusal: refusal::SUCCESS,
            plain: is_plain(&model),
        },
        Err(number) => Plain {
            refusal: number,
            plain: false,
        },
    }
}

/// Edition 1, and every two places of one chart's list whose transitions leave the same state are
/// told apart (RULES 8.2).
pub fn is_plain(model: &Model) -> bool {
    let feedback = feedback_sets(model);
    let mut pairs = model.charts.iter().flat_map(pairs_from_one_state);
    model.edition == Edition::First && pairs.all(|(one, other)| told_apart(&feedback, one, other))
}

/// The feedback sets of a file: of each chart, and x of each composed node. What a hidden node
/// removes does not count (RULES 8.1).
pub fn feedback_sets(model: &Model) -> Vec<Set> {
    let of_charts = model.charts.iter().map(|chart| chart.feedback);
    let of_nodes = model.nodes.iter().filter_map(|node| match *node {
        Node::Composed { feedback, .. } => Some(feedback),
        Node::Chart { .. } | Node::Hidden { .. } => None,
    });
    of_charts.chain(of_nodes).collect()
}

/// Each two transitions of a chart that leave the same state, the earlier one first.
pub fn pairs_from_one_state(chart: &Chart) -> Vec<(&Transition, &Transition)> {
    let mut pairs = Vec::new();
    for (place, one) in chart.transitions.iter().enumerate() {
        for other in &chart.transitions[place + 1..] {
            if one.from == other.from {
                pairs.push((one, other));
            }
        }
    }
    pairs
}

/// Whether one transition needs a signal that the other bars and that is not fed back (RULES 8.2).
fn told_apart(feedback: &[Set], one: &Transition, other: &Transition) -> bool {
    let parts = |signal: Set, needing: &Transition, barring: &Transition| {
        needing.needed.holds_all(signal) && barring.barred.holds_all(signal)
    };
    Set::FULL.signals().map(Set::one).any(|signal| {
        (parts(signal, one, other) || parts(signal, other, one))
            && feedback.iter().all(|set| set.holds_none(signal))
    })
}
