//! The charts that the cases are about: those of docs/EXAMPLES.md, section 2, and a few more, each
//! as small as its purpose allows.

use crate::limits::*;
use crate::model::{Chart, Edition, Model, Node, Slave, Transition};
use crate::set::Set;

/// A transition, sets by their signals.
pub fn go(from: u8, to: u8, needed: &[u32], barred: &[u32], action: &[u32]) -> Transition {
    Transition {
        from,
        to,
        needed: Set::of(needed),
        barred: Set::of(barred),
        action: Set::of(action),
    }
}

/// A chart with initial state 0 and no extra set.
pub fn chart(states: u8, feedback: &[u32], transitions: Vec<Transition>) -> Chart {
    Chart {
        states,
        initial: 0,
        feedback: Set::of(feedback),
        extra: Set::EMPTY,
        transitions,
    }
}

/// A slave record.
pub fn slave(chart: u8, state: u8, node: u8) -> Slave {
    Slave { chart, state, node }
}

/// A node that holds a chart.
pub fn leaf(chart: u8) -> Node {
    Node::Chart { chart }
}

/// A composed node.
pub fn composed(a: u8, b: u8, feedback: &[u32]) -> Node {
    let feedback = Set::of(feedback);
    Node::Composed { a, b, feedback }
}

/// A hidden node.
pub fn hidden(part: u8, filtered: &[u32], hidden: &[u32]) -> Node {
    Node::Hidden {
        part,
        filtered: Set::of(filtered),
        hidden: Set::of(hidden),
    }
}

/// One chart that is the whole.
pub fn alone(chart: Chart) -> Model {
    Model {
        edition: Edition::First,
        charts: vec![chart],
        slaves: vec![],
        nodes: vec![leaf(0)],
    }
}

/// Two charts composed.
pub fn beside(first: Chart, second: Chart, feedback: &[u32]) -> Model {
    Model {
        edition: Edition::First,
        charts: vec![first, second],
        slaves: vec![],
        nodes: vec![leaf(0), leaf(1), composed(0, 1, feedback)],
    }
}

/// A master, chart 0, and one slave, chart 1, in one of its states.
pub fn decomposed(master: Chart, state: u8, inner: Chart) -> Model {
    Model {
        edition: Edition::First,
        charts: vec![master, inner],
        slaves: vec![slave(0, state, 0)],
        nodes: vec![leaf(1), leaf(0)],
    }
}

/// The model with its whole hidden once more.
pub fn wrapped(mut model: Model, filtered: &[u32], hides: &[u32]) -> Model {
    let whole = model.whole() as u8;
    model.nodes.push(hidden(whole, filtered, hides));
    model
}

/// The whole file of docs/FORMAT.md, without its front: one chart of two states, 0 to 1 needing {0}
/// with action {1}, and 1 to 0 needing {1}.
pub fn whole_case() -> Model {
    alone(chart(
        2,
        &[],
        vec![go(0, 1, &[0], &[], &[1]), go(1, 0, &[1], &[], &[])],
    ))
}

/// L1: a chart that needs its own output, and feeds it back.
pub fn l1() -> Model {
    alone(chart(2, &[0], vec![go(0, 1, &[0], &[], &[0])]))
}

/// L2: a chart that bars its own output, and feeds it back.
pub fn l2() -> Model {
    alone(chart(2, &[0], vec![go(0, 1, &[], &[0], &[0])]))
}

/// L3: L1 without feedback.
pub fn l3() -> Model {
    alone(chart(2, &[], vec![go(0, 1, &[0], &[], &[0])]))
}

/// P1: the second chart needs what the first outputs, and it is fed back.
pub fn p1() -> Model {
    p1_with(&[1])
}

/// P2: P1 without feedback.
pub fn p2() -> Model {
    p1_with(&[])
}

/// P1 with its first chart hidden.
pub fn p1_first_hidden(x: &[u32], y: &[u32]) -> Model {
    Model {
        nodes: vec![leaf(0), hidden(0, x, y), leaf(1), composed(1, 2, &[1])],
        ..p1()
    }
}

/// P1 with its second chart hidden.
pub fn p1_second_hidden(x: &[u32], y: &[u32]) -> Model {
    Model {
        nodes: vec![leaf(0), leaf(1), hidden(1, x, y), composed(0, 2, &[1])],
        ..p1()
    }
}

/// P1 with any feedback of the composed node.
fn p1_with(feedback: &[u32]) -> Model {
    beside(
        chart(2, &[], vec![go(0, 1, &[0], &[], &[1])]),
        chart(2, &[], vec![go(0, 1, &[1], &[], &[2])]),
        feedback,
    )
}

/// P3: P1 hidden, with the signal between the two charts removed on both sides.
pub fn p3() -> Model {
    wrapped(p1(), &[1], &[1])
}

/// P4: each chart needs what the other outputs, and both signals are fed back.
pub fn p4() -> Model {
    beside(
        chart(2, &[], vec![go(0, 1, &[1], &[], &[0])]),
        chart(2, &[], vec![go(0, 1, &[0], &[], &[1])]),
        &[0, 1],
    )
}

/// N1: two transitions with empty guards that differ in action and next state.
pub fn n1() -> Model {
    let transitions = vec![go(0, 0, &[], &[], &[1]), go(0, 1, &[], &[], &[2])];
    alone(chart(2, &[], transitions))
}

/// N2: two equal transitions.
pub fn n2() -> Model {
    let transitions = vec![go(0, 1, &[], &[], &[1]), go(0, 1, &[], &[], &[1])];
    alone(chart(2, &[], transitions))
}

/// D: chart 0 is a master with feedback {1}, and chart 1 its slave of state 1. Entering that state,
/// the master outputs the 1 that the slave needs.
pub fn d() -> Model {
    decomposed(
        chart(
            2,
            &[1],
            vec![
                go(0, 1, &[0], &[], &[1]),
                go(0, 0, &[], &[0], &[]),
                go(1, 0, &[3], &[], &[]),
            ],
        ),
        1,
        chart(
            2,
            &[],
            vec![go(0, 1, &[1], &[], &[2]), go(1, 1, &[3], &[], &[4])],
        ),
    )
}

/// D hidden: a file with every kind of record and of node but a composed one.
pub fn d_hidden() -> Model {
    wrapped(d(), &[], &[2])
}

/// A slave inside a slave: chart 0 moves between 0 and 1, its slave chart 1 in state 1 does so too,
/// and has chart 2 in its state 1.
pub fn nested() -> Model {
    let mover = |signal| {
        let moves = vec![
            go(0, 1, &[signal], &[], &[signal + 8]),
            go(0, 0, &[], &[signal], &[]),
            go(1, 0, &[signal], &[], &[]),
            go(1, 1, &[], &[signal], &[signal + 16]),
        ];
        chart(2, &[], moves)
    };
    Model {
        edition: Edition::First,
        charts: vec![mover(0), mover(1), mover(2)],
        slaves: vec![slave(0, 1, 1), slave(1, 1, 0)],
        nodes: vec![leaf(2), leaf(1), leaf(0)],
    }
}

/// A chart with one state, one transition with an empty guard and an action of one signal.
pub fn ticking(signal: u32) -> Chart {
    chart(1, &[], vec![go(0, 0, &[], &[], &[signal])])
}

/// This many charts with one state, composed one after the other.
pub fn row_of(charts: u8) -> Model {
    row_of_charts(
        (0..charts)
            .map(|number| ticking(u32::from(number)))
            .collect(),
    )
}

/// Charts composed one after the other, without feedback.
pub fn row_of_charts(charts: Vec<Chart>) -> Model {
    let count = charts.len() as u8;
    let mut nodes: Vec<Node> = (0..count).map(leaf).collect();
    for number in 1..count {
        let so_far = if number == 1 {
            0
        } else {
            nodes.len() as u8 - 1
        };
        nodes.push(composed(so_far, number, &[]));
    }
    Model {
        edition: Edition::First,
        charts,
        slaves: vec![],
        nodes,
    }
}

/// A master with one slave in each of its states, as many as asked for; chart 0 starts in state 0
/// and can stay there or move to any other of the first eight states, whatever is offered.
pub fn master_of(slaves: u8) -> Model {
    let entered = slaves.min(STATE_TRANSITIONS as u8);
    let moves = (0..entered).map(|to| go(0, to, &[], &[], &[])).collect();
    let mut charts = vec![chart(slaves, &[], moves)];
    charts.extend((0..slaves).map(|number| ticking(u32::from(number) + 1)));
    let mut nodes: Vec<Node> = (1..=slaves).map(leaf).collect();
    nodes.push(leaf(0));
    Model {
        edition: Edition::First,
        charts,
        slaves: (0..slaves).map(|state| slave(0, state, state)).collect(),
        nodes,
    }
}

/// A chart of one state, hidden again and again until there are this many nodes.
pub fn hidden_deep(nodes: u8) -> Model {
    let mut model = alone(ticking(5));
    while model.nodes.len() < usize::from(nodes) {
        model = wrapped(model, &[], &[]);
    }
    model
}

/// A chart of this many states with this many transitions, each from the next state in turn.
pub fn spread(states: u8, transitions: usize) -> Chart {
    let moves = (0..transitions).map(|place| {
        let from = (place % usize::from(states)) as u8;
        go(from, (from + 1) % states, &[], &[], &[])
    });
    chart(states, &[], moves.collect())
}

/// As many charts, each with as many transitions, as a file can have.
pub fn fullest() -> Model {
    full_charts(CHARTS)
}

/// So many charts, each with as many transitions as it can have.
pub fn full_charts(charts: usize) -> Model {
    let full = spread(STATES as u8, CHART_TRANSITIONS);
    row_of_charts(vec![full; charts])
}

/// The longest file, with about the longest text: every set full, as many transitions as there can be and most
/// of them between states of two digits, a slave for each state but one, and hidings for the nodes that are left.
pub fn longest() -> Model {
    let mut model = master_of(15);
    for chart in &mut model.charts {
        *chart = spread(STATES as u8, CHART_TRANSITIONS);
        (chart.initial, chart.feedback, chart.extra) = (15, Set::FULL, Set::FULL);
        for (place, transition) in chart.transitions.iter_mut().enumerate() {
            transition.from = (8 + place / STATE_TRANSITIONS) as u8;
            transition.to = 15;
            (transition.needed, transition.barred) = (Set::FULL, Set::FULL);
            transition.action = Set::FULL;
        }
    }
    let all: Vec<u32> = (0..SIGNALS).collect();
    model.nodes.pop();
    for slave in &mut model.slaves {
        slave.state += 1;
    }
    for spare in 0..NODES - 16 {
        let slave = &mut model.slaves[spare % 15];
        model.nodes.push(hidden(slave.node, &all, &all));
        slave.node = model.nodes.len() as u8 - 1;
    }
    model.nodes.push(leaf(0));
    model
}

/// A chart of one state with this many transitions, whose guards are empty and whose actions differ.
pub fn free(transitions: u32) -> Chart {
    let moves = (0..transitions).map(|signal| go(0, 0, &[], &[], &[signal]));
    chart(1, &[], moves.collect())
}

/// So many of the charts before, composed.
pub fn free_row(charts: &[u32]) -> Model {
    row_of_charts(charts.iter().map(|&count| free(count)).collect())
}

/// Charts one inside the other: each but the last is a master, and the next is its slave of state 1.
/// A master in state 0 goes to 1 or back to 0, one in state 1 to 0 or back to 1.
pub fn nest(charts: u8) -> Model {
    let one = |number: u8| {
        let signal = u32::from(number);
        let moves = vec![
            go(0, 1, &[signal], &[], &[signal + 16]),
            go(0, 0, &[], &[signal], &[]),
            go(1, 0, &[signal], &[], &[]),
            go(1, 1, &[], &[signal], &[signal + 32]),
        ];
        chart(2, &[], moves)
    };
    Model {
        edition: Edition::First,
        charts: (0..charts).map(one).collect(),
        slaves: (1..charts)
            .map(|inner| slave(inner - 1, 1, charts - 1 - inner))
            .collect(),
        nodes: (0..charts).rev().map(leaf).collect(),
    }
}

/// A master with a slave of state 1 that has these charts composed. From 0 it goes to 1, or, if
/// asked for, back to 0.
pub fn around(charts: Vec<Chart>, back: bool) -> Model {
    let mut moves = vec![go(0, 1, &[], &[], &[20])];
    if back {
        moves.push(go(0, 0, &[], &[], &[21]));
    }
    let inner = row_of_charts(charts);
    let mut nodes: Vec<Node> = inner.nodes.iter().map(numbered_up).collect();
    nodes.push(leaf(0));
    Model {
        edition: Edition::First,
        charts: [vec![chart(2, &[], moves)], inner.charts].concat(),
        slaves: vec![slave(0, 1, nodes.len() as u8 - 2)],
        nodes,
    }
}

/// The node with the number of its chart raised by one.
fn numbered_up(node: &Node) -> Node {
    match node {
        Node::Chart { chart } => leaf(chart + 1),
        other => other.clone(),
    }
}
