//! Named cases of the rewriting.

use super::charts::*;
use super::damage::behind;
use super::file::one_fault;
use super::Case;
use crate::command::Command;
use crate::limits::*;
use crate::model::{Chart, Edition, Model};
use crate::set::Set;

/// All named cases of the rewriting.
pub fn cases() -> Vec<Case> {
    [
        given(),
        free_signals(),
        state_limit(),
        chart_limit(),
        node_limit(),
        rooms(),
        orders(),
        files(),
    ]
    .into_iter()
    .flatten()
    .collect()
}

/// The length of the rewritten file of a model, counted by RULES 9.3 and 9.4: each chart inside a
/// slave gets an idle transition for each state, each slave a composed node, each master a hidden
/// one, and there are no slave records.
pub fn rewritten_bytes(model: &Model) -> usize {
    let idle: usize = (0..model.charts.len())
        .filter(|&chart| model.nearest_slave(chart as u8).is_some())
        .map(|chart| usize::from(model.charts[chart].states))
        .sum();
    let masters = (0..model.charts.len())
        .filter(|&chart| model.is_master(chart as u8))
        .count();
    model.file().len() + idle * TRANSITION_BYTES + (model.slaves.len() + masters) * NODE_BYTES
        - model.slaves.len() * SLAVE_BYTES
}

/// A rewriting with a buffer of the length needed and this many bytes more.
fn fits(name: &str, model: &Model, more: usize) -> Case {
    let room = rewritten_bytes(model) + more;
    let command = Command::rewrite(name, model.file(), room);
    Case::new(command, refusal::SUCCESS)
}

/// A rewriting that is refused before its buffer is looked at.
fn refused(name: &str, model: &Model, number: u8) -> Case {
    Case::new(Command::rewrite(name, model.file(), 6), number)
}

/// A chart that is inside a slave and is a master too, with self transitions in its slave's state.
fn both() -> Model {
    let mut model = nested();
    model.charts[1].feedback = Set::of(&[10]);
    model.nodes = vec![
        leaf(2),
        hidden(0, &[5], &[18]),
        leaf(1),
        leaf(0),
        hidden(3, &[], &[]),
    ];
    model.slaves = vec![slave(0, 1, 2), slave(1, 1, 1)];
    model
}

/// Two masters side by side, the first with a composed slave, the second with two slaves.
fn two_masters() -> Model {
    let mover = |signal| {
        let moves = vec![
            go(0, 1, &[signal], &[], &[signal + 1]),
            go(1, 2, &[], &[signal], &[]),
            go(2, 0, &[], &[], &[signal + 2]),
        ];
        chart(3, &[signal + 1], moves)
    };
    Model {
        edition: Edition::First,
        charts: (0..6).map(mover).collect(),
        slaves: vec![slave(0, 2, 2), slave(1, 0, 4), slave(1, 2, 5)],
        nodes: vec![
            leaf(2),
            leaf(5),
            composed(0, 1, &[3]),
            leaf(3),
            hidden(3, &[3], &[]),
            leaf(4),
            leaf(1),
            leaf(0),
            composed(7, 6, &[1, 2, 3]),
        ],
    }
}

/// D and other shapes that can be rewritten.
fn given() -> Vec<Case> {
    let in_front = {
        let room = d().file().len() * 2;
        let command =
            Command::rewrite("rewrite-D-behind-front", behind(&[8; 21], d().file()), room);
        Case::new(command, refusal::SUCCESS)
    };
    let no_slaves = {
        let room = p3().file().len() + 1;
        let command = Command::rewrite(
            "rewrite-no-slaves-front",
            behind(&[1; 9], p3().file()),
            room,
        );
        Case::new(command, refusal::SUCCESS)
    };
    let between = {
        let mut model = master_of(3);
        model.charts[0].transitions = vec![
            go(0, 1, &[], &[], &[]),
            go(1, 1, &[], &[], &[]),
            go(2, 0, &[], &[], &[]),
        ];
        model
    };
    let no_own = decomposed(
        chart(2, &[], vec![go(0, 1, &[], &[], &[])]),
        1,
        chart(4, &[], vec![]),
    );
    vec![
        fits("rewrite-D", &d(), 5),
        in_front,
        no_slaves,
        fits("rewrite-whole-case", &whole_case(), 0),
        fits("rewrite-P3", &p3(), 2),
        fits("rewrite-D-hidden", &d_hidden(), 1),
        fits("rewrite-nested", &nested(), 1),
        fits("rewrite-slave-and-master", &both(), 1),
        fits("rewrite-two-masters", &two_masters(), 1),
        fits("rewrite-seven-slaves", &master_of(7), 1),
        fits("rewrite-transition-between-two-slaves", &between, 1),
        fits("rewrite-slave-without-transitions", &no_own, 1),
        fits(
            "rewrite-extra-sets-stay",
            &{
                let mut model = d();
                model.charts[0].extra = Set::of(&[5, 6]);
                model.charts[1].extra = Set::of(&[8]);
                model
            },
            1,
        ),
        fits(
            "rewrite-calls-between-used-numbers",
            &{
                let mut model = nested();
                model.charts[0].feedback = Set::of(&[3, 4, 6, 63]);
                model
            },
            1,
        ),
    ]
}

/// 40: more slaves than free signals (RULES 9.2).
fn free_signals() -> Vec<Case> {
    // signals 0 to 4 are used by D; the others go into one more set, all but those listed
    let mostly = |free: &[u32]| Set::FULL.less(Set::of(free));
    let with = |change: &dyn Fn(&mut Model)| {
        let mut model = d_hidden();
        change(&mut model);
        model
    };
    let bad = refusal::REWRITING_SIGNALS;
    let nested_with = |set: Set| {
        let mut model = nested();
        model.charts[2].extra = set;
        model
    };
    let node = |filtered: Set, hides: Set| {
        with(&|model| {
            model.nodes[2] = crate::model::Node::Hidden {
                part: 1,
                filtered,
                hidden: hides,
            }
        })
    };
    let none = mostly(&[]);
    let beside_full = {
        let mut model = d();
        model.charts.push(ticking(0));
        model.nodes.push(leaf(2));
        model.nodes.push(crate::model::Node::Composed {
            a: 1,
            b: 2,
            feedback: none,
        });
        model
    };
    vec![
        refused(
            "rewrite-none-free-feedback",
            &with(&|m| m.charts[0].feedback = none),
            bad,
        ),
        refused(
            "rewrite-none-free-extra",
            &with(&|m| m.charts[1].extra = none),
            bad,
        ),
        refused(
            "rewrite-none-free-needed",
            &with(&|m| m.charts[0].transitions[2].needed = none),
            bad,
        ),
        refused(
            "rewrite-none-free-barred",
            &with(&|m| m.charts[0].transitions[0].barred = none),
            bad,
        ),
        refused(
            "rewrite-none-free-action",
            &with(&|m| m.charts[1].transitions[1].action = none),
            bad,
        ),
        refused(
            "rewrite-none-free-x-of-hidden",
            &node(none, Set::EMPTY),
            bad,
        ),
        refused(
            "rewrite-none-free-y-of-hidden",
            &node(Set::EMPTY, none),
            bad,
        ),
        refused("rewrite-none-free-x-of-composed", &beside_full, bad),
        refused(
            "rewrite-none-free-all-sets-together",
            &with(&|m| {
                m.charts[0].extra = Set(0x0000_0000_0000_ffff);
                m.charts[1].feedback = Set(0x0000_ffff_ffff_0000);
                m.charts[1].transitions[0].action = Set(0xffff_0000_0000_0000);
            }),
            bad,
        ),
        fits(
            "rewrite-63-alone-free",
            &with(&|m| m.charts[1].extra = mostly(&[63])),
            1,
        ),
        fits(
            "rewrite-40-alone-free",
            &with(&|m| m.charts[1].feedback = mostly(&[40])),
            1,
        ),
        refused("rewrite-one-free-for-two", &nested_with(mostly(&[63])), bad),
        fits(
            "rewrite-two-free-for-two",
            &nested_with(mostly(&[31, 63])),
            1,
        ),
        fits(
            "rewrite-none-free-no-slaves",
            &{
                let mut model = p1();
                model.charts[0].extra = Set::FULL;
                model
            },
            1,
        ),
    ]
}

/// A master with one slave chart.
fn with_slave(inner: Chart) -> Model {
    decomposed(chart(2, &[], vec![go(0, 1, &[], &[], &[])]), 1, inner)
}

/// A chart with this many transitions from each of its states.
fn evenly(states: u8, each: usize) -> Chart {
    spread(states, usize::from(states) * each)
}

/// 41: more than 8 transitions would leave one state.
fn state_limit() -> Vec<Case> {
    let bad = refusal::REWRITING_STATE;
    let last_state = {
        let mut inner = evenly(3, 1);
        inner.transitions.extend(vec![go(2, 0, &[], &[], &[]); 7]);
        inner
    };
    let master_full = {
        let mut model = with_slave(evenly(2, 1));
        model.charts[0] = evenly(2, 8);
        model
    };
    vec![
        fits("rewrite-seven-out-and-idle", &with_slave(evenly(1, 7)), 1),
        refused("rewrite-eight-out-and-idle", &with_slave(evenly(1, 8)), bad),
        refused(
            "rewrite-eight-out-of-last-state",
            &with_slave(last_state),
            bad,
        ),
        fits("rewrite-eight-out-of-a-master", &master_full, 1),
        refused(
            "rewrite-eight-out-in-inner-slave",
            &{
                let mut model = nested();
                model.charts[2] = evenly(2, 8);
                model
            },
            bad,
        ),
    ]
}

/// 42: a chart would have more than 64 transitions. Sixteen charts of at most 64 have at most 1,024
/// together, so there is no refusal for the sum (RULES 3.5).
fn chart_limit() -> Vec<Case> {
    let bad = refusal::REWRITING_CHART;
    let fullest = {
        let states = STATES as u8;
        let mut model = master_of(7);
        model.charts[0] = spread(states, CHART_TRANSITIONS);
        for chart in &mut model.charts[1..] {
            *chart = spread(states, CHART_TRANSITIONS - STATES);
        }
        model
    };
    vec![
        fits("rewrite-48-and-16-idle", &with_slave(evenly(16, 3)), 1),
        refused("rewrite-49-and-16-idle", &with_slave(spread(16, 49)), bad),
        refused("rewrite-64-and-16-idle", &with_slave(evenly(16, 4)), bad),
        refused("rewrite-60-and-10-idle", &with_slave(evenly(10, 6)), bad),
        fits("rewrite-512-in-all", &fullest, 1),
        refused(
            "rewrite-512-in-all-and-one",
            &{
                let mut model = fullest.clone();
                model.charts[7] = spread(STATES as u8, CHART_TRANSITIONS - STATES + 1);
                model
            },
            bad,
        ),
    ]
}

/// D hidden again and again until it has this many nodes.
fn d_deep(nodes: usize) -> Model {
    let mut model = d();
    while model.nodes.len() < nodes {
        model = wrapped(model, &[], &[]);
    }
    model
}

/// 44: more than 64 nodes; D gets a composed and a hidden node.
fn node_limit() -> Vec<Case> {
    let bad = refusal::REWRITING_NODES;
    vec![
        fits("rewrite-62-nodes", &d_deep(62), 1),
        refused("rewrite-63-nodes", &d_deep(63), bad),
        refused("rewrite-64-nodes", &d_deep(64), bad),
        fits("rewrite-64-nodes-no-slaves", &hidden_deep(64), 1),
    ]
}

/// 45: a buffer that is too short for the result.
fn rooms() -> Vec<Case> {
    let short = |name: &str, model: &Model, room: usize| {
        let command = Command::rewrite(name, model.file(), room);
        Case::new(command, refusal::REWRITING_ROOM)
    };
    let exact = rewritten_bytes(&d());
    vec![
        short("rewrite-buffer-empty", &d(), 0),
        short("rewrite-buffer-one-byte", &d(), 1),
        short("rewrite-buffer-of-the-old-length", &d(), d().file().len()),
        short("rewrite-buffer-one-short", &d(), exact - 1),
        fits("rewrite-buffer-exact", &d(), 0),
        fits("rewrite-buffer-one-longer", &d(), 1),
        fits("rewrite-buffer-much-longer", &d(), 300),
        short(
            "rewrite-no-slaves-buffer-one-short",
            &p1(),
            p1().file().len() - 1,
        ),
        fits("rewrite-no-slaves-buffer-exact", &p1(), 0),
    ]
}

/// Two of 40 to 45 at once: the lower one is given.
fn orders() -> Vec<Case> {
    let full = |mut model: Model| {
        model.charts[0].extra = Set::FULL;
        model
    };
    let deep = |mut model: Model| {
        while model.nodes.len() < NODES {
            model = wrapped(model, &[], &[]);
        }
        model
    };
    let eight_out = || with_slave(evenly(1, 8));
    // both 41, in the last chart, and 42, in the chart before it
    let both = || Model {
        edition: Edition::First,
        charts: vec![
            chart(2, &[], vec![go(0, 1, &[], &[], &[])]),
            evenly(16, 4),
            evenly(1, 8),
        ],
        slaves: vec![slave(0, 0, 0), slave(0, 1, 1)],
        nodes: vec![leaf(1), leaf(2), leaf(0)],
    };
    let too_many = || with_slave(spread(16, 49));
    vec![
        refused(
            "rewrite-40-before-41",
            &full(eight_out()),
            refusal::REWRITING_SIGNALS,
        ),
        refused(
            "rewrite-40-before-42",
            &full(too_many()),
            refusal::REWRITING_SIGNALS,
        ),
        refused(
            "rewrite-40-before-44",
            &full(d_deep(64)),
            refusal::REWRITING_SIGNALS,
        ),
        refused("rewrite-41-before-42", &both(), refusal::REWRITING_STATE),
        refused(
            "rewrite-41-before-44",
            &deep(eight_out()),
            refusal::REWRITING_STATE,
        ),
        refused(
            "rewrite-42-before-44",
            &deep(too_many()),
            refusal::REWRITING_CHART,
        ),
        refused(
            "rewrite-44-before-45",
            &d_deep(63),
            refusal::REWRITING_NODES,
        ),
    ]
}

/// A file for each of 1 to 11, with a long buffer and with none.
fn files() -> Vec<Case> {
    let mut cases = Vec::new();
    for (number, file) in one_fault() {
        for (word, room) in [("", 400), ("-no-buffer", 0)] {
            let name = format!("rewrite-file-refused-{number}{word}");
            let command = Command::rewrite(&name, file.clone(), room);
            cases.push(Case::new(command, number));
        }
    }
    cases
}
