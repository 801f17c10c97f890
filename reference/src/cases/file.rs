//! Named cases of the file check, in the order of the refusals 1 to 11.

use super::charts::*;
use super::damage::*;
use super::Case;
use crate::command::Command;
use crate::file::Records;
use crate::limits::*;
use crate::model::{Edition, Model, Node};
use crate::set::Set;

/// A change to the records of a file.
type Change = fn(&mut Records);

/// A check of a file and its refusal.
fn case(name: &str, file: Vec<u8>, number: u8) -> Case {
    Case::new(Command::check(name, file), number)
}

/// All named cases of the file check.
pub fn cases() -> Vec<Case> {
    [
        accepted(),
        length(),
        edition(),
        counts(),
        distance(),
        zero_bytes(),
        charts(),
        transition_numbers(),
        transitions(),
        slave_records(),
        node_records(),
        unused_fields(),
        naming(),
        held_charts(),
        numbering(),
        fronts(),
        two_faults(),
    ]
    .into_iter()
    .flatten()
    .collect()
}

/// The charts of docs/EXAMPLES.md and the fullest ones.
fn accepted() -> Vec<Case> {
    let good = |name: &str, model: Model| case(name, model.file(), refusal::SUCCESS);
    vec![
        good("accepted-whole-case", whole_case()),
        good("accepted-P1", p1()),
        good("accepted-P3", p3()),
        good("accepted-D", d()),
        good("accepted-D-hidden", d_hidden()),
        good("accepted-nested", nested()),
        good("accepted-no-transitions", alone(chart(1, &[], vec![]))),
        good("accepted-needed-and-barred", {
            alone(chart(1, &[], vec![go(0, 0, &[3], &[3], &[])]))
        }),
        good("accepted-all-sets-full", {
            let mut model = wrapped(p1(), &[], &[]);
            model.charts[1].feedback = Set::FULL;
            model.charts[1].extra = Set::FULL;
            model.charts[1].transitions[0].needed = Set::FULL;
            model.charts[1].transitions[0].barred = Set::FULL;
            model.charts[1].transitions[0].action = Set::FULL;
            model.nodes[3] = Node::Hidden {
                part: 2,
                filtered: Set::FULL,
                hidden: Set::FULL,
            };
            model
        }),
        good("accepted-parts-in-other-order", {
            let mut model = p1();
            model.nodes = vec![leaf(1), leaf(0), composed(1, 0, &[1])];
            model
        }),
    ]
}

/// 1: shorter than a trailer.
fn length() -> Vec<Case> {
    let trailer = whole_case().records().trailer.encode();
    vec![
        case("length-0", vec![], refusal::TOO_SHORT),
        case("length-1", vec![1], refusal::TOO_SHORT),
        case("length-11-zero", vec![0; 11], refusal::TOO_SHORT),
        case(
            "length-11-of-trailer",
            trailer[1..].to_vec(),
            refusal::TOO_SHORT,
        ),
        case("length-12-zero", vec![0; 12], refusal::EDITION),
        case("length-12-trailer-alone", trailer, refusal::DISTANCE),
        case("length-12-ff", vec![0xff; 12], refusal::EDITION),
    ]
}

/// 2: an edition other than 1 and 2.
fn edition() -> Vec<Case> {
    let with = |value| changed(&whole_case(), |r| r.trailer.edition = value);
    vec![
        case("edition-0", with(0), refusal::EDITION),
        case("edition-2", with(2), refusal::SUCCESS),
        case("edition-3", with(3), refusal::EDITION),
        case("edition-129", with(129), refusal::EDITION),
        case("edition-255", with(255), refusal::EDITION),
    ]
}

/// The file of records whose trailer is made to fit their numbers.
fn fitted(model: &Model, change: impl FnOnce(&mut Records)) -> Vec<u8> {
    changed(model, |records| {
        change(records);
        fit(records);
    })
}

/// Makes the trailer fit the numbers of records.
fn fit(records: &mut Records) {
    records.trailer.charts = records.charts.len() as u8;
    records.trailer.slaves = records.slaves.len() as u8;
    records.trailer.nodes = records.nodes.len() as u8;
    records.trailer.transitions = records.transitions.len() as u16;
    records.trailer.distance = records.trailer.body_bytes() as u32;
}

/// 3: each count of the trailer at 0, at its limit and one past it (RULES 2.8), laid out so that
/// all else fits; then each count alone too large.
fn counts() -> Vec<Case> {
    let (good, bad) = (refusal::SUCCESS, refusal::COUNTS);
    let most_slaves = master_of(SLAVES as u8);
    let mut cases = vec![
        case("charts-0", fitted(&p1(), |r| r.charts.clear()), bad),
        case("charts-1", row_of(1).file(), good),
        case("charts-8", row_of(8).file(), good),
        case("charts-9", row_of(9).file(), good),
        case("charts-at-limit", row_of(CHARTS as u8).file(), good),
        case("charts-over-limit", row_of(CHARTS as u8 + 1).file(), bad),
        case("slaves-0", p1().file(), good),
        case("slaves-1", d().file(), good),
        case("slaves-7", master_of(7).file(), good),
        case("slaves-8", master_of(8).file(), good),
        case("slaves-at-limit", most_slaves.file(), good),
        case(
            "slaves-over-limit",
            fitted(&most_slaves, |r| r.slaves.push(r.slaves[0].clone())),
            bad,
        ),
        case("nodes-0", fitted(&p1(), |r| r.nodes.clear()), bad),
        case("nodes-1", whole_case().file(), good),
        case("nodes-at-limit", hidden_deep(NODES as u8).file(), good),
        case("nodes-over-limit", hidden_deep(NODES as u8 + 1).file(), bad),
        case("transitions-0", alone(chart(2, &[], vec![])).file(), good),
        case("transitions-512", full_charts(8).file(), good),
        case(
            "transitions-513",
            {
                let mut model = full_charts(9);
                model.charts[8] = spread(1, 1);
                model.file()
            },
            good,
        ),
        case("transitions-at-limit", fullest().file(), good),
        case(
            "transitions-over-limit",
            fitted(&fullest(), |r| r.transitions.push(r.transitions[0].clone())),
            bad,
        ),
    ];
    // over the earlier limits, and below the present ones: the distance does not fit then
    let once_too_large: [(&str, Change); 2] = [
        ("slaves-byte-8", |r| r.trailer.slaves = 8),
        ("transitions-bytes-513", |r| r.trailer.transitions = 513),
    ];
    for (name, change) in once_too_large {
        cases.push(case(name, changed(&d(), change), refusal::DISTANCE));
    }
    let alone_too_large: [(&str, Change); 9] = [
        ("charts-byte-0", |r| r.trailer.charts = 0),
        ("charts-byte-17", |r| r.trailer.charts = CHARTS as u8 + 1),
        ("charts-byte-255", |r| r.trailer.charts = 255),
        ("slaves-byte-16", |r| r.trailer.slaves = SLAVES as u8 + 1),
        ("slaves-byte-255", |r| r.trailer.slaves = 255),
        ("nodes-byte-0", |r| r.trailer.nodes = 0),
        ("nodes-byte-255", |r| r.trailer.nodes = 255),
        ("transitions-bytes-1025", |r| r.trailer.transitions = 1_025),
        ("transitions-bytes-65535", |r| {
            r.trailer.transitions = 65_535
        }),
    ];
    for (name, change) in alone_too_large {
        cases.push(case(name, changed(&d(), change), bad));
    }
    cases
}

/// 4: a distance that differs from the body size, and a file that has fewer bytes than that before
/// its trailer.
fn distance() -> Vec<Case> {
    let body = d().records().trailer.distance;
    let with = |distance: u32| {
        let file = changed(&d(), |r| r.trailer.distance = distance);
        behind(&[7; 300], file)
    };
    let whole = d().file();
    let bad = refusal::DISTANCE;
    let mut cases = vec![
        case("distance-right-with-front", with(body), refusal::SUCCESS),
        case("distance-one-more", with(body + 1), bad),
        case("distance-one-less", with(body - 1), bad),
        case("distance-zero", with(0), bad),
        case("distance-all-before-trailer", with(body + 300), bad),
        case("distance-larger-than-file", with(body + 301), bad),
        case("distance-length-of-file", with(body + 312), bad),
        case("distance-2-to-31", with(1 << 31), bad),
        case("distance-2-to-32-less-1", with(u32::MAX), bad),
        case("distance-second-byte", with(body + (1 << 8)), bad),
        case("distance-third-byte", with(body + (1 << 16)), bad),
        case("distance-fourth-byte", with(body + (1 << 24)), bad),
        case("distance-body-cut-by-one", whole[1..].to_vec(), bad),
        case("distance-body-cut-by-half", whole[100..].to_vec(), bad),
    ];
    let counts: [(&str, Change); 8] = [
        ("distance-one-chart-more", |r| r.trailer.charts += 1),
        ("distance-one-chart-less", |r| r.trailer.charts -= 1),
        ("distance-one-slave-more", |r| r.trailer.slaves += 1),
        ("distance-one-slave-less", |r| r.trailer.slaves -= 1),
        ("distance-one-node-more", |r| r.trailer.nodes += 1),
        ("distance-one-node-less", |r| r.trailer.nodes -= 1),
        ("distance-one-transition-more", |r| {
            r.trailer.transitions += 1
        }),
        ("distance-256-transitions-more", |r| {
            r.trailer.transitions += 256
        }),
    ];
    for (name, change) in counts {
        cases.push(case(name, behind(&[0; 60], changed(&d(), change)), bad));
    }
    cases
}

/// 5: each zero byte of each kind of record, in the first and the last record of the kind, and each
/// of the trailer's.
fn zero_bytes() -> Vec<Case> {
    let model = d_hidden();
    let places = Places::of(&model);
    let mut cases = Vec::new();
    let mut bad = |name: String, place: usize, value: u8| {
        let file = with_byte(&model, place, value);
        cases.push(case(&name, file, refusal::ZERO_BYTE));
    };
    for (number, value) in [(0, 1), (1, 0x80)] {
        for byte in 3..8 {
            let name = format!("zero-byte-chart-{number}-byte-{byte}");
            bad(name, places.chart(number) + byte, value);
        }
    }
    for (number, value) in [(0, 1), (4, 0xff)] {
        for byte in 2..4 {
            let name = format!("zero-byte-transition-{number}-byte-{byte}");
            bad(name, places.transition(number) + byte, value);
        }
    }
    bad("zero-byte-slave".to_string(), places.slave(0) + 3, 1);
    for (number, value) in [(0, 1), (1, 2), (2, 0x80)] {
        let name = format!("zero-byte-node-{number}");
        bad(name, places.node(number) + 3, value);
    }
    for byte in 10..12 {
        let name = format!("zero-byte-trailer-byte-{byte}");
        bad(name, places.trailer() + byte, 1);
    }
    cases
}

/// 6: the number of states, and the initial state.
fn charts() -> Vec<Case> {
    let states = |states: u8, initial: u8| {
        let mut model = alone(chart(states, &[], vec![]));
        model.charts[0].initial = initial;
        model.file()
    };
    let last_chart = |change: Change| changed(&row_of(3), change);
    let (good, bad) = (refusal::SUCCESS, refusal::CHART);
    vec![
        case("states-0", states(0, 0), bad),
        case("states-1", states(1, 0), good),
        case("states-16", states(16, 0), good),
        case("states-17", states(17, 0), bad),
        case("states-255", states(255, 0), bad),
        case(
            "states-0-in-last-chart",
            last_chart(|r| r.charts[2].states = 0),
            bad,
        ),
        case(
            "states-17-in-last-chart",
            last_chart(|r| r.charts[2].states = 17),
            bad,
        ),
        case("initial-below-states", states(16, 15), good),
        case("initial-at-states", states(16, 16), bad),
        case("initial-at-states-1", states(1, 1), bad),
        case("initial-255", states(3, 255), bad),
        case(
            "initial-in-last-chart",
            last_chart(|r| r.charts[2].initial = 1),
            bad,
        ),
        case("initial-at-state-2", states(3, 2), good),
    ]
}

/// 6: the number of transitions of a chart, and the sum of them all.
fn transition_numbers() -> Vec<Case> {
    let (good, bad) = (refusal::SUCCESS, refusal::CHART);
    let numbers = |model: &Model, numbers: &[u8]| {
        changed(model, |r| {
            for (chart, &number) in r.charts.iter_mut().zip(numbers) {
                chart.transitions = number;
            }
        })
    };
    let four = row_of_charts(vec![spread(2, 1), spread(2, 1), spread(2, 1), spread(2, 1)]);
    let five = row_of_charts(vec![spread(2, 1); 5]);
    let none = row_of_charts(vec![spread(2, 0); 4]);
    let sixty_four = spread(16, 64);
    vec![
        case(
            "transitions-64-in-a-chart",
            alone(sixty_four.clone()).file(),
            good,
        ),
        case(
            "transitions-65-in-a-chart",
            alone(spread(16, 65)).file(),
            bad,
        ),
        case(
            "transitions-65-in-last-chart",
            row_of_charts(vec![spread(2, 1), spread(16, 65)]).file(),
            bad,
        ),
        case(
            "transitions-128-in-a-chart",
            alone(spread(16, 128)).file(),
            bad,
        ),
        case(
            "sum-256-fits",
            row_of_charts(vec![sixty_four; 4]).file(),
            good,
        ),
        case("sum-one-more", numbers(&four, &[1, 1, 1, 2]), bad),
        case("sum-one-less", numbers(&four, &[1, 1, 1, 0]), bad),
        case("sum-one-more-in-first", numbers(&four, &[2, 1, 1, 1]), bad),
        case(
            "sum-moved-to-other-chart",
            numbers(&four, &[2, 0, 1, 1]),
            good,
        ),
        case(
            "sum-wraps-a-byte",
            numbers(&five, &[64, 64, 64, 64, 5]),
            bad,
        ),
        case(
            "sum-wraps-a-byte-to-zero",
            numbers(&none, &[64, 64, 64, 64]),
            bad,
        ),
        case("sum-wraps-over-64", numbers(&four, &[255, 1, 1, 3]), bad),
        case("sum-of-255", numbers(&four, &[255, 255, 255, 255]), bad),
    ]
}

/// 7: the states of a transition, and how many transitions leave one state.
fn transitions() -> Vec<Case> {
    let (good, bad) = (refusal::SUCCESS, refusal::TRANSITION);
    let one = |from, to| alone(chart(3, &[], vec![go(from, to, &[], &[], &[])])).file();
    let two = |first_from, second_from| {
        let first = chart(1, &[], vec![go(first_from, 0, &[], &[], &[])]);
        let second = chart(16, &[], vec![go(second_from, 15, &[], &[], &[])]);
        beside(first, second, &[]).file()
    };
    let out_of = |counts: &[usize]| {
        let mut moves = Vec::new();
        for (from, &count) in counts.iter().enumerate() {
            for to in 0..count {
                moves.push(go(from as u8, (to % 2) as u8, &[], &[], &[]));
            }
        }
        chart(2, &[], moves)
    };
    let interleaved = |count: u8| {
        let moves = (0..count).map(|place| go(place % 2, 1, &[], &[], &[]));
        alone(chart(2, &[], moves.collect())).file()
    };
    vec![
        case("from-below-states", one(2, 0), good),
        case("from-at-states", one(3, 0), bad),
        case("from-255", one(255, 0), bad),
        case("to-below-states", one(0, 2), good),
        case("to-at-states", one(0, 3), bad),
        case("to-255", one(0, 255), bad),
        case("from-15-of-second-chart", two(0, 15), good),
        case("from-15-of-first-chart", two(15, 15), bad),
        case("from-16-of-second-chart", two(0, 16), bad),
        case(
            "last-transition-bad",
            changed(&nested(), |r| r.transitions[11].to = 2),
            bad,
        ),
        case("eight-from-one-state", alone(out_of(&[8])).file(), good),
        case("eight-from-each-state", alone(out_of(&[8, 8])).file(), good),
        case("nine-from-one-state", alone(out_of(&[9])).file(), bad),
        case("nine-from-last-state", alone(out_of(&[1, 9])).file(), bad),
        case(
            "nine-in-second-chart",
            beside(out_of(&[2]), out_of(&[0, 9]), &[]).file(),
            bad,
        ),
        case(
            "eight-in-each-of-two-charts",
            beside(out_of(&[8]), out_of(&[8]), &[]).file(),
            good,
        ),
        case("sixteen-from-two-states-in-turn", interleaved(16), good),
        case("seventeen-from-two-states-in-turn", interleaved(17), bad),
        case(
            "nine-alike",
            alone(chart(1, &[], vec![go(0, 0, &[], &[], &[]); 9])).file(),
            bad,
        ),
    ]
}

/// A master of two slaves, charts 1 and 2, in states 0 and 1; chart 3 with 16 states beside it.
fn two_slaves() -> Model {
    Model {
        edition: Edition::First,
        charts: vec![
            chart(2, &[], vec![go(0, 1, &[], &[], &[])]),
            ticking(1),
            ticking(2),
            chart(16, &[], vec![]),
        ],
        slaves: vec![slave(0, 0, 0), slave(0, 1, 1)],
        nodes: vec![leaf(1), leaf(2), leaf(0), leaf(3), composed(2, 3, &[])],
    }
}

/// 8: a slave's chart, state and node, and the order of the slaves.
fn slave_records() -> Vec<Case> {
    let (good, bad) = (refusal::SUCCESS, refusal::SLAVE);
    let with = |first: (u8, u8, u8), second: (u8, u8, u8)| {
        let mut model = two_slaves();
        model.slaves[0] = slave(first.0, first.1, first.2);
        model.slaves[1] = slave(second.0, second.1, second.2);
        model.file()
    };
    vec![
        case("slaves-rising", with((0, 0, 0), (0, 1, 1)), good),
        case(
            "slaves-rising-nodes-falling",
            with((0, 0, 1), (0, 1, 0)),
            good,
        ),
        case("slaves-equal", with((0, 0, 0), (0, 0, 0)), bad),
        case("slaves-equal-other-node", with((0, 1, 0), (0, 1, 1)), bad),
        case("slaves-falling-by-state", with((0, 1, 0), (0, 0, 1)), bad),
        case("slaves-falling-by-chart", with((1, 0, 0), (0, 1, 1)), bad),
        case(
            "slaves-falling-by-chart-rising-by-state",
            with((3, 0, 0), (0, 1, 1)),
            bad,
        ),
        case(
            "slaves-rising-by-chart-falling-by-state",
            {
                let mut model = nested();
                model.slaves = vec![slave(0, 1, 1), slave(1, 0, 0)];
                model.file()
            },
            good,
        ),
        case("slave-chart-at-charts", with((0, 0, 0), (4, 0, 1)), bad),
        case("slave-chart-255", with((0, 0, 0), (255, 0, 1)), bad),
        case("slave-state-at-states", with((0, 0, 0), (0, 2, 1)), bad),
        case(
            "slave-state-of-another-chart",
            with((0, 0, 0), (0, 15, 1)),
            bad,
        ),
        case("slave-state-255", with((0, 0, 0), (0, 255, 1)), bad),
        case("slave-node-at-nodes", with((0, 0, 0), (0, 1, 5)), bad),
        case("slave-node-255", with((0, 0, 255), (0, 1, 1)), bad),
        case(
            "slaves-at-limit-last-equal",
            changed(&master_of(7), |r| r.slaves[6].state = 5),
            bad,
        ),
    ]
}

/// The file of P3 with one node put in the place of another.
fn p3_with(place: usize, node: Node) -> Vec<u8> {
    let mut model = p3();
    model.nodes[place] = node;
    model.file()
}

/// 9: the kind of a node, its chart, and the nodes that it names.
fn node_records() -> Vec<Case> {
    let bad = refusal::NODE;
    let kind = |place: usize, kind: u8| changed(&p3(), |r| r.nodes[place].kind = kind);
    vec![
        case("node-kind-3", kind(2, 3), bad),
        case("node-kind-255", kind(3, 255), bad),
        case("node-kind-3-first", kind(0, 3), bad),
        case("node-chart-at-charts", p3_with(1, leaf(2)), bad),
        case("node-chart-255", p3_with(0, leaf(255)), bad),
        case(
            "node-composed-a-itself",
            p3_with(2, composed(2, 1, &[])),
            bad,
        ),
        case(
            "node-composed-b-itself",
            p3_with(2, composed(0, 2, &[])),
            bad,
        ),
        case(
            "node-composed-a-higher",
            p3_with(2, composed(3, 1, &[])),
            bad,
        ),
        case(
            "node-composed-b-higher",
            p3_with(2, composed(0, 3, &[])),
            bad,
        ),
        case(
            "node-composed-a-past-end",
            p3_with(2, composed(4, 1, &[])),
            bad,
        ),
        case(
            "node-composed-b-past-end",
            p3_with(2, composed(0, 4, &[])),
            bad,
        ),
        case(
            "node-composed-b-255",
            p3_with(2, composed(0, 255, &[])),
            bad,
        ),
        case("node-composed-first", p3_with(0, composed(0, 0, &[])), bad),
        case("node-hidden-itself", p3_with(3, hidden(3, &[], &[])), bad),
        case("node-hidden-higher", p3_with(2, hidden(3, &[], &[])), bad),
        case("node-hidden-past-end", p3_with(3, hidden(4, &[], &[])), bad),
        case("node-hidden-255", p3_with(3, hidden(255, &[], &[])), bad),
        case("node-hidden-first", p3_with(0, hidden(0, &[], &[])), bad),
    ]
}

/// 9: the fields that a node does not use, each with a lowest and a highest bit.
fn unused_fields() -> Vec<Case> {
    let bad = refusal::NODE;
    let (low, high) = (Set::one(0), Set::one(63));
    let with = |change: &dyn Fn(&mut Records)| changed(&p3(), change);
    vec![
        case("unused-b-of-chart", with(&|r| r.nodes[0].b = 1), bad),
        case("unused-b-of-chart-255", with(&|r| r.nodes[1].b = 255), bad),
        case("unused-x-of-chart-low", with(&|r| r.nodes[0].x = low), bad),
        case(
            "unused-x-of-chart-high",
            with(&|r| r.nodes[1].x = high),
            bad,
        ),
        case("unused-y-of-chart-low", with(&|r| r.nodes[0].y = low), bad),
        case(
            "unused-y-of-chart-high",
            with(&|r| r.nodes[1].y = high),
            bad,
        ),
        case(
            "unused-y-of-composed-low",
            with(&|r| r.nodes[2].y = low),
            bad,
        ),
        case(
            "unused-y-of-composed-high",
            with(&|r| r.nodes[2].y = high),
            bad,
        ),
        case("unused-b-of-hidden", with(&|r| r.nodes[3].b = 1), bad),
        case("unused-b-of-hidden-255", with(&|r| r.nodes[3].b = 255), bad),
        case(
            "used-x-of-composed",
            with(&|r| r.nodes[2].x = high),
            refusal::SUCCESS,
        ),
        case(
            "used-y-of-hidden",
            with(&|r| r.nodes[3].y = high),
            refusal::SUCCESS,
        ),
    ]
}

/// A model of charts that do nothing, with these slaves and nodes; every chart has 4 states.
fn skeleton(charts: u8, slaves: &[(u8, u8, u8)], nodes: Vec<Node>) -> Vec<u8> {
    Model {
        edition: Edition::First,
        charts: vec![chart(4, &[], vec![]); usize::from(charts)],
        slaves: slaves.iter().map(|&(c, s, n)| slave(c, s, n)).collect(),
        nodes,
    }
    .file()
}

/// 10: how many names a node has, and whether a slave's node is below its master's.
fn naming() -> Vec<Case> {
    let (good, bad) = (refusal::SUCCESS, refusal::NAMING);
    let three = || vec![leaf(0), leaf(1), leaf(2)];
    let and = |mut nodes: Vec<Node>, more: &[Node]| {
        nodes.extend(more.iter().cloned());
        nodes
    };
    vec![
        case(
            "naming-right",
            {
                skeleton(
                    3,
                    &[],
                    and(three(), &[composed(0, 1, &[]), composed(3, 2, &[])]),
                )
            },
            good,
        ),
        case(
            "named-twice-by-one-composed",
            skeleton(2, &[], vec![leaf(0), leaf(1), composed(0, 0, &[])]),
            bad,
        ),
        case(
            "named-twice-by-composed-alone",
            skeleton(1, &[], vec![leaf(0), composed(0, 0, &[])]),
            bad,
        ),
        case(
            "named-twice-by-two-nodes",
            {
                skeleton(
                    2,
                    &[],
                    vec![leaf(0), leaf(1), composed(0, 1, &[]), composed(2, 1, &[])],
                )
            },
            bad,
        ),
        case(
            "named-twice-by-hidden-and-composed",
            {
                skeleton(
                    2,
                    &[],
                    vec![leaf(0), leaf(1), hidden(0, &[], &[]), composed(0, 1, &[])],
                )
            },
            bad,
        ),
        case(
            "named-by-node-and-slave",
            skeleton(2, &[(0, 0, 0)], vec![leaf(1), leaf(0), composed(0, 1, &[])]),
            bad,
        ),
        case(
            "named-by-two-slaves-of-one-master",
            skeleton(2, &[(0, 0, 0), (0, 1, 0)], vec![leaf(1), leaf(0)]),
            bad,
        ),
        case(
            "named-by-two-slaves-of-two-masters",
            {
                skeleton(
                    3,
                    &[(0, 0, 0), (1, 0, 0)],
                    vec![leaf(2), leaf(1), leaf(0), composed(1, 2, &[])],
                )
            },
            bad,
        ),
        case(
            "never-named-chart",
            skeleton(2, &[], vec![leaf(0), leaf(1)]),
            bad,
        ),
        case(
            "never-named-first",
            skeleton(3, &[], and(three(), &[composed(1, 2, &[])])),
            bad,
        ),
        case(
            "never-named-composed",
            {
                skeleton(
                    3,
                    &[],
                    and(three(), &[composed(0, 1, &[]), hidden(2, &[], &[])]),
                )
            },
            bad,
        ),
        case(
            "last-named-by-slave-of-itself",
            skeleton(1, &[(0, 0, 0)], vec![leaf(0)]),
            bad,
        ),
        case(
            "last-named-by-slave",
            skeleton(2, &[(0, 0, 1)], vec![leaf(0), leaf(1)]),
            bad,
        ),
        case(
            "last-named-all-others-once",
            skeleton(2, &[(0, 0, 2)], vec![leaf(0), leaf(1), composed(0, 1, &[])]),
            bad,
        ),
        case(
            "slave-node-is-masters-node",
            skeleton(2, &[(0, 0, 0)], vec![leaf(0), leaf(1)]),
            bad,
        ),
        case(
            "slave-node-above-masters-node",
            {
                skeleton(
                    3,
                    &[(0, 0, 1)],
                    vec![leaf(0), leaf(1), leaf(2), composed(0, 2, &[])],
                )
            },
            bad,
        ),
        case(
            "slave-node-holds-its-master",
            skeleton(2, &[(0, 0, 1)], vec![leaf(0), hidden(0, &[], &[]), leaf(1)]),
            bad,
        ),
        case(
            "slave-node-just-below-masters-node",
            {
                skeleton(
                    3,
                    &[(0, 3, 1)],
                    vec![leaf(1), leaf(2), leaf(0), composed(0, 2, &[])],
                )
            },
            good,
        ),
    ]
}

/// 10: a chart that no node holds, and one that several hold.
fn held_charts() -> Vec<Case> {
    let bad = refusal::NAMING;
    let join = |a, b, c| {
        vec![
            leaf(a),
            leaf(b),
            leaf(c),
            composed(0, 1, &[]),
            composed(3, 2, &[]),
        ]
    };
    vec![
        case("chart-held-twice", skeleton(2, &[], join(0, 1, 1)), bad),
        case(
            "chart-held-twice-first",
            skeleton(2, &[], join(0, 1, 0)),
            bad,
        ),
        case(
            "chart-held-three-times",
            skeleton(1, &[], join(0, 0, 0)),
            bad,
        ),
        case(
            "chart-held-twice-another-never",
            skeleton(3, &[], join(0, 2, 2)),
            bad,
        ),
        case(
            "chart-never-held-last",
            skeleton(4, &[], join(0, 1, 2)),
            bad,
        ),
        case(
            "chart-never-held-first",
            skeleton(4, &[], join(1, 2, 3)),
            bad,
        ),
        case(
            "chart-never-held-one-node",
            skeleton(2, &[], vec![leaf(1)]),
            bad,
        ),
        case(
            "chart-held-twice-once-as-slave",
            {
                skeleton(
                    2,
                    &[(0, 0, 0)],
                    vec![leaf(1), leaf(0), leaf(1), composed(1, 2, &[])],
                )
            },
            bad,
        ),
        case(
            "master-never-held",
            skeleton(2, &[(0, 0, 0)], vec![leaf(1), leaf(1)]),
            bad,
        ),
        case(
            "charts-held-in-any-order",
            skeleton(3, &[], join(2, 0, 1)),
            refusal::SUCCESS,
        ),
    ]
}

/// 11: a chart inside a slave that has no higher number than the slave's master, directly and
/// nested.
fn numbering() -> Vec<Case> {
    let (good, bad) = (refusal::SUCCESS, refusal::NUMBERING);
    vec![
        case(
            "numbering-below-directly",
            skeleton(2, &[(1, 0, 0)], vec![leaf(0), leaf(1)]),
            bad,
        ),
        case(
            "numbering-below-in-hidden",
            skeleton(2, &[(1, 0, 1)], vec![leaf(0), hidden(0, &[], &[]), leaf(1)]),
            bad,
        ),
        case(
            "numbering-below-in-composed-a",
            {
                skeleton(
                    3,
                    &[(1, 0, 2)],
                    vec![leaf(0), leaf(2), composed(0, 1, &[]), leaf(1)],
                )
            },
            bad,
        ),
        case(
            "numbering-below-in-composed-b",
            {
                skeleton(
                    3,
                    &[(1, 0, 2)],
                    vec![leaf(0), leaf(2), composed(1, 0, &[]), leaf(1)],
                )
            },
            bad,
        ),
        case(
            "numbering-inner-below-inner-master",
            skeleton(3, &[(0, 0, 1), (2, 0, 0)], vec![leaf(1), leaf(2), leaf(0)]),
            bad,
        ),
        case(
            "numbering-inner-below-outer-master",
            skeleton(3, &[(1, 0, 1), (2, 0, 0)], vec![leaf(0), leaf(2), leaf(1)]),
            bad,
        ),
        case(
            "numbering-slave-below-inner-above",
            skeleton(3, &[(0, 0, 0), (1, 0, 1)], vec![leaf(2), leaf(0), leaf(1)]),
            bad,
        ),
        case(
            "numbering-second-slave-below",
            skeleton(3, &[(1, 0, 0), (1, 1, 1)], vec![leaf(2), leaf(0), leaf(1)]),
            bad,
        ),
        case(
            "numbering-nested-three-deep-below",
            {
                skeleton(
                    4,
                    &[(0, 0, 2), (1, 0, 1), (3, 0, 0)],
                    vec![leaf(2), leaf(3), leaf(1), leaf(0)],
                )
            },
            bad,
        ),
        case(
            "numbering-nested-three-deep",
            {
                skeleton(
                    4,
                    &[(0, 0, 2), (1, 0, 1), (2, 0, 0)],
                    vec![leaf(3), leaf(2), leaf(1), leaf(0)],
                )
            },
            good,
        ),
        case(
            "numbering-lower-chart-beside",
            {
                skeleton(
                    3,
                    &[(1, 0, 0)],
                    vec![leaf(2), leaf(1), leaf(0), composed(1, 2, &[])],
                )
            },
            good,
        ),
        case(
            "numbering-slave-with-gap",
            {
                skeleton(
                    3,
                    &[(0, 0, 0)],
                    vec![leaf(2), leaf(0), leaf(1), composed(1, 2, &[])],
                )
            },
            good,
        ),
    ]
}

/// The front is not read (RULES 2.1): any content, any length.
fn fronts() -> Vec<Case> {
    let good = refusal::SUCCESS;
    let file = || whole_case().file();
    let longest = 65_536 - file().len();
    let rising: Vec<u8> = (0..=255).collect();
    vec![
        case("front-1-zero", behind(&[0], file()), good),
        case("front-1-ff", behind(&[0xff], file()), good),
        case("front-7", behind(&[0xff; 7], file()), good),
        case("front-8", behind(&[1; 8], file()), good),
        case("front-12-ff", behind(&[0xff; 12], file()), good),
        case("front-every-byte", behind(&rising, file()), good),
        case("front-another-chart", behind(&d().file(), file()), good),
        case("front-longest", behind(&vec![0x5a; longest], file()), good),
        // each byte of the trailer one place further: edition 2, and no chart
        case(
            "front-and-one-byte-behind",
            [file(), vec![0]].concat(),
            refusal::COUNTS,
        ),
        case(
            "front-bad-chart",
            behind(&changed(&d(), |r| r.trailer.edition = 9), file()),
            good,
        ),
        case(
            "front-good-chart-before-bad",
            behind(&file(), changed(&d(), |r| r.charts[0].states = 0)),
            refusal::CHART,
        ),
    ]
}

/// For each refusal from 2 to 11 a change that gives it to the file of D hidden; most stand behind
/// the change of the next higher refusal.
const FAULTS: [(u8, Change); 10] = [
    (refusal::EDITION, |r| r.trailer.edition = 3),
    (refusal::COUNTS, |r| r.trailer.nodes = 65),
    (refusal::DISTANCE, |r| r.trailer.distance += 1),
    (refusal::ZERO_BYTE, |r| r.nodes[2].zero = 1),
    (refusal::CHART, |r| r.charts[1].initial = 7),
    (refusal::TRANSITION, |r| r.transitions[0].from = 4),
    (refusal::SLAVE, |r| r.slaves[0].state = 9),
    (refusal::NODE, |r| r.nodes[2].b = 1),
    (refusal::NAMING, |r| r.nodes[2].a = 0),
    (refusal::NUMBERING, |r| {
        r.nodes[0].a = 0;
        r.nodes[1].a = 1;
        r.slaves[0].chart = 1;
    }),
];

/// A file for each refusal from 1 to 11, with that one fault.
pub fn one_fault() -> Vec<(u8, Vec<u8>)> {
    one_fault_under(Edition::First)
}

/// The same of files of an edition; but for 1 and 2, which are of none.
pub fn one_fault_under(edition: Edition) -> Vec<(u8, Vec<u8>)> {
    let right = d_hidden().under(edition);
    let mut files = vec![(refusal::TOO_SHORT, vec![1; 11])];
    for (number, fault) in FAULTS {
        files.push((number, changed(&right, fault)));
    }
    files
}

/// The first test that applies gives the refusal (RULES 3.1): every pair of faults, and all of them
/// at once, where the lowest number is given.
fn two_faults() -> Vec<Case> {
    let mut cases = Vec::new();
    for (place, (lower, first)) in FAULTS.iter().enumerate() {
        for (higher, second) in &FAULTS[place + 1..] {
            let name = format!("faults-{lower}-and-{higher}");
            let file = changed(&d_hidden(), |r| {
                second(r);
                first(r);
            });
            cases.push(case(&name, file, *lower));
        }
    }
    for place in 0..FAULTS.len() {
        let name = format!("faults-all-from-{}", FAULTS[place].0);
        let file = changed(&d_hidden(), |r| {
            FAULTS[place..].iter().rev().for_each(|(_, fault)| fault(r))
        });
        cases.push(case(&name, file, FAULTS[place].0));
    }
    cases
}
