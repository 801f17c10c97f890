//! Named cases of the first configuration and of the interface.

use super::charts::*;
use super::damage::behind;
use super::file::one_fault;
use super::{configuration_rooms, Case};
use crate::command::Command;
use crate::limits::{refusal, CHARTS, EARLIER_CHARTS};
use crate::model::{Model, Node};
use crate::set::Set;

/// All named cases of the first configuration and the interface.
pub fn cases() -> Vec<Case> {
    let interfaces = interfaces().into_iter().map(|known| {
        let command = Command::interface(known.name, known.file);
        Case::new(command, refusal::SUCCESS)
    });
    firsts()
        .into_iter()
        .chain(refused())
        .chain(interfaces)
        .collect()
}

/// Charts whose initial states all differ: chart n has n + 1 states and starts in the last.
fn starting(charts: u8) -> Model {
    let mut model = row_of(charts);
    for (number, chart) in model.charts.iter_mut().enumerate() {
        chart.states = number as u8 + 1;
        chart.initial = number as u8;
    }
    model
}

/// The first configuration has the initial state of every chart (RULES 6.1). 22: the buffer is too
/// short.
fn firsts() -> Vec<Case> {
    let mut cases = Vec::new();
    for charts in [1, 3, EARLIER_CHARTS, CHARTS] {
        let file = starting(charts as u8).file();
        for (word, room, number) in configuration_rooms(charts, 20) {
            let name = format!("first-{charts}-charts-buffer-{word}");
            let command = Command::first(&name, file.clone(), room);
            cases.push(Case::new(command, number));
        }
    }
    let mut slaves_too = nested();
    slaves_too.charts[1].initial = 1;
    slaves_too.charts[2].initial = 1;
    for (name, file) in [
        ("first-slaves-included", slaves_too.file()),
        ("first-behind-front", behind(&[9; 5], slaves_too.file())),
    ] {
        let command = Command::first(name, file, 4);
        cases.push(Case::new(command, refusal::SUCCESS));
    }
    cases
}

/// A file for each of 1 to 11: the first configuration with a buffer long enough and with none,
/// since 22 is tested last (RULES 3.6), and the interface.
fn refused() -> Vec<Case> {
    let mut cases = Vec::new();
    for (number, file) in one_fault() {
        let long = format!("first-file-refused-{number}");
        let none = format!("first-file-refused-{number}-no-buffer");
        let sets = format!("interface-file-refused-{number}");
        for command in [
            Command::first(&long, file.clone(), 8),
            Command::first(&none, file.clone(), 0),
            Command::interface(&sets, file),
        ] {
            cases.push(Case::new(command, number));
        }
    }
    cases
}

/// An interface written by hand.
pub struct Known {
    pub name: &'static str,
    pub file: Vec<u8>,
    pub input: Set,
    pub output: Set,
}

/// Interfaces of charts, and of decomposed, composed and hidden nodes (RULES 4.1, 4.2).
pub fn interfaces() -> Vec<Known> {
    let known = |name, model: Model, input: &[u32], output: &[u32]| Known {
        name,
        file: model.file(),
        input: Set::of(input),
        output: Set::of(output),
    };
    let extra = |mut model: Model, chart: usize, signals: &[u32]| {
        model.charts[chart].extra = Set::of(signals);
        model
    };
    let mut all = vec![
        known("interface-whole-case", whole_case(), &[0, 1], &[1]),
        known(
            "interface-no-transitions",
            alone(chart(3, &[], vec![])),
            &[],
            &[],
        ),
        known(
            "interface-extra",
            extra(whole_case(), 0, &[7, 63]),
            &[0, 1, 7, 63],
            &[1],
        ),
        known(
            "interface-extra-alone",
            extra(alone(chart(1, &[], vec![])), 0, &[0]),
            &[0],
            &[],
        ),
        known(
            "interface-extra-already-there",
            extra(whole_case(), 0, &[1]),
            &[0, 1],
            &[1],
        ),
        known("interface-feedback-adds-nothing", l1(), &[0], &[0]),
        known(
            "interface-feedback-of-no-guard",
            alone(chart(1, &[4, 5], vec![go(0, 0, &[1], &[2], &[3])])),
            &[1, 2],
            &[3],
        ),
        known(
            "interface-needed-and-barred",
            alone(chart(1, &[], vec![go(0, 0, &[1], &[1], &[])])),
            &[1],
            &[],
        ),
        known(
            "interface-state-never-reached",
            alone(chart(3, &[], vec![go(2, 2, &[8], &[9], &[10])])),
            &[8, 9],
            &[10],
        ),
        known("interface-composed", p1(), &[0, 1], &[1, 2]),
        known(
            "interface-composed-extra-in-second",
            extra(p1(), 1, &[40]),
            &[0, 1, 40],
            &[1, 2],
        ),
        known("interface-hidden", p3(), &[0], &[2]),
        known(
            "interface-hidden-input-alone",
            wrapped(p1(), &[1], &[]),
            &[0],
            &[1, 2],
        ),
        known(
            "interface-hidden-output-alone",
            wrapped(p1(), &[], &[1]),
            &[0, 1],
            &[2],
        ),
        known(
            "interface-hidden-what-is-not-there",
            wrapped(p1(), &[2, 9], &[0]),
            &[0, 1],
            &[1, 2],
        ),
        known(
            "interface-hidden-extra",
            wrapped(extra(p1(), 0, &[5]), &[5], &[]),
            &[0, 1],
            &[1, 2],
        ),
        known(
            "interface-hidden-twice",
            wrapped(p3(), &[0], &[2]),
            &[],
            &[],
        ),
        known(
            "interface-hidden-part-of-composed",
            Model {
                nodes: vec![
                    leaf(0),
                    hidden(0, &[0], &[1]),
                    leaf(1),
                    composed(1, 2, &[1]),
                ],
                ..p1()
            },
            &[1],
            &[2],
        ),
        known(
            "interface-hidden-part-other-part-has-it",
            Model {
                nodes: vec![
                    leaf(1),
                    hidden(0, &[1], &[2]),
                    leaf(0),
                    composed(2, 1, &[0, 1]),
                ],
                ..beside(
                    chart(1, &[], vec![go(0, 0, &[1], &[], &[2])]),
                    chart(1, &[], vec![go(0, 0, &[1], &[], &[2])]),
                    &[],
                )
            },
            &[1],
            &[2],
        ),
        known("interface-decomposed", d(), &[0, 1, 3], &[1, 2, 4]),
        known(
            "interface-decomposed-extra-in-slave",
            extra(d(), 1, &[30]),
            &[0, 1, 3, 30],
            &[1, 2, 4],
        ),
        known(
            "interface-decomposed-hidden",
            d_hidden(),
            &[0, 1, 3],
            &[1, 4],
        ),
        known(
            "interface-slave-hidden",
            Model {
                slaves: vec![slave(0, 1, 1)],
                nodes: vec![leaf(1), hidden(0, &[1, 3], &[4]), leaf(0)],
                ..d()
            },
            &[0, 3],
            &[1, 2],
        ),
        known(
            "interface-nested",
            nested(),
            &[0, 1, 2],
            &[8, 9, 10, 16, 17, 18],
        ),
        known(
            "interface-several-slaves",
            master_of(7),
            &[],
            &[1, 2, 3, 4, 5, 6, 7],
        ),
        known(
            "interface-eight-charts",
            row_of(8),
            &[],
            &[0, 1, 2, 3, 4, 5, 6, 7],
        ),
        known("interface-deep-hiding", hidden_deep(64), &[], &[5]),
    ];
    all.push(Known {
        name: "interface-all-signals",
        file: {
            let mut model = whole_case();
            model.charts[0].transitions[0].needed = Set::FULL;
            model.charts[0].transitions[1].action = Set::FULL;
            model.file()
        },
        input: Set::FULL,
        output: Set::FULL,
    });
    all.push(Known {
        name: "interface-all-signals-hidden",
        file: {
            let mut model = whole_case();
            model.charts[0].extra = Set::FULL;
            model.charts[0].transitions[1].action = Set::FULL;
            model.nodes.push(Node::Hidden {
                part: 0,
                filtered: Set::FULL,
                hidden: Set::FULL,
            });
            model.file()
        },
        input: Set::EMPTY,
        output: Set::EMPTY,
    });
    all.push(Known {
        name: "interface-behind-front",
        file: behind(&[3; 11], p1().file()),
        input: Set::of(&[0, 1]),
        output: Set::of(&[1, 2]),
    });
    all
}
