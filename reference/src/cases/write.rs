//! Named cases of writing (RULES 15). Beside each file is its refusal or its text, by hand; the texts of the
//! largest files are put together from pieces.

use super::charts::*;
use super::damage::behind;
use super::file::{one_fault, one_fault_under};
use super::Case;
use crate::command::Command;
use crate::limits::*;
use crate::model::{Chart, Edition, Model, Node, Slave, Transition};
use crate::set::Set;

/// All named cases of writing.
pub fn cases() -> Vec<Case> {
    known().into_iter().map(|known| known.case()).collect()
}

/// A file, the buffer that it is written to, and its text or its refusal, by hand.
pub struct Known {
    pub name: String,
    pub file: Vec<u8>,
    pub room: usize,
    pub told: Result<String, u8>,
}

impl Known {
    /// The writing.
    fn case(self) -> Case {
        let command = Command::write(&self.name, self.file, self.room);
        Case::new(command, self.told.err().unwrap_or(refusal::SUCCESS))
    }
}

/// A file that has this text, and a buffer that is three bytes longer than needed; blanks are only here.
fn has(name: &str, model: Model, text: &str) -> Known {
    let text: String = text.split_whitespace().collect();
    accepted(name, model.file(), text.len() + 3, text)
}

/// A file that has this text, and a buffer of this length.
fn accepted(name: &str, file: Vec<u8>, room: usize, text: String) -> Known {
    Known {
        name: format!("write-{name}"),
        file,
        room,
        told: Ok(text),
    }
}

/// A file that is refused.
fn refused(name: &str, number: u8, file: Vec<u8>, room: usize) -> Known {
    Known {
        name: format!("write-{name}"),
        file,
        room,
        told: Err(number),
    }
}

/// All files with their texts and refusals.
pub fn known() -> Vec<Known> {
    let lists = [
        samples(),
        charts(),
        guards(),
        sets(),
        slaves(),
        parts(),
        hidings(),
        orders(),
        sixteen(),
        depths(),
        rooms(),
        files(),
        second_edition(),
    ];
    lists.into_iter().flatten().collect()
}

/// The charts of samples/: their texts, without the blanks, are the written ones.
fn samples() -> Vec<Known> {
    let sample = |name: &str, model: Model, text: &str| has(&format!("sample-{name}"), model, text);
    vec![
        sample("L1", l1(), include_str!("../../../samples/L1.text")),
        sample("L2", l2(), include_str!("../../../samples/L2.text")),
        sample("L3", l3(), include_str!("../../../samples/L3.text")),
        sample("N1", n1(), include_str!("../../../samples/N1.text")),
        sample("N2", n2(), include_str!("../../../samples/N2.text")),
        sample("P1", p1(), include_str!("../../../samples/P1.text")),
        sample("P2", p2(), include_str!("../../../samples/P2.text")),
        sample("P3", p3(), include_str!("../../../samples/P3.text")),
        sample("P4", p4(), include_str!("../../../samples/P4.text")),
        sample("D", d(), include_str!("../../../samples/decomposed.text")),
        sample(
            "whole-case",
            whole_case(),
            include_str!("../../../samples/whole-case.text"),
        ),
    ]
}

/// A chart of one state.
fn small() -> Chart {
    chart(1, &[], vec![])
}

/// Its text under a number.
fn small_text(number: usize) -> String {
    format!("(c{number},{{q0}},q0,{{}},{{}})")
}

/// A chart that begins in a state.
fn beginning(states: u8, initial: u8) -> Model {
    let chart = spread(states, 0);
    alone(Chart { initial, ..chart })
}

/// One chart: its states, its initial state, its extra set.
fn charts() -> Vec<Known> {
    let extra = |extra: &[u32]| {
        alone(Chart {
            extra: Set::of(extra),
            ..small()
        })
    };
    vec![
        has("smallest", alone(small()), "(c0,{q0},q0,{},{})"),
        has("initial-0", beginning(3, 0), "(c0,{q0,q1,q2},q0,{},{})"),
        has("initial-1", beginning(3, 1), "(c0,{q1,q0,q2},q1,{},{})"),
        has("initial-last", beginning(3, 2), "(c0,{q2,q0,q1},q2,{},{})"),
        has(
            "sixteen-states",
            beginning(16, 0),
            "(c0,{q0,q1,q2,q3,q4,q5,q6,q7,q8,q9,q10,q11,q12,q13,q14,q15},q0,{},{})",
        ),
        has(
            "sixteen-states-from-9",
            beginning(16, 9),
            "(c0,{q9,q0,q1,q2,q3,q4,q5,q6,q7,q8,q10,q11,q12,q13,q14,q15},q9,{},{})",
        ),
        has(
            "sixteen-states-from-15",
            beginning(16, 15),
            "(c0,{q15,q0,q1,q2,q3,q4,q5,q6,q7,q8,q9,q10,q11,q12,q13,q14},q15,{},{})",
        ),
        has("extra-empty", extra(&[]), "(c0,{q0},q0,{},{})"),
        has("extra", extra(&[9]), "(c0,{q0},q0,{},{},{s9})"),
        has(
            "extra-several",
            extra(&[63, 0, 10]),
            "(c0,{q0},q0,{},{},{s0,s10,s63})",
        ),
        has(
            "extra-behind-transitions",
            alone(Chart {
                extra: Set::of(&[1]),
                ..ticking(2)
            }),
            "(c0,{q0},q0,{},{(q0,q0,/{s2})},{s1})",
        ),
        has(
            "feedback",
            alone(chart(1, &[62, 7, 63], vec![])),
            "(c0,{q0},q0,{s7,s62,s63},{})",
        ),
    ]
}

/// A chart of one transition with this guard.
fn guarded(needed: &[u32], barred: &[u32]) -> Model {
    alone(chart(2, &[], vec![go(0, 1, needed, barred, &[])]))
}

/// Guards, by signal, a needed one before the same one barred.
fn guards() -> Vec<Known> {
    let guard = |name: &str, needed: &[u32], barred: &[u32], text: &str| {
        has(
            &format!("guard-{name}"),
            guarded(needed, barred),
            &format!("(c0,{{q0,q1}},q0,{{}},{{(q0,q1,{text}/{{}})}})"),
        )
    };
    let all: Vec<u32> = (0..SIGNALS).collect();
    let every: Vec<String> = all.iter().map(|s| format!("s{s}&-s{s}")).collect();
    let needed: Vec<String> = all.iter().map(|s| format!("s{s}")).collect();
    let barred: Vec<String> = all.iter().map(|s| format!("-s{s}")).collect();
    vec![
        guard("empty", &[], &[], ""),
        guard("needed", &[3], &[], "s3"),
        guard("barred", &[], &[3], "-s3"),
        guard("merged", &[2, 10], &[1, 2], "-s1&s2&-s2&s10"),
        guard("same", &[5], &[5], "s5&-s5"),
        guard("same-0", &[0], &[0], "s0&-s0"),
        guard("same-63", &[63], &[63], "s63&-s63"),
        guard("barred-first", &[9], &[8], "-s8&s9"),
        guard("needed-first", &[8], &[9], "s8&-s9"),
        // by number, and not by the letters of the name
        guard("9-before-10", &[10, 9], &[], "s9&s10"),
        guard("ends", &[0, 63], &[], "s0&s63"),
        guard("all-needed", &all, &[], &needed.join("&")),
        guard("all-barred", &[], &all, &barred.join("&")),
        guard("all-both", &all, &all, &every.join("&")),
    ]
}

/// Sets rise, and transitions have the order of the file.
fn sets() -> Vec<Known> {
    let all: Vec<u32> = (0..SIGNALS).collect();
    let names: Vec<String> = all.iter().map(|s| format!("s{s}")).collect();
    vec![
        has(
            "action-rising",
            alone(chart(1, &[], vec![go(0, 0, &[], &[], &[20, 3, 0, 63])])),
            "(c0,{q0},q0,{},{(q0,q0,/{s0,s3,s20,s63})})",
        ),
        has(
            "action-all",
            alone(chart(1, &[], vec![go(0, 0, &[], &[], &all)])),
            &format!("(c0,{{q0}},q0,{{}},{{(q0,q0,/{{{}}})}})", names.join(",")),
        ),
        has(
            "transitions-in-file-order",
            alone(chart(
                2,
                &[],
                vec![
                    go(1, 0, &[], &[], &[]),
                    go(0, 1, &[1], &[], &[2]),
                    go(1, 1, &[], &[], &[]),
                    go(0, 1, &[0], &[], &[]),
                    go(0, 1, &[1], &[], &[2]),
                ],
            )),
            "(c0,{q0,q1},q0,{},{(q1,q0,/{}),(q0,q1,s1/{s2}),(q1,q1,/{}),(q0,q1,s0/{}),(q0,q1,s1/{s2})})",
        ),
    ]
}

/// Masters: slaves by state, and each form as a slave.
fn slaves() -> Vec<Known> {
    let master = |slaves: Vec<Slave>, nodes: Vec<Node>, charts: usize| Model {
        edition: Edition::First,
        charts: [vec![spread(3, 0)], vec![small(); charts - 1]].concat(),
        slaves,
        nodes,
    };
    vec![
        has(
            "slave",
            decomposed(spread(2, 0), 1, small()),
            "Dec(c0,{q0,q1},q0,{},{})by{(q1,(c1,{q0},q0,{},{}))}",
        ),
        has(
            "slaves-by-state",
            master(
                vec![slave(0, 0, 2), slave(0, 1, 0), slave(0, 2, 1)],
                vec![leaf(3), leaf(1), leaf(2), leaf(0)],
                4,
            ),
            "Dec(c0,{q0,q1,q2},q0,{},{})by{(q0,(c2,{q0},q0,{},{})),(q1,(c3,{q0},q0,{},{})),
             (q2,(c1,{q0},q0,{},{}))}",
        ),
        has(
            "slave-of-the-initial-state-not-0",
            Model {
                charts: vec![
                    Chart {
                        initial: 1,
                        ..spread(2, 0)
                    },
                    small(),
                    small(),
                ],
                slaves: vec![slave(0, 0, 0), slave(0, 1, 1)],
                nodes: vec![leaf(1), leaf(2), leaf(0)],
                ..alone(small())
            },
            "Dec(c0,{q1,q0},q1,{},{})by{(q0,(c1,{q0},q0,{},{})),(q1,(c2,{q0},q0,{},{}))}",
        ),
        has(
            "slave-composed",
            master(
                vec![slave(0, 2, 2)],
                vec![leaf(1), leaf(2), composed(0, 1, &[4]), leaf(0)],
                3,
            ),
            "Dec(c0,{q0,q1,q2},q0,{},{})by{(q2,(c1,{q0},q0,{},{})|{s4}|(c2,{q0},q0,{},{}))}",
        ),
        has(
            "slave-hidden",
            master(
                vec![slave(0, 0, 1)],
                vec![leaf(1), hidden(0, &[1], &[2]), leaf(0)],
                2,
            ),
            "Dec(c0,{q0,q1,q2},q0,{},{})by{(q0,{s1}[(c1,{q0},q0,{},{})]{s2})}",
        ),
        has(
            "slave-in-a-slave",
            nested(),
            "Dec(c0,{q0,q1},q0,{},{(q0,q1,s0/{s8}),(q0,q0,-s0/{}),(q1,q0,s0/{}),(q1,q1,-s0/{s16})})
             by{(q1,
             Dec(c1,{q0,q1},q0,{},{(q0,q1,s1/{s9}),(q0,q0,-s1/{}),(q1,q0,s1/{}),(q1,q1,-s1/{s17})})
             by{(q1,
             (c2,{q0,q1},q0,{},{(q0,q1,s2/{s10}),(q0,q0,-s2/{}),(q1,q0,s2/{}),(q1,q1,-s2/{s18})})
             )})}",
        ),
        has(
            "master-hidden",
            d_hidden(),
            "{}[Dec(c0,{q0,q1},q0,{s1},{(q0,q1,s0/{s1}),(q0,q0,-s0/{}),(q1,q0,s3/{})})
             by{(q1,(c1,{q0,q1},q0,{},{(q0,q1,s1/{s2}),(q1,q1,s3/{s4})}))}]{s2}",
        ),
    ]
}

/// So many charts of one state under these nodes.
fn under(charts: usize, nodes: Vec<Node>) -> Model {
    Model {
        edition: Edition::First,
        charts: vec![small(); charts],
        slaves: vec![],
        nodes,
    }
}

/// The text of charts of one state, composed in this shape: each digit is one of them.
fn shaped(shape: &str) -> String {
    let one = |c: char| match c.to_digit(10) {
        Some(number) => small_text(number as usize),
        None if c == '|' => "|{}|".to_string(),
        None => c.to_string(),
    };
    shape.chars().map(one).collect()
}

/// Round brackets, only around a composition that is a part of one.
fn parts() -> Vec<Known> {
    let leaves = |charts: u8, nodes: Vec<Node>| {
        under(
            usize::from(charts),
            (0..charts).map(leaf).chain(nodes).collect(),
        )
    };
    let three = |nodes: Vec<Node>| leaves(3, nodes);
    let four = |pairs: [(u8, u8); 3]| {
        let nodes = pairs.map(|(a, b)| composed(a, b, &[]));
        leaves(4, nodes.to_vec())
    };
    vec![
        has(
            "composed",
            under(2, vec![leaf(0), leaf(1), composed(0, 1, &[])]),
            &shaped("0|1"),
        ),
        has(
            "composed-higher-first",
            under(2, vec![leaf(0), leaf(1), composed(1, 0, &[])]),
            &shaped("1|0"),
        ),
        has(
            "composed-feedback",
            under(2, vec![leaf(0), leaf(1), composed(0, 1, &[62, 1])]),
            "(c0,{q0},q0,{},{})|{s1,s62}|(c1,{q0},q0,{},{})",
        ),
        has(
            "brackets-left",
            three(vec![composed(0, 1, &[]), composed(3, 2, &[])]),
            &shaped("(0|1)|2"),
        ),
        has(
            "brackets-right",
            three(vec![composed(1, 2, &[]), composed(0, 3, &[])]),
            &shaped("0|(1|2)"),
        ),
        has(
            "brackets-both",
            four([(3, 0), (2, 1), (4, 5)]),
            &shaped("(3|0)|(2|1)"),
        ),
        has(
            "brackets-in-brackets",
            four([(0, 1), (4, 2), (5, 3)]),
            &shaped("((0|1)|2)|3"),
        ),
        has(
            "no-brackets-around-hidden",
            three(vec![
                composed(0, 1, &[]),
                hidden(3, &[], &[]),
                composed(4, 2, &[]),
            ]),
            &shaped("{}[0|1]{}|2"),
        ),
        has(
            "no-brackets-in-hidden",
            three(vec![
                composed(0, 1, &[]),
                composed(3, 2, &[]),
                hidden(4, &[], &[]),
            ]),
            &shaped("{}[(0|1)|2]{}"),
        ),
        has(
            "no-brackets-around-a-master",
            Model {
                slaves: vec![slave(0, 0, 0)],
                ..under(3, vec![leaf(1), leaf(0), leaf(2), composed(1, 2, &[])])
            },
            "Dec(c0,{q0},q0,{},{})by{(q0,(c1,{q0},q0,{},{}))}|{}|(c2,{q0},q0,{},{})",
        ),
    ]
}

/// Both sets are written, also where they are empty.
fn hidings() -> Vec<Known> {
    let around = |name: &str, filtered: &[u32], hides: &[u32], text: &str| {
        has(
            &format!("hidden-{name}"),
            wrapped(alone(small()), filtered, hides),
            text,
        )
    };
    vec![
        around("by-nothing", &[], &[], "{}[(c0,{q0},q0,{},{})]{}"),
        around("input", &[1], &[], "{s1}[(c0,{q0},q0,{},{})]{}"),
        around("output", &[], &[2], "{}[(c0,{q0},q0,{},{})]{s2}"),
        around(
            "both",
            &[9, 1],
            &[63, 2],
            "{s1,s9}[(c0,{q0},q0,{},{})]{s2,s63}",
        ),
        has(
            "hidden-twice",
            wrapped(wrapped(alone(small()), &[1], &[]), &[], &[2]),
            "{}[{s1}[(c0,{q0},q0,{},{})]{}]{s2}",
        ),
    ]
}

/// The order of the nodes in the file plays no part.
fn orders() -> Vec<Known> {
    let text = &shaped("(0|1)|(2|3)");
    let tree = |nodes: Vec<Node>| under(4, nodes);
    vec![
        has(
            "nodes-as-read",
            tree(vec![
                leaf(0),
                leaf(1),
                composed(0, 1, &[]),
                leaf(2),
                leaf(3),
                composed(3, 4, &[]),
                composed(2, 5, &[]),
            ]),
            text,
        ),
        has(
            "nodes-right-first",
            tree(vec![
                leaf(3),
                leaf(2),
                composed(1, 0, &[]),
                leaf(1),
                leaf(0),
                composed(4, 3, &[]),
                composed(5, 2, &[]),
            ]),
            text,
        ),
    ]
}

/// As many charts as there may be, under their names.
fn sixteen() -> Vec<Known> {
    let row: Vec<Node> = (0..16).map(leaf).collect();
    let mut nodes = row.clone();
    // in pairs, so that it is not deep
    for first in (0..16).step_by(2) {
        nodes.push(composed(first, first + 1, &[]));
    }
    for first in (16..30).step_by(2) {
        nodes.push(composed(first, first + 1, &[]));
    }
    let text = |number: usize| small_text(number);
    let two = |n: usize| format!("({}|{{}}|{})", text(n), text(n + 1));
    let four = |n: usize| format!("({}|{{}}|{})", two(n), two(n + 2));
    let eight = |n: usize| format!("({}|{{}}|{})", four(n), four(n + 4));
    let whole = format!("{}|{{}}|{}", eight(0), eight(8));
    vec![
        has("sixteen-charts", under(16, nodes), &whole),
        has(
            "sixteen-masters",
            Model {
                slaves: (0..15).map(|chart| slave(chart, 0, 14 - chart)).collect(),
                nodes: row.into_iter().rev().collect(),
                ..under(16, vec![])
            },
            &nest_text(0, (0..16).map(small_text)),
        ),
    ]
}

/// A text hidden by two empty sets, so many times.
fn hidden_text(times: usize, text: &str) -> String {
    format!("{}{text}{}", "{}[".repeat(times), "]{}".repeat(times))
}

/// 51: fifteen operators around a chart are written, sixteen are not.
fn depths() -> Vec<Known> {
    let written = |name: &str, model: Model, room: usize, text: String| {
        accepted(&format!("depth-{name}"), model.file(), room, text)
    };
    let deep = |name: &str, model: Model| {
        refused(
            &format!("depth-{name}"),
            refusal::NESTING,
            model.file(),
            500,
        )
    };
    let hides =
        |model: Model, times: usize| (0..times).fold(model, |model, _| wrapped(model, &[], &[]));
    // a part that is hidden so many times, beside or inside a chart
    let beside_hidden = |times: usize, left: bool| {
        let mut nodes = vec![leaf(0)];
        nodes.extend((0..times as u8).map(|below| hidden(below, &[], &[])));
        nodes.push(leaf(1));
        let (part, other) = (times as u8, times as u8 + 1);
        nodes.push(match left {
            true => composed(part, other, &[]),
            false => composed(other, part, &[]),
        });
        under(2, nodes)
    };
    let inside_hidden = |times: usize| {
        let mut nodes = vec![leaf(1)];
        nodes.extend((0..times as u8).map(|below| hidden(below, &[], &[])));
        nodes.push(leaf(0));
        Model {
            slaves: vec![slave(0, 0, times as u8)],
            ..under(2, nodes)
        }
    };
    let row = |charts: usize| row_of_charts(vec![small(); charts]);
    let ticking = "(c0,{q0},q0,{},{(q0,q0,/{s5})})";
    let c0_hidden = hidden_text(14, "(c0,{q0},q0,{},{})");
    let c1_hidden = hidden_text(14, "(c1,{q0},q0,{},{})");
    vec![
        written("15", hidden_deep(15), 150, hidden_text(14, ticking)),
        written("16", hidden_deep(16), 150, hidden_text(15, ticking)),
        deep("17", hidden_deep(17)),
        deep("18", hidden_deep(18)),
        deep("64", hidden_deep(64)),
        written(
            "16-compositions",
            row(16),
            500,
            row_text((0..16).map(small_text)),
        ),
        deep("17-compositions", hides(row(16), 1)),
        written(
            "16-masters",
            nest_of_small(16),
            600,
            nest_text(0, (0..16).map(small_text)),
        ),
        deep("17-masters", hides(nest_of_small(16), 1)),
        written(
            "16-left-part",
            beside_hidden(14, true),
            150,
            format!("{c0_hidden}|{{}}|(c1,{{q0}},q0,{{}},{{}})"),
        ),
        deep("17-left-part", beside_hidden(15, true)),
        written(
            "16-right-part",
            beside_hidden(14, false),
            150,
            format!("(c1,{{q0}},q0,{{}},{{}})|{{}}|{c0_hidden}"),
        ),
        deep("17-right-part", beside_hidden(15, false)),
        written(
            "16-slave",
            inside_hidden(14),
            150,
            format!("Dec(c0,{{q0}},q0,{{}},{{}})by{{(q0,{c1_hidden})}}"),
        ),
        deep("17-slave", inside_hidden(15)),
        deep("64-composed-last", hides(beside_hidden(12, true), 40)),
        // a buffer that is too short as well: 51 comes before 45
        refused(
            "depth-17-before-45",
            refusal::NESTING,
            hidden_deep(17).file(),
            5,
        ),
    ]
}

/// The text of charts composed one after the other, without feedback.
fn row_text(charts: impl Iterator<Item = String>) -> String {
    let longer = |row: String, next: String| match row.contains('|') {
        true => format!("({row})|{{}}|{next}"),
        false => format!("{row}|{{}}|{next}"),
    };
    charts.reduce(longer).unwrap_or_default()
}

/// The text of charts of which each is the slave of this state of the one before.
fn nest_text(state: u8, charts: impl DoubleEndedIterator<Item = String>) -> String {
    let around = |inner: String, master: String| format!("Dec{master}by{{(q{state},{inner})}}");
    charts.rev().reduce(around).unwrap_or_default()
}

/// Charts of one state, each the slave of the one before.
fn nest_of_small(charts: u8) -> Model {
    Model {
        slaves: (0..charts - 1)
            .map(|master| slave(master, 0, charts - 2 - master))
            .collect(),
        nodes: (0..charts).rev().map(leaf).collect(),
        ..under(usize::from(charts), vec![])
    }
}

/// 45: a buffer that is too short for the text.
fn rooms() -> Vec<Known> {
    let known = [
        has("smallest", alone(small()), "(c0,{q0},q0,{},{})"),
        has("D", d(), include_str!("../../../samples/decomposed.text")),
        has("P4", p4(), include_str!("../../../samples/P4.text")),
    ];
    let mut cases = vec![];
    for Known {
        name, file, told, ..
    } in known
    {
        let word = name.trim_start_matches("write-");
        let needed = told.as_ref().map_or(0, String::len);
        let short = Err(refusal::REWRITING_ROOM);
        for (room, length, told) in [
            ("empty", 0, &short),
            ("one-byte", 1, &short),
            ("one-short", needed - 1, &short),
            ("exact", needed, &told),
            ("one-longer", needed + 1, &told),
        ] {
            cases.push(Known {
                name: format!("write-room-{word}-{room}"),
                file: file.clone(),
                room: length,
                told: told.clone(),
            });
        }
    }
    cases
}

/// Refused files; a front, which is not written; large files.
fn files() -> Vec<Known> {
    let sample = include_bytes!("../../../samples/29-february");
    let fronted = behind(&[0x77; 29], d().file());
    let many = || {
        let moves: Vec<Transition> = (0..64)
            .map(|place| go(place / 8, place % 8, &[u32::from(place)], &[9], &[63]))
            .collect();
        alone(chart(8, &[1, 2], moves))
    };
    let without_blanks = |text: &str| text.split_whitespace().collect::<String>();
    let mut cases = vec![
        accepted(
            "sample-29-february",
            sample.to_vec(),
            500,
            without_blanks(include_str!("../../../samples/29-february.text")),
        ),
        accepted(
            "behind-front",
            fronted.clone(),
            200,
            without_blanks(include_str!("../../../samples/decomposed.text")),
        ),
        refused("behind-front-short", refusal::REWRITING_ROOM, fronted, 100),
        accepted("64-transitions", many().file(), 1_500, many_text()),
        accepted(
            "nest-of-16",
            nest(16).file(),
            2_000,
            nest_text(1, (0..16).map(moving_text)),
        ),
        accepted(
            "master-of-15",
            master_of(15).file(),
            1_500,
            master_of_15_text(),
        ),
        accepted(
            "fullest-chart",
            alone(spread(16, 64)).file(),
            1_500,
            full_text(0),
        ),
        accepted(
            "eight-full-charts",
            full_charts(8).file(),
            8_000,
            row_text((0..8).map(full_text)),
        ),
    ];
    for (number, file) in one_fault() {
        cases.push(refused(&format!("file-refused-{number}"), number, file, 6));
    }
    cases
}

/// States or signals with commas between: the names with the first number up to the one with the last.
fn names(letter: char, first: usize, last: usize) -> String {
    let names: Vec<String> = (first..=last).map(|n| format!("{letter}{n}")).collect();
    names.join(",")
}

/// A chart with 64 transitions, from each of eight states to each. Each needs the signal of its place and
/// bars 9, so the one at place 9 needs and bars the same signal.
fn many_text() -> String {
    let guard = |place: usize| match place {
        0..=8 => format!("s{place}&-s9"),
        9 => "s9&-s9".to_string(),
        _ => format!("-s9&s{place}"),
    };
    let moves: Vec<String> = (0..64)
        .map(|place| {
            let (from, to) = (place / 8, place % 8);
            format!("(q{from},q{to},{}/{{s63}})", guard(place))
        })
        .collect();
    let (states, moves) = (names('q', 0, 7), moves.join(","));
    format!("(c0,{{{states}}},q0,{{s1,s2}},{{{moves}}})")
}

/// A chart of the nest, which moves when its own signal comes.
fn moving_text(chart: usize) -> String {
    let (entered, left) = (chart + 16, chart + 32);
    format!(
        "(c{chart},{{q0,q1}},q0,{{}},{{(q0,q1,s{chart}/{{s{entered}}}),(q0,q0,-s{chart}/{{}}),\
         (q1,q0,s{chart}/{{}}),(q1,q1,-s{chart}/{{s{left}}})}})"
    )
}

/// A master of fifteen states with a slave in each.
fn master_of_15_text() -> String {
    let slave = |state: usize| {
        let chart = state + 1;
        format!("(q{state},(c{chart},{{q0}},q0,{{}},{{(q0,q0,/{{s{chart}}})}}))")
    };
    let slaves: Vec<String> = (0..15).map(slave).collect();
    format!(
        "Dec(c0,{{{}}},q0,{{}},{{(q0,q0,/{{}}),(q0,q1,/{{}}),(q0,q2,/{{}}),(q0,q3,/{{}}),(q0,q4,/{{}}),\
         (q0,q5,/{{}}),(q0,q6,/{{}}),(q0,q7,/{{}})}})by{{{}}}",
        names('q', 0, 14),
        slaves.join(",")
    )
}

/// A chart that goes round its sixteen states, by four transitions from each.
fn full_text(chart: usize) -> String {
    let mut round: Vec<String> = (0..15)
        .map(|q| format!("(q{q},q{},/{{}})", q + 1))
        .collect();
    round.push("(q15,q0,/{})".to_string());
    let round = round.join(",");
    let states = names('q', 0, 15);
    format!("(c{chart},{{{states}}},q0,{{}},{{{round},{round},{round},{round}}})")
}

/// 46 comes behind 1 to 11 and before 51 and 45.
fn second_edition() -> Vec<Known> {
    let second = |model: Model| model.under(Edition::Second).file();
    let bad = refusal::REWRITING_EDITION;
    let sample = include_bytes!("../../../samples/29-february-edition-2");
    let mut cases = vec![
        refused("edition-2-D", bad, second(d()), 300),
        refused("edition-2-smallest", bad, second(alone(small())), 40),
        refused("edition-2-sample", bad, sample.to_vec(), 40),
        refused("edition-2-before-51", bad, second(hidden_deep(17)), 40),
        refused("edition-2-before-45", bad, second(d()), 5),
        refused(
            "edition-2-before-51-and-45",
            bad,
            second(hidden_deep(64)),
            0,
        ),
    ];
    let faults = one_fault_under(Edition::Second).into_iter();
    for (number, file) in faults.filter(|&(number, _)| number > refusal::EDITION) {
        cases.push(refused(
            &format!("edition-2-behind-{number}"),
            number,
            file,
            6,
        ));
    }
    cases
}
