//! Named cases of a step beyond the thirteen charts: the rules of RULES 5 one by one, and the
//! refusals 20 to 23 with their order.

use super::charts::*;
use super::file::one_fault;
use super::rows::{gives, row as meaning, RowAnswer};
use super::{configuration_rooms, Case};
use crate::command::Command;
use crate::limits::*;
use crate::model::{Chart, Edition, Model};
use crate::set::Set;

/// All named cases of a step but those of the thirteen charts.
pub fn cases() -> Vec<Case> {
    let meanings = meanings().into_iter().map(|row| row.case(row.name, 1));
    let edges = [
        lengths(),
        states(),
        rooms(),
        orders(),
        files(),
        inputs(),
        wide(),
        places(),
    ];
    meanings.chain(edges.into_iter().flatten()).collect()
}

/// The answers of single rules, written by hand.
pub fn meanings() -> Vec<RowAnswer> {
    [
        choices(),
        guards(),
        feedback(),
        hiding(),
        slaves(),
        inner_slaves(),
        long_chains(),
    ]
    .into_iter()
    .flatten()
    .collect()
}

/// One chart of two states, the whole.
fn single(transitions: Vec<crate::model::Transition>) -> Model {
    alone(chart(2, &[], transitions))
}

/// Two charts where each place of the first goes with the other place of the second.
fn crossed() -> Model {
    let first = vec![go(0, 0, &[5], &[], &[]), go(0, 1, &[], &[5], &[])];
    let second = vec![go(0, 0, &[], &[5], &[]), go(0, 1, &[], &[], &[5])];
    beside(chart(2, &[], first), chart(2, &[], second), &[5])
}

/// The order of choices (RULES 5.8), and the mark (RULES 5.10).
fn choices() -> Vec<RowAnswer> {
    let out = |to, signal| go(0, to, &[], &[], &[signal]);
    let swapped = Model {
        nodes: vec![leaf(1), leaf(0), composed(0, 1, &[5])],
        ..crossed()
    };
    vec![
        meaning(
            "order-by-chart-0-first",
            crossed(),
            &[0, 0],
            &[],
            gives(&[0, 1], &[5], false),
        ),
        meaning(
            "order-not-by-node",
            swapped,
            &[0, 0],
            &[],
            gives(&[0, 1], &[5], false),
        ),
        meaning(
            "order-second-place-alone-permitted",
            single(vec![go(0, 0, &[1], &[], &[]), go(0, 1, &[], &[1], &[2])]),
            &[0],
            &[],
            gives(&[1], &[2], true),
        ),
        meaning(
            "mark-no-by-state-alone",
            single(vec![out(0, 1), out(1, 1)]),
            &[0],
            &[],
            gives(&[0], &[1], false),
        ),
        meaning(
            "mark-no-by-output-alone",
            single(vec![out(1, 1), out(1, 2)]),
            &[0],
            &[],
            gives(&[1], &[1], false),
        ),
        meaning(
            "mark-yes-where-hiding-makes-outputs-equal",
            wrapped(single(vec![out(1, 1), out(1, 2)]), &[], &[1, 2]),
            &[0],
            &[],
            gives(&[1], &[], true),
        ),
        meaning(
            "mark-no-by-last-choice",
            single(vec![out(1, 1), out(1, 1), out(1, 1), out(0, 1)]),
            &[0],
            &[],
            gives(&[1], &[1], false),
        ),
        meaning(
            "mark-yes-other-choice-not-permitted",
            single(vec![out(1, 1), go(0, 0, &[3], &[], &[])]),
            &[0],
            &[],
            gives(&[1], &[1], true),
        ),
        meaning(
            "mark-no-by-slave-alone",
            decomposed(
                single(vec![go(0, 0, &[], &[], &[])]).charts[0].clone(),
                0,
                chart(2, &[], vec![out(0, 4), out(1, 4)]),
            ),
            &[0, 0],
            &[],
            gives(&[0, 0], &[4], false),
        ),
    ]
}

/// When a guard is met on the offered set (RULES 5.6).
fn guards() -> Vec<RowAnswer> {
    let needs = |needed: &[u32], barred: &[u32]| single(vec![go(0, 1, needed, barred, &[9])]);
    let met = || gives(&[1], &[9], true);
    let extra = {
        let mut model = needs(&[], &[]);
        model.charts[0].extra = Set::of(&[1, 2, 3]);
        model
    };
    vec![
        meaning("guard-empty", needs(&[], &[]), &[0], &[], met()),
        meaning(
            "guard-empty-other-input",
            needs(&[], &[]),
            &[0],
            &[1, 2],
            met(),
        ),
        meaning(
            "guard-needs-two-has-two",
            needs(&[1, 2], &[]),
            &[0],
            &[1, 2],
            met(),
        ),
        meaning(
            "guard-needs-two-has-one",
            needs(&[1, 2], &[]),
            &[0],
            &[1],
            None,
        ),
        meaning(
            "guard-needs-two-has-other",
            needs(&[1, 2], &[]),
            &[0],
            &[2],
            None,
        ),
        meaning(
            "guard-bars-two-has-none",
            needs(&[], &[1, 2]),
            &[0],
            &[3],
            met(),
        ),
        meaning(
            "guard-bars-two-has-one",
            needs(&[], &[1, 2]),
            &[0],
            &[2],
            None,
        ),
        meaning("guard-needs-and-bars", needs(&[1], &[2]), &[0], &[1], met()),
        meaning(
            "guard-needs-and-bars-has-both",
            needs(&[1], &[2]),
            &[0],
            &[1, 2],
            None,
        ),
        meaning(
            "guard-same-needed-and-barred",
            needs(&[1], &[1]),
            &[0],
            &[1],
            None,
        ),
        meaning(
            "guard-same-needed-and-barred-absent",
            needs(&[1], &[1]),
            &[0],
            &[],
            None,
        ),
        meaning("guard-signal-63", needs(&[63], &[]), &[0], &[63], met()),
        meaning(
            "guard-signal-63-absent",
            needs(&[63], &[]),
            &[0],
            &[31],
            None,
        ),
        meaning("guard-signal-31", needs(&[31], &[32]), &[0], &[31], met()),
        meaning("guard-signal-32", needs(&[32], &[31]), &[0], &[32], met()),
        meaning(
            "guard-signal-32-for-31",
            needs(&[31], &[]),
            &[0],
            &[32],
            None,
        ),
        meaning("guard-extra-set-of-no-use", extra, &[0], &[1, 2], met()),
        meaning(
            "guard-no-transition-at-all",
            single(vec![]),
            &[0],
            &[],
            None,
        ),
        meaning(
            "guard-no-transition-from-here",
            needs(&[], &[]),
            &[1],
            &[],
            None,
        ),
    ]
}

/// Three charts: the first outputs 1, the second needs 1 and outputs 2, the third needs 2.
fn three() -> Vec<Chart> {
    vec![
        chart(2, &[], vec![go(0, 1, &[], &[], &[1])]),
        chart(2, &[], vec![go(0, 1, &[1], &[], &[2])]),
        chart(2, &[], vec![go(0, 1, &[2], &[], &[3])]),
    ]
}

/// Those three composed, the first two inside, with feedback inside and outside.
pub(super) fn three_composed(inside: &[u32], outside: &[u32]) -> Model {
    Model {
        edition: Edition::First,
        charts: three(),
        slaves: vec![],
        nodes: vec![
            leaf(0),
            leaf(1),
            leaf(2),
            composed(0, 1, inside),
            composed(3, 2, outside),
        ],
    }
}

/// What the parts of composed nodes are offered (RULES 5.5).
fn feedback() -> Vec<RowAnswer> {
    let all = || gives(&[1, 1, 1], &[1, 2, 3], true);
    let zeros = [0, 0, 0];
    let own = |feedback: &[u32], between: &[u32]| {
        beside(
            chart(2, feedback, vec![go(0, 1, &[1], &[], &[1])]),
            chart(2, &[], vec![go(0, 1, &[], &[1], &[])]),
            between,
        )
    };
    vec![
        meaning(
            "feedback-outside-serves-inside",
            three_composed(&[], &[1, 2]),
            &zeros,
            &[],
            all(),
        ),
        meaning(
            "feedback-each-where-needed",
            three_composed(&[1], &[2]),
            &zeros,
            &[],
            all(),
        ),
        meaning(
            "feedback-inside-does-not-leave",
            three_composed(&[1, 2], &[]),
            &zeros,
            &[],
            None,
        ),
        meaning(
            "feedback-of-a-part-alone",
            three_composed(&[1], &[1]),
            &zeros,
            &[],
            None,
        ),
        meaning(
            "feedback-and-input",
            three_composed(&[1], &[]),
            &zeros,
            &[2],
            all(),
        ),
        meaning(
            "feedback-own-is-not-heard-beside",
            own(&[1], &[]),
            &[0, 0],
            &[],
            gives(&[1, 1], &[1], true),
        ),
        meaning(
            "feedback-between-is-heard-beside",
            own(&[1], &[1]),
            &[0, 0],
            &[],
            None,
        ),
        meaning(
            "feedback-between-serves-the-sender",
            {
                let mut model = own(&[], &[1]);
                model.charts[1].transitions[0].barred = Set::EMPTY;
                model
            },
            &[0, 0],
            &[],
            gives(&[1, 1], &[1], true),
        ),
        meaning(
            "feedback-of-signal-not-put-out",
            alone(chart(2, &[1], vec![go(0, 1, &[1], &[], &[2])])),
            &[0],
            &[],
            None,
        ),
        meaning(
            "feedback-bars-what-is-put-out",
            {
                beside(
                    chart(2, &[], vec![go(0, 1, &[0], &[], &[1])]),
                    chart(2, &[], vec![go(0, 1, &[], &[1], &[2])]),
                    &[1],
                )
            },
            &[0, 0],
            &[0],
            None,
        ),
    ]
}

/// What the part of a hidden node is offered, what the node outputs, and feedback inside it
/// (RULES 5.4, 5.5).
fn hiding() -> Vec<RowAnswer> {
    let moved = |output: &[u32]| gives(&[1, 1], output, true);
    vec![
        meaning(
            "hiding-output-keeps-it-from-the-other",
            p1_first_hidden(&[], &[1]),
            &[0, 0],
            &[0],
            None,
        ),
        meaning(
            "hiding-output-hidden-but-in-input",
            p1_first_hidden(&[], &[1]),
            &[0, 0],
            &[0, 1],
            moved(&[2]),
        ),
        meaning(
            "hiding-input-of-no-matter",
            p1_first_hidden(&[1], &[]),
            &[0, 0],
            &[0],
            moved(&[1, 2]),
        ),
        meaning(
            "hiding-input-keeps-feedback-out",
            p1_second_hidden(&[1], &[]),
            &[0, 0],
            &[0],
            None,
        ),
        meaning(
            "hiding-output-of-the-last",
            p1_second_hidden(&[], &[2]),
            &[0, 0],
            &[0],
            moved(&[1]),
        ),
        meaning(
            "hiding-own-feedback-inside",
            wrapped(l1(), &[0], &[0]),
            &[0],
            &[],
            gives(&[1], &[], true),
        ),
        meaning(
            "hiding-input-at-the-top",
            wrapped(whole_case(), &[0], &[]),
            &[0],
            &[0],
            None,
        ),
        meaning(
            "hiding-twice",
            wrapped(wrapped(p3(), &[], &[2]), &[5], &[]),
            &[0, 0],
            &[0],
            moved(&[]),
        ),
        meaning(
            "hiding-lets-barred-signal-be-missed",
            wrapped(single(vec![go(0, 1, &[], &[4], &[])]), &[4], &[]),
            &[0],
            &[4],
            gives(&[1], &[], true),
        ),
    ]
}

/// A master that goes 0, 1, 2 whatever is offered, with slaves in states 0 and 1: chart 1 outputs
/// 7, chart 2 needs 7 and outputs 8.
pub(super) fn two_slaves(feedback: &[u32]) -> Model {
    let moves = vec![
        go(0, 1, &[], &[], &[]),
        go(1, 2, &[], &[], &[]),
        go(2, 2, &[], &[], &[]),
    ];
    Model {
        edition: Edition::First,
        charts: vec![
            chart(3, feedback, moves),
            chart(
                2,
                &[],
                vec![go(0, 1, &[], &[], &[7]), go(1, 0, &[], &[], &[6])],
            ),
            chart(2, &[], vec![go(0, 1, &[7], &[], &[8])]),
        ],
        slaves: vec![slave(0, 0, 0), slave(0, 1, 1)],
        nodes: vec![leaf(1), leaf(2), leaf(0)],
    }
}

/// A master that enters its state 1 on 7, which only the slave there outputs, with these signals
/// hidden.
pub(super) fn hears(y: &[u32]) -> Model {
    Model {
        edition: Edition::First,
        charts: vec![
            chart(2, &[7], vec![go(0, 1, &[7], &[], &[])]),
            chart(2, &[], vec![go(0, 1, &[], &[], &[7])]),
        ],
        slaves: vec![slave(0, 1, 1)],
        nodes: vec![leaf(1), hidden(0, &[], y), leaf(0)],
    }
}

/// Which slaves are active (RULES 5.3), and what master and slaves are offered (RULES 5.5).
fn slaves() -> Vec<RowAnswer> {
    let master = |moves| chart(2, &[7], moves);
    let stuck = chart(1, &[], vec![]);
    let deaf = Model {
        slaves: vec![slave(0, 1, 1)],
        nodes: vec![leaf(1), hidden(0, &[3], &[]), leaf(0)],
        ..d()
    };
    vec![
        meaning(
            "slaves-both-active-between-their-states",
            two_slaves(&[7]),
            &[0, 0, 0],
            &[],
            gives(&[1, 1, 1], &[7, 8], true),
        ),
        meaning(
            "slaves-without-feedback",
            two_slaves(&[]),
            &[0, 0, 0],
            &[],
            None,
        ),
        meaning(
            "slaves-without-feedback-but-input",
            two_slaves(&[]),
            &[0, 0, 0],
            &[7],
            gives(&[1, 1, 1], &[7, 8], true),
        ),
        meaning(
            "slaves-first-inactive-after-leaving",
            two_slaves(&[7]),
            &[1, 0, 0],
            &[7],
            gives(&[2, 0, 1], &[8], true),
        ),
        meaning("slaves-all-inactive", two_slaves(&[7]), &[2, 1, 1], &[7], {
            gives(&[2, 1, 1], &[], true)
        }),
        meaning("slave-output-heard-by-master", hears(&[]), &[0, 0], &[], {
            gives(&[1, 1], &[7], true)
        }),
        meaning(
            "slave-output-hidden-from-master",
            hears(&[7]),
            &[0, 0],
            &[],
            None,
        ),
        meaning("slave-input-filtered", deaf.clone(), &[1, 1], &[3], None),
        meaning("slave-input-filtered-while-inactive", deaf, &[0, 1], &[], {
            gives(&[0, 1], &[], true)
        }),
        meaning(
            "slave-stuck-stops-its-master",
            decomposed(master(vec![go(0, 0, &[], &[], &[])]), 0, stuck.clone()),
            &[0, 0],
            &[],
            None,
        ),
        meaning(
            "slave-stuck-is-avoided",
            {
                let moves = vec![go(0, 1, &[], &[], &[3]), go(0, 0, &[], &[], &[4])];
                decomposed(master(moves), 1, stuck.clone())
            },
            &[0, 0],
            &[],
            gives(&[0, 0], &[4], true),
        ),
        meaning(
            "slave-stuck-but-never-active",
            decomposed(master(vec![go(0, 0, &[], &[], &[])]), 1, stuck),
            &[0, 0],
            &[],
            gives(&[0, 0], &[], true),
        ),
        meaning(
            "slave-not-afresh-on-entry",
            {
                let inner = chart(
                    2,
                    &[],
                    vec![go(0, 0, &[], &[], &[5]), go(1, 1, &[], &[], &[6])],
                );
                decomposed(master(vec![go(0, 1, &[], &[], &[])]), 1, inner)
            },
            &[0, 1],
            &[],
            gives(&[1, 1], &[6], true),
        ),
    ]
}

/// A slave inside a slave: whether it is active depends on both masters.
fn inner_slaves() -> Vec<RowAnswer> {
    vec![
        meaning(
            "inner-entered-all-at-once",
            nested(),
            &[0, 0, 0],
            &[0, 1, 2],
            gives(&[1, 1, 1], &[8, 9, 10], true),
        ),
        meaning(
            "inner-left-all-at-once",
            nested(),
            &[1, 1, 0],
            &[0, 1, 2],
            gives(&[0, 0, 1], &[10], true),
        ),
        meaning("inner-all-stay", nested(), &[1, 1, 1], &[], {
            gives(&[1, 1, 1], &[16, 17, 18], true)
        }),
        meaning(
            "inner-of-inactive-is-inactive",
            nested(),
            &[0, 1, 0],
            &[],
            gives(&[0, 1, 0], &[], true),
        ),
        meaning(
            "inner-of-inactive-in-its-state",
            nested(),
            &[0, 1, 1],
            &[1, 2],
            gives(&[0, 1, 1], &[], true),
        ),
        meaning(
            "inner-master-outside-its-state",
            nested(),
            &[1, 0, 1],
            &[],
            gives(&[1, 0, 1], &[16], true),
        ),
        meaning("inner-entered-from-active", nested(), &[1, 0, 0], &[1], {
            gives(&[1, 1, 0], &[9, 16], true)
        }),
    ]
}

/// Eight charts where each needs what the one `step` further outputs, all fed back.
pub(super) fn ring(step: u32) -> Model {
    let count = EARLIER_CHARTS as u32;
    let all: Vec<u32> = (0..count).collect();
    let one = |n: u32| chart(2, &[], vec![go(0, 1, &[(n + step) % count], &[], &[n])]);
    let mut model = row_of_charts((0..count).map(one).collect());
    let last = model.whole();
    model.nodes[last] = composed(last as u8 - 1, EARLIER_CHARTS as u8 - 1, &all);
    model
}

/// As many charts as there can be, each waiting for another.
fn long_chains() -> Vec<RowAnswer> {
    let all: Vec<u32> = (0..EARLIER_CHARTS as u32).collect();
    let broken = {
        let mut model = ring(1);
        model.charts[7].transitions[0].action = Set::EMPTY;
        model
    };
    let ones = [1; EARLIER_CHARTS];
    let zeros = [0; EARLIER_CHARTS];
    vec![
        meaning(
            "ring-of-eight",
            ring(1),
            &zeros,
            &[],
            gives(&ones, &all, true),
        ),
        meaning(
            "ring-of-eight-the-other-way",
            ring(7),
            &zeros,
            &[],
            gives(&ones, &all, true),
        ),
        meaning("ring-of-eight-broken", broken.clone(), &zeros, &[], None),
        meaning("ring-of-eight-broken-and-fed", broken, &zeros, &[7], {
            gives(&ones, &all[..7], true)
        }),
    ]
}

/// Charts whose numbers of states all differ: chart n has n + 1.
pub(super) fn stairs(charts: u8) -> Model {
    let mut model = row_of(charts);
    for (number, chart) in model.charts.iter_mut().enumerate() {
        chart.states = number as u8 + 1;
        chart.transitions = vec![];
        for state in 0..chart.states {
            chart
                .transitions
                .push(go(state, 0, &[], &[], &[u32::from(state)]));
        }
    }
    model
}

/// 20: every length from 0 to 9, and some that are right but for whole 256s.
fn lengths() -> Vec<Case> {
    let mut cases = Vec::new();
    for charts in [1, 3, EARLIER_CHARTS] {
        for length in 0..=EARLIER_CHARTS + 1 {
            let number = if length == charts {
                refusal::SUCCESS
            } else {
                refusal::CONFIGURATION_LENGTH
            };
            let name = format!("length-{length}-for-{charts}-charts");
            let file = row_of(charts as u8).file();
            let command = Command::step(&name, file, &vec![0; length], Set::EMPTY, 10);
            cases.push(Case::new(command, number));
        }
    }
    for length in [256, 259, 515] {
        let name = format!("length-{length}-for-3-charts");
        let file = row_of(3).file();
        let command = Command::step(&name, file, &vec![0; length], Set::EMPTY, 4);
        cases.push(Case::new(command, refusal::CONFIGURATION_LENGTH));
    }
    cases
}

/// 21: each chart's state at its number of states, and one below it.
fn states() -> Vec<Case> {
    let charts = EARLIER_CHARTS as u8;
    let mut cases = Vec::new();
    let mut step = |name: String, configuration: &[u8], number: u8| {
        let file = stairs(charts).file();
        let command = Command::step(&name, file, configuration, Set::EMPTY, 9);
        cases.push(Case::new(command, number));
    };
    let highest: Vec<u8> = (0..charts).collect();
    step("states-all-highest".to_string(), &highest, refusal::SUCCESS);
    for chart in 0..charts {
        for (word, base) in [
            ("lowest", vec![0; EARLIER_CHARTS]),
            ("highest", highest.clone()),
        ] {
            let mut configuration = base;
            configuration[usize::from(chart)] = chart + 1;
            let name = format!("state-of-chart-{chart}-at-its-states-others-{word}");
            step(name, &configuration, refusal::CONFIGURATION_STATE);
        }
        let mut configuration = vec![0; EARLIER_CHARTS];
        configuration[usize::from(chart)] = 255;
        let name = format!("state-of-chart-{chart}-255");
        step(name, &configuration, refusal::CONFIGURATION_STATE);
    }
    cases
}

/// 22: a buffer that is too short for a configuration.
fn rooms() -> Vec<Case> {
    let mut cases = Vec::new();
    for charts in [1, 3, EARLIER_CHARTS] {
        for (word, room, number) in configuration_rooms(charts, 40) {
            let name = format!("buffer-{word}-for-{charts}-charts");
            let file = row_of(charts as u8).file();
            let command = Command::step(&name, file, &vec![0; charts], Set::EMPTY, room);
            cases.push(Case::new(command, number));
        }
    }
    cases
}

/// Two of 20 to 23 at once: the lower one is given.
fn orders() -> Vec<Case> {
    let step = |name: &str, configuration: &[u8], room: usize, number: u8| {
        let file = p2().file();
        let command = Command::step(name, file, configuration, Set::of(&[0]), room);
        Case::new(command, number)
    };
    vec![
        step(
            "order-20-before-21",
            &[9, 9, 9],
            4,
            refusal::CONFIGURATION_LENGTH,
        ),
        step(
            "order-20-before-21-short",
            &[9],
            4,
            refusal::CONFIGURATION_LENGTH,
        ),
        step("order-20-before-22", &[0], 0, refusal::CONFIGURATION_LENGTH),
        step(
            "order-20-before-all",
            &[9; 7],
            1,
            refusal::CONFIGURATION_LENGTH,
        ),
        step(
            "order-21-before-22",
            &[0, 2],
            0,
            refusal::CONFIGURATION_STATE,
        ),
        step(
            "order-21-before-22-one-short",
            &[2, 0],
            1,
            refusal::CONFIGURATION_STATE,
        ),
        step(
            "order-22-before-23",
            &[0, 0],
            1,
            refusal::CONFIGURATION_ROOM,
        ),
        step(
            "order-22-before-23-empty",
            &[1, 1],
            0,
            refusal::CONFIGURATION_ROOM,
        ),
        step("order-23-alone", &[0, 0], 2, refusal::NO_STEP),
        step("order-23-no-transition", &[1, 1], 12, refusal::NO_STEP),
    ]
}

/// A file for each of 1 to 11, with all else right and with all else wrong.
fn files() -> Vec<Case> {
    let mut cases = Vec::new();
    for (number, file) in one_fault() {
        let right = format!("file-refused-{number}");
        let wrong = format!("file-refused-{number}-all-else-wrong");
        let command = Command::step(&right, file.clone(), &[0, 0], Set::of(&[0]), 3);
        cases.push(Case::new(command, number));
        let command = Command::step(&wrong, file, &[7; 3], Set::FULL, 0);
        cases.push(Case::new(command, number));
    }
    cases
}

/// Inputs with all 64 signals, and with all but those of the interface.
fn inputs() -> Vec<Case> {
    let step = |name: &str, model: Model, input: Set, number: u8| {
        let zeros = vec![0; model.charts.len()];
        let command = Command::step(name, model.file(), &zeros, input, 4);
        Case::new(command, number)
    };
    let (given, none) = (refusal::SUCCESS, refusal::NO_STEP);
    vec![
        step(
            "input-all-signals-whole-case",
            whole_case(),
            Set::FULL,
            given,
        ),
        step("input-all-signals-L2", l2(), Set::FULL, none),
        step("input-all-signals-P2", p2(), Set::FULL, given),
        step("input-all-signals-P3", p3(), Set::FULL, given),
        step("input-all-signals-D", d(), Set::FULL, given),
        step("input-all-signals-nested", nested(), Set::FULL, given),
        step(
            "input-all-but-needed",
            whole_case(),
            Set::FULL.less(Set::one(0)),
            none,
        ),
        step(
            "input-all-but-interface",
            d(),
            Set::FULL.less(Set::of(&[0, 1, 3])),
            given,
        ),
        step("input-signal-63-alone", d(), Set::one(63), given),
    ]
}

/// Many choices: as many charts as there can be, with several transitions each and empty guards.
fn wide() -> Vec<Case> {
    let several = |charts: usize, transitions: u32, first_signal: u32| {
        let outs = (0..transitions).map(|n| go(0, 0, &[], &[], &[first_signal + n]));
        row_of_charts(vec![chart(1, &[], outs.collect()); charts])
    };
    let step = |name: &str, model: Model, number: u8| {
        let zeros = vec![0; model.charts.len()];
        let command = Command::step(name, model.file(), &zeros, Set::EMPTY, 9);
        Case::new(command, number)
    };
    let last_alone = {
        let mut model = several(6, 8, 0);
        for chart in &mut model.charts {
            for transition in &mut chart.transitions[..7] {
                transition.needed = Set::one(60);
            }
        }
        model
    };
    let last_never = {
        let mut model = several(6, 8, 0);
        for transition in &mut model.charts[5].transitions {
            transition.needed = Set::one(60);
        }
        model
    };
    let alike = {
        let mut model = several(6, 8, 0);
        for chart in &mut model.charts {
            for transition in &mut chart.transitions {
                transition.action = Set::one(3);
            }
        }
        model
    };
    let eight = several(WIDE_CHARTS, WIDE_TRANSITIONS, 0);
    vec![
        step("wide-eight-charts-empty-guards", eight, refusal::SUCCESS),
        step("wide-last-choice-alone", last_alone, refusal::SUCCESS),
        step("wide-no-choice", last_never, refusal::NO_STEP),
        step("wide-all-alike", alike, refusal::SUCCESS),
    ]
}

/// Places (RULES 5.11): the highest that there is, and one in the middle of a list; the first of
/// three equal transitions, after one that is not met.
fn places() -> Vec<Case> {
    let step = |name: &str, charts: Vec<Chart>, at: &[u8]| {
        let file = row_of_charts(charts).file();
        let command = Command::step(name, file, at, Set::EMPTY, at.len());
        Case::new(command, refusal::SUCCESS)
    };
    let full = spread(STATES as u8, CHART_TRANSITIONS);
    let only = |place: usize| {
        let mut chart = full.clone();
        let others = chart.transitions.iter_mut().enumerate();
        for (_, transition) in others.filter(|&(other, _)| other != place) {
            transition.needed = Set::one(60);
        }
        chart
    };
    let never = go(0, 0, &[60], &[], &[]);
    let equal = vec![go(0, 0, &[], &[], &[1]); 3];
    let behind = chart(1, &[], [vec![never], equal].concat());
    let state = |place: usize| full.transitions[place].from;
    vec![
        step(
            "place-63",
            vec![only(30), only(63)],
            &[state(30), state(63)],
        ),
        step("place-of-equal-transitions", vec![behind], &[0]),
    ]
}

/// The charts of the widest case, and the transitions of each; its choices are all permitted.
const WIDE_CHARTS: usize = EARLIER_CHARTS;
const WIDE_TRANSITIONS: u32 = STATE_TRANSITIONS as u32;
