//! Named cases of the question whether a file is plain.

use super::charts::*;
use super::damage::behind;
use super::file::one_fault;
use super::Case;
use crate::command::Command;
use crate::limits::{refusal, STATE_TRANSITIONS};
use crate::model::{Edition, Model, Transition};
use crate::set::Set;

/// All named cases of the question.
pub fn cases() -> Vec<Case> {
    let answered = answers().into_iter().map(|known| {
        let command = Command::plain(known.name, known.file);
        Case::new(command, refusal::SUCCESS)
    });
    answered.chain(refused()).collect()
}

/// A file for each of 1 to 11.
fn refused() -> impl Iterator<Item = Case> {
    one_fault().into_iter().map(|(number, file)| {
        let name = format!("plain-file-refused-{number}");
        Case::new(Command::plain(&name, file), number)
    })
}

/// An answer written by hand.
pub struct Known {
    pub name: &'static str,
    pub file: Vec<u8>,
    pub plain: bool,
}

/// A file that is plain.
fn yes(name: &'static str, model: Model) -> Known {
    let (file, plain) = (model.file(), true);
    Known { name, file, plain }
}

/// A file that is not.
fn no(name: &'static str, model: Model) -> Known {
    let (file, plain) = (model.file(), false);
    Known { name, file, plain }
}

/// All answers.
pub fn answers() -> Vec<Known> {
    [
        documents(),
        two(),
        twice(),
        places(),
        fed_back(),
        slaves(),
        many(),
        fronts(),
    ]
    .into_iter()
    .flatten()
    .collect()
}

/// The charts of docs/EXAMPLES.md and similar ones. D's two transitions from state 0 are told apart
/// by 0, those of N1 and N2 by nothing; most of the others have one from a state.
fn documents() -> Vec<Known> {
    vec![
        yes("plain-whole-case", whole_case()),
        yes("plain-L1", l1()),
        yes("plain-L2", l2()),
        yes("plain-P1", p1()),
        yes("plain-P3", p3()),
        yes("plain-P4", p4()),
        no("plain-N1", n1()),
        no("plain-N2", n2()),
        yes("plain-D", d()),
        yes("plain-D-hidden", d_hidden()),
        yes("plain-nested", nested()),
        yes("plain-no-transitions", alone(chart(3, &[], vec![]))),
    ]
}

/// One chart of three states with these transitions, and this feedback.
fn single(feedback: &[u32], transitions: Vec<Transition>) -> Model {
    alone(chart(3, feedback, transitions))
}

/// A transition from state 0 with this guard.
fn out(needed: &[u32], barred: &[u32]) -> Transition {
    go(0, 1, needed, barred, &[])
}

/// Either of the two transitions may be the one that needs the signal (RULES 8.2).
fn two() -> Vec<Known> {
    let pair = |one: Transition, other: Transition| single(&[], vec![one, other]);
    vec![
        yes("plain-first-needs", pair(out(&[3], &[]), out(&[], &[3]))),
        yes("plain-second-needs", pair(out(&[], &[3]), out(&[3], &[]))),
        yes("plain-by-signal-0", pair(out(&[0], &[]), out(&[], &[0]))),
        yes("plain-by-signal-63", pair(out(&[63], &[]), out(&[], &[63]))),
        yes(
            "plain-by-one-of-many",
            pair(out(&[1, 2, 40], &[5]), out(&[1, 6], &[7, 40])),
        ),
        yes("plain-both-ways", pair(out(&[1], &[2]), out(&[2], &[1]))),
        no("plain-no-guards", pair(out(&[], &[]), out(&[], &[]))),
        no(
            "plain-first-needs-alone",
            pair(out(&[3], &[]), out(&[], &[])),
        ),
        no(
            "plain-second-bars-alone",
            pair(out(&[], &[]), out(&[], &[3])),
        ),
        no("plain-both-need", pair(out(&[3], &[]), out(&[3], &[]))),
        no("plain-both-bar", pair(out(&[], &[3]), out(&[], &[3]))),
        no(
            "plain-needs-one-bars-other",
            pair(out(&[3], &[]), out(&[], &[4])),
        ),
        // the second can never be met, but nothing tells it apart from the first
        no(
            "plain-never-met-by-itself",
            pair(out(&[1], &[]), out(&[3], &[3])),
        ),
        yes(
            "plain-never-met-other-needs-it",
            pair(out(&[3], &[]), out(&[3], &[3])),
        ),
        // actions are in no guard
        no(
            "plain-actions-differ",
            single(
                &[],
                vec![go(0, 1, &[], &[], &[3]), go(0, 1, &[], &[3], &[])],
            ),
        ),
        no("plain-extra-set-is-no-guard", {
            let mut model = pair(out(&[3], &[]), out(&[], &[]));
            model.charts[0].extra = Set::of(&[3]);
            model
        }),
    ]
}

/// The same transition twice: two places of the list.
fn twice() -> Vec<Known> {
    let doubled = |transition: Transition| single(&[], vec![transition.clone(), transition]);
    vec![
        no("plain-twice", doubled(out(&[1], &[2]))),
        no("plain-twice-empty-guard", doubled(out(&[], &[]))),
        yes("plain-twice-needs-and-bars", doubled(out(&[1], &[1]))),
        yes("plain-once", single(&[], vec![out(&[1], &[2])])),
        yes("plain-once-empty-guard", single(&[], vec![out(&[], &[])])),
    ]
}

/// Only transitions that leave the same state of the same chart are compared (RULES 8.2).
fn places() -> Vec<Known> {
    let from = |state: u8, needed: &[u32], barred: &[u32]| go(state, 0, needed, barred, &[]);
    let one_doubtful = |state: u8| {
        let mut transitions: Vec<Transition> = (0..3)
            .flat_map(|state| [from(state, &[1], &[]), from(state, &[], &[1])])
            .collect();
        transitions.push(from(state, &[], &[]));
        single(&[], transitions)
    };
    let apart = || chart(1, &[], vec![from(0, &[1], &[]), from(0, &[], &[1])]);
    let alike = || chart(1, &[], vec![from(0, &[1], &[]), from(0, &[1], &[])]);
    vec![
        yes(
            "plain-same-guard-other-states",
            single(
                &[],
                vec![from(0, &[1], &[]), from(1, &[1], &[]), from(2, &[1], &[])],
            ),
        ),
        yes(
            "plain-same-guard-other-charts",
            beside(
                chart(1, &[], vec![from(0, &[1], &[])]),
                chart(1, &[], vec![from(0, &[1], &[])]),
                &[],
            ),
        ),
        no("plain-doubt-in-state-0", one_doubtful(0)),
        no("plain-doubt-in-state-1", one_doubtful(1)),
        no("plain-doubt-in-state-2", one_doubtful(2)),
        // state 2 is never entered
        no(
            "plain-doubt-in-a-state-never-reached",
            single(
                &[],
                vec![from(0, &[], &[]), from(2, &[], &[]), from(2, &[], &[])],
            ),
        ),
        no(
            "plain-other-state-between",
            single(
                &[],
                vec![from(0, &[1], &[]), from(1, &[], &[1]), from(0, &[1], &[])],
            ),
        ),
        yes(
            "plain-other-state-between-told-apart",
            single(
                &[],
                vec![from(0, &[1], &[]), from(1, &[1], &[]), from(0, &[], &[1])],
            ),
        ),
        no("plain-doubt-in-first-chart", beside(alike(), apart(), &[])),
        no("plain-doubt-in-second-chart", beside(apart(), alike(), &[])),
        yes("plain-doubt-in-no-chart", beside(apart(), apart(), &[])),
    ]
}

/// Signals that a chart or a composed node feeds back do not tell apart. What a hidden node removes
/// is not fed back (RULES 8.1).
fn fed_back() -> Vec<Known> {
    let guards = || vec![out(&[3], &[]), out(&[], &[3])];
    let both = || vec![out(&[3, 4], &[]), out(&[], &[3, 4])];
    let crossing = || vec![out(&[3], &[4]), out(&[4], &[3])];
    let other = |feedback: &[u32]| chart(1, feedback, vec![]);
    let apart = || chart(2, &[], guards());
    vec![
        no("plain-fed-back", single(&[3], guards())),
        yes("plain-other-fed-back", single(&[2, 4], guards())),
        yes("plain-one-of-two-fed-back", single(&[3], both())),
        no("plain-both-of-two-fed-back", single(&[3, 4], both())),
        yes("plain-one-way-fed-back", single(&[3], crossing())),
        yes("plain-other-way-fed-back", single(&[4], crossing())),
        no("plain-both-ways-fed-back", single(&[3, 4], crossing())),
        no(
            "plain-fed-back-in-another-chart",
            beside(apart(), other(&[3]), &[]),
        ),
        no(
            "plain-fed-back-in-a-chart-before",
            beside(other(&[3]), apart(), &[]),
        ),
        no(
            "plain-fed-back-by-the-composition",
            beside(apart(), other(&[]), &[3]),
        ),
        yes(
            "plain-other-fed-back-by-the-composition",
            beside(apart(), other(&[]), &[2, 4]),
        ),
        // the composed node does not hold the chart that the signal tells apart in
        no(
            "plain-fed-back-by-another-composition",
            Model {
                edition: Edition::First,
                charts: vec![apart(), other(&[]), other(&[])],
                slaves: vec![],
                nodes: vec![
                    leaf(1),
                    leaf(2),
                    composed(0, 1, &[3]),
                    leaf(0),
                    composed(3, 2, &[]),
                ],
            },
        ),
        yes(
            "plain-filtered-by-a-hidden-node",
            wrapped(alone(apart()), &[3], &[]),
        ),
        yes(
            "plain-hidden-by-a-hidden-node",
            wrapped(alone(apart()), &[], &[3]),
        ),
        yes(
            "plain-filtered-beside-a-composition",
            wrapped(beside(apart(), other(&[]), &[4]), &[3], &[3]),
        ),
        no(
            "plain-fed-back-and-filtered",
            wrapped(beside(apart(), other(&[]), &[3]), &[3], &[3]),
        ),
        no("plain-all-fed-back", {
            let mut model = single(&[], vec![out(&[3], &[]), out(&[], &[3])]);
            model.charts[0].feedback = Set::FULL;
            model
        }),
        yes("plain-all-fed-back-no-pair", {
            let mut model = whole_case();
            model.charts[0].feedback = Set::FULL;
            model
        }),
    ]
}

/// A master and the charts inside its slaves are charts as others.
fn slaves() -> Vec<Known> {
    let still = || chart(2, &[], vec![out(&[], &[])]);
    let apart = || chart(2, &[], vec![out(&[3], &[]), out(&[], &[3])]);
    let alike = || chart(2, &[], vec![out(&[3], &[]), out(&[3], &[])]);
    let feeding = || chart(2, &[3], vec![out(&[], &[])]);
    vec![
        yes("plain-slave", decomposed(still(), 1, apart())),
        no("plain-doubt-in-a-slave", decomposed(still(), 1, alike())),
        no("plain-doubt-in-a-master", decomposed(alike(), 1, still())),
        no(
            "plain-fed-back-by-the-master",
            decomposed(feeding(), 1, apart()),
        ),
        no(
            "plain-fed-back-in-the-slave",
            decomposed(apart(), 1, feeding()),
        ),
        no("plain-seven-slaves-doubt-in-the-master", master_of(7)),
        yes("plain-seven-slaves", {
            let mut model = master_of(7);
            model.charts[0].transitions = told_apart_by_three(7);
            model
        }),
    ]
}

/// Up to eight transitions from state 0, each needing and barring another part of {10, 11, 12}.
fn told_apart_by_three(count: usize) -> Vec<Transition> {
    let all = Set::of(&[10, 11, 12]);
    let one = |number: usize| Transition {
        needed: Set((number as u64) << 10),
        barred: all.less(Set((number as u64) << 10)),
        ..out(&[], &[])
    };
    (0..count).map(one).collect()
}

/// Each two of many: one pair that is not told apart is enough.
fn many() -> Vec<Known> {
    let full = || single(&[], told_apart_by_three(STATE_TRANSITIONS));
    let with_last_as = |place: usize| {
        let mut model = full();
        let chart = &mut model.charts[0];
        chart.transitions[STATE_TRANSITIONS - 1] = chart.transitions[place].clone();
        model
    };
    let fed = |signal: u32| {
        let mut model = full();
        model.charts[0].feedback = Set::one(signal);
        model
    };
    vec![
        yes("plain-eight-from-a-state", full()),
        no("plain-last-as-first", with_last_as(0)),
        no("plain-last-as-the-one-before", with_last_as(6)),
        no("plain-eight-10-fed-back", fed(10)),
        no("plain-eight-12-fed-back", fed(12)),
        yes("plain-eight-13-fed-back", fed(13)),
        // told apart: the first from both others, but these not from each other
        no(
            "plain-two-of-three-pairs",
            single(&[], vec![out(&[1], &[]), out(&[], &[1]), out(&[2], &[1])]),
        ),
        yes(
            "plain-three-pairs-by-other-signals",
            single(&[], vec![out(&[1], &[3]), out(&[2], &[1]), out(&[3], &[2])]),
        ),
        no("plain-fullest", full_charts(8)),
        yes("plain-eight-charts", row_of(8)),
        yes("plain-deep-hiding", hidden_deep(64)),
    ]
}

/// The front is not read (RULES 2.1).
fn fronts() -> Vec<Known> {
    let fronted = |name, model: Model, plain| {
        let file = behind(&[0xff; 29], model.file());
        Known { name, file, plain }
    };
    vec![
        fronted("plain-behind-front", d(), true),
        fronted("plain-not-behind-front", n1(), false),
    ]
}
