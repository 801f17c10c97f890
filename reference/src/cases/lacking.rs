//! Named cases of the question what a transition lacks.

use super::charts::*;
use super::file::one_fault;
use super::Case;
use crate::command::Command;
use crate::lacking::Shown::{self, Absent, Met, Present};
use crate::limits::{refusal, CHARTS, CHART_TRANSITIONS};
use crate::model::{Edition, Model, Transition};
use crate::set::Set;

/// All named cases of the question.
pub fn cases() -> Vec<Case> {
    let answered = answers()
        .into_iter()
        .map(|known| Case::new(known.command, refusal::SUCCESS));
    answered.chain(refused()).collect()
}

/// An answer written by hand.
pub struct Known {
    pub command: Command,
    pub shown: Shown,
}

/// A question about a place of a chart, under these signals.
fn asked(name: &str, model: &Model, at: (u64, u64), offered: &[u32], shown: Shown) -> Known {
    let command = Command::lacking(name, model.file(), at.0, at.1, Set::of(offered));
    Known { command, shown }
}

/// All answers.
pub fn answers() -> Vec<Known> {
    [
        guards(),
        ends(),
        own_feedback(),
        elsewhere(),
        second(),
        many(),
    ]
    .into_iter()
    .flatten()
    .collect()
}

/// One chart with this feedback, and a transition from state 0 with this guard and action.
fn one(feedback: &[u32], needed: &[u32], barred: &[u32], action: &[u32]) -> Model {
    alone(chart(2, feedback, vec![go(0, 1, needed, barred, action)]))
}

/// Which signal is named: the lowest, and a needed one before any barred one (RULES 13.2).
fn guards() -> Vec<Known> {
    let ask = |name, needed: &[u32], barred: &[u32], offered: &[u32], shown| {
        asked(name, &one(&[], needed, barred, &[]), (0, 0), offered, shown)
    };
    vec![
        ask("lacking-no-guard", &[], &[], &[], Met),
        ask("lacking-no-guard-much-offered", &[], &[], &[0, 1, 63], Met),
        ask("lacking-met", &[3, 5], &[4], &[3, 5], Met),
        ask("lacking-met-with-more", &[3], &[4], &[0, 3, 5], Met),
        ask("lacking-needed-absent", &[3], &[], &[], Absent(3)),
        ask("lacking-lowest-of-two-absent", &[3, 5], &[], &[], Absent(3)),
        ask("lacking-second-absent", &[3, 5], &[], &[3], Absent(5)),
        ask("lacking-barred-present", &[], &[4], &[4], Present(4)),
        ask(
            "lacking-lowest-of-two-present",
            &[],
            &[4, 9],
            &[4, 9],
            Present(4),
        ),
        ask("lacking-second-present", &[], &[4, 9], &[9], Present(9)),
        ask("lacking-needed-before-barred", &[7], &[2], &[2], Absent(7)),
        ask(
            "lacking-needed-there-barred-present",
            &[7],
            &[2],
            &[2, 7],
            Present(2),
        ),
        ask("lacking-needs-and-bars-absent", &[6], &[6], &[], Absent(6)),
        ask(
            "lacking-needs-and-bars-present",
            &[6],
            &[6],
            &[6],
            Present(6),
        ),
        ask("lacking-needs-0", &[0], &[], &[], Absent(0)),
        ask("lacking-needs-63", &[63], &[], &[0], Absent(63)),
        ask("lacking-needs-0-and-63", &[0, 63], &[], &[], Absent(0)),
        ask(
            "lacking-needs-0-and-63-has-0",
            &[0, 63],
            &[],
            &[0],
            Absent(63),
        ),
        ask("lacking-bars-0", &[], &[0], &[0], Present(0)),
        ask("lacking-bars-63", &[], &[63], &[63], Present(63)),
        ask("lacking-bars-0-and-63", &[], &[0, 63], &[0, 63], Present(0)),
        ask(
            "lacking-bars-0-and-63-has-63",
            &[],
            &[0, 63],
            &[63],
            Present(63),
        ),
        ask("lacking-needs-31-and-32", &[31, 32], &[], &[], Absent(31)),
        ask(
            "lacking-needs-31-and-32-has-31",
            &[31, 32],
            &[],
            &[31],
            Absent(32),
        ),
    ]
}

/// All signals needed or barred: the first that is missing, or there, is at every place in turn.
fn ends() -> Vec<Known> {
    let all: Vec<u32> = (0..64).collect();
    let but = |without: u32| -> Vec<u32> { (0..64).filter(|&s| s != without).collect() };
    let one_by_one = [0, 1, 2, 7, 8, 15, 16, 30, 31, 32, 33, 47, 48, 62, 63];
    let missing = one_by_one.into_iter().map(|signal| {
        let name = format!("lacking-all-but-{signal}");
        let model = one(&[], &all, &[], &[]);
        asked(&name, &model, (0, 0), &but(signal), Absent(signal))
    });
    let there = one_by_one.into_iter().map(|signal| {
        let name = format!("lacking-none-but-{signal}");
        let model = one(&[], &[], &all, &[]);
        asked(&name, &model, (0, 0), &[signal], Present(signal))
    });
    missing.chain(there).collect()
}

/// What the transition's own action feeds back to its chart is offered too (RULES 13.1).
fn own_feedback() -> Vec<Known> {
    vec![
        asked(
            "lacking-feeds-itself",
            &one(&[3], &[3], &[], &[3]),
            (0, 0),
            &[],
            Met,
        ),
        asked(
            "lacking-action-not-fed-back",
            &one(&[4], &[3], &[], &[3]),
            (0, 0),
            &[],
            Absent(3),
        ),
        asked(
            "lacking-fed-back-not-put-out",
            &one(&[3], &[3], &[], &[4]),
            (0, 0),
            &[],
            Absent(3),
        ),
        asked(
            "lacking-bars-what-it-feeds-back",
            &one(&[3], &[], &[3], &[3]),
            (0, 0),
            &[],
            Present(3),
        ),
        asked(
            "lacking-bars-what-it-puts-out",
            &one(&[], &[], &[3], &[3]),
            (0, 0),
            &[],
            Met,
        ),
        asked(
            "lacking-feeds-part",
            &one(&[3], &[3, 5], &[], &[3, 5]),
            (0, 0),
            &[],
            Absent(5),
        ),
    ]
}

/// A list of three in chart 1 of two charts, each composed with feedback of its node: nothing but the
/// chart's own feedback counts, its state and its activity do not, and neither do interfaces.
fn elsewhere() -> Vec<Known> {
    let list = vec![
        go(0, 1, &[1], &[], &[]),
        go(1, 0, &[2], &[], &[1]),
        go(0, 0, &[], &[1], &[2]),
    ];
    let first = chart(2, &[], vec![go(0, 1, &[], &[], &[1])]);
    let model = beside(first, chart(2, &[1], list), &[1, 2]);
    vec![
        asked("lacking-first-of-three", &model, (1, 0), &[], Absent(1)),
        asked("lacking-second-of-three", &model, (1, 1), &[], Absent(2)),
        asked("lacking-last-of-three", &model, (1, 2), &[], Met),
        asked(
            "lacking-last-of-three-offered",
            &model,
            (1, 2),
            &[1],
            Present(1),
        ),
        asked("lacking-of-the-first-chart", &model, (0, 0), &[], Met),
        asked(
            "lacking-whole-case",
            &whole_case(),
            (0, 0),
            &[],
            shown_in_whole_case(),
        ),
    ]
}

/// The first transition of docs/EXAMPLES.md's whole case needs signal 0.
fn shown_in_whole_case() -> Shown {
    Absent(0)
}

/// Under edition 2 the question is the same: staying has no place.
fn second() -> Vec<Known> {
    let model = one(&[], &[3], &[4], &[]).under(Edition::Second);
    vec![
        asked("edition-2-lacking-absent", &model, (0, 0), &[], Absent(3)),
        asked(
            "edition-2-lacking-present",
            &model,
            (0, 0),
            &[3, 4],
            Present(4),
        ),
        asked("edition-2-lacking-met", &model, (0, 0), &[3], Met),
    ]
}

/// The last place of the longest list, and the last of the most charts.
fn many() -> Vec<Known> {
    let long: Vec<Transition> = (0..CHART_TRANSITIONS as u32)
        .map(|place| go((place / 8) as u8, 0, &[place], &[], &[]))
        .collect();
    let model = alone(chart(8, &[], long));
    let last = CHART_TRANSITIONS as u64 - 1;
    let row = row_of_needs(CHARTS);
    vec![
        asked("lacking-last-of-64", &model, (0, last), &[], Absent(63)),
        asked("lacking-chart-15", &row, (15, 0), &[], Absent(15)),
    ]
}

/// As many charts, composed one by one; chart c needs signal c.
fn row_of_needs(charts: usize) -> Model {
    let list = (0..charts as u32).map(|c| chart(1, &[], vec![go(0, 0, &[c], &[], &[])]));
    row_of_charts(list.collect())
}

/// 1 to 11, 25 and 26; 25 before 26.
fn refused() -> Vec<Case> {
    let files = one_fault().into_iter().map(|(number, file)| {
        let name = format!("lacking-file-refused-{number}");
        let command = Command::lacking(&name, file, 9, 99, Set::EMPTY);
        Case::new(command, number)
    });
    let model = one(&[], &[3], &[], &[]);
    let no_list = alone(chart(1, &[], vec![]));
    let ask = |name: &str, model: &Model, chart: u64, place: u64, number: u8| {
        let command = Command::lacking(name, model.file(), chart, place, Set::FULL);
        Case::new(command, number)
    };
    let (no_chart, no_place) = (refusal::QUESTION_CHART, refusal::QUESTION_PLACE);
    let asked = vec![
        ask("lacking-place-past-the-end", &model, 0, 1, no_place),
        ask("lacking-place-255", &model, 0, 255, no_place),
        ask("lacking-place-2-32", &model, 0, 1 << 32, no_place),
        ask("lacking-place-largest", &model, 0, u64::MAX, no_place),
        ask("lacking-no-list", &no_list, 0, 0, no_place),
        ask("lacking-chart-past-the-end", &model, 1, 0, no_chart),
        ask("lacking-chart-256", &model, 256, 0, no_chart),
        ask("lacking-chart-2-32", &model, 1 << 32, 0, no_chart),
        ask("lacking-chart-largest", &model, u64::MAX, 0, no_chart),
        ask("lacking-no-chart-and-no-place", &model, 1, 1, no_chart),
        ask("lacking-both-largest", &model, u64::MAX, u64::MAX, no_chart),
    ];
    files.chain(asked).collect()
}
