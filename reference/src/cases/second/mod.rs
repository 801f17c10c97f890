//! Named cases of edition 2 (RULES 7), of every call.

pub mod meanings;

use self::meanings::{meanings, thirteen, StayAnswer};
use super::charts::*;
use super::damage::{behind, changed};
use super::file::one_fault_under;
use super::plain::answers as plain_answers;
use super::rewrite::rewritten_bytes;
use super::run::{rows_bytes, D_DAY};
use super::Case;
use crate::command::Command;
use crate::limits::*;
use crate::model::{Chart, Edition, Model, Transition};
use crate::set::Set;

/// The file of a model under edition 2.
fn second(model: Model) -> Vec<u8> {
    model.under(Edition::Second).file()
}

/// Checks, first configurations and interfaces.
pub fn file_cases() -> Vec<Case> {
    [accepted(), faults(), two_faults(), firsts_and_interfaces()]
        .into_iter()
        .flatten()
        .collect()
}

/// Files of edition 2 that pass 1 to 11, behind front bytes too, and at the limits.
fn accepted() -> Vec<Case> {
    let good = |name: &str, file: Vec<u8>| {
        Case::new(
            Command::check(&format!("edition-2-accepted-{name}"), file),
            refusal::SUCCESS,
        )
    };
    vec![
        good("D", second(d())),
        good("D-hidden", second(d_hidden())),
        good("nested", second(nested())),
        good("no-transitions", second(alone(chart(1, &[], vec![])))),
        good("fullest", second(full_charts(EARLIER_CHARTS))),
        good("most-slaves", second(master_of(EARLIER_SLAVES as u8))),
        good("most-nodes", second(hidden_deep(NODES as u8))),
        good("behind-front", behind(&[2; 19], second(p3()))),
        good("behind-edition-1", behind(&p3().file(), second(p3()))),
        good("in-front-of-edition-1", behind(&second(p3()), p3().file())),
    ]
}

/// A file of edition 2 for each of 3 to 11: it is tested as one of edition 1.
fn faults() -> Vec<Case> {
    let case = |(number, file): (u8, Vec<u8>)| {
        let name = format!("edition-2-refused-{number}");
        Case::new(Command::check(&name, file), number)
    };
    let all = one_fault_under(Edition::Second).into_iter();
    all.filter(|&(number, _)| number > refusal::EDITION)
        .map(case)
        .collect()
}

/// Editions that there are not, in a file that is wrong in all else too; and edition 2 in one that is
/// wrong from 3 on.
fn two_faults() -> Vec<Case> {
    let with = |edition: u8| {
        changed(&d(), |r| {
            r.trailer.edition = edition;
            r.trailer.nodes = 65;
            r.trailer.distance += 1;
            r.charts[0].states = 0;
        })
    };
    [0, 2, 3, 254, 255]
        .into_iter()
        .map(|edition| {
            let name = format!("edition-{edition}-and-more");
            let number = match edition {
                SECOND_EDITION => refusal::COUNTS,
                _ => refusal::EDITION,
            };
            Case::new(Command::check(&name, with(edition)), number)
        })
        .collect()
}

/// First configuration and interface do not ask for the edition.
fn firsts_and_interfaces() -> Vec<Case> {
    let mut started = nested();
    started.charts[1].initial = 1;
    let first = |name: &str, room: usize, number: u8| {
        Case::new(Command::first(name, second(started.clone()), room), number)
    };
    let interface = |name: &str, model: Model| {
        Case::new(Command::interface(name, second(model)), refusal::SUCCESS)
    };
    vec![
        first("edition-2-first", 4, refusal::SUCCESS),
        first(
            "edition-2-first-buffer-short",
            2,
            refusal::CONFIGURATION_ROOM,
        ),
        interface("edition-2-interface-D", d()),
        interface("edition-2-interface-P3", p3()),
        interface(
            "edition-2-interface-no-transitions",
            alone(chart(3, &[], vec![])),
        ),
    ]
}

/// Steps.
pub fn step_cases() -> Vec<Case> {
    let case = |spare: usize| move |answer: StayAnswer| answer.case(spare);
    let rows = thirteen().into_iter().map(case(2));
    let meanings = meanings().into_iter().map(case(1));
    rows.chain(meanings)
        .chain(step_orders())
        .chain(step_files())
        .chain(step_inputs())
        .chain(wide())
        .collect()
}

/// 20 to 23 in their order: L2 has no step on the empty input, and stays on {0}.
fn step_orders() -> Vec<Case> {
    let step = |name: &str, at: &[u8], input: &[u32], room: usize, number: u8| {
        let name = format!("edition-2-{name}");
        let command = Command::step(&name, second(l2()), at, Set::of(input), room);
        Case::new(command, number)
    };
    vec![
        step("order-20", &[], &[0], 0, refusal::CONFIGURATION_LENGTH),
        step(
            "order-20-before-21",
            &[9, 9],
            &[0],
            2,
            refusal::CONFIGURATION_LENGTH,
        ),
        step(
            "order-21-before-22",
            &[2],
            &[0],
            0,
            refusal::CONFIGURATION_STATE,
        ),
        step(
            "order-22-before-23",
            &[0],
            &[],
            0,
            refusal::CONFIGURATION_ROOM,
        ),
        step(
            "order-22-where-it-stays",
            &[0],
            &[0],
            0,
            refusal::CONFIGURATION_ROOM,
        ),
        step("order-23", &[0], &[], 1, refusal::NO_STEP),
        step("order-stays", &[0], &[0], 1, refusal::SUCCESS),
    ]
}

/// A file for each of 3 to 11, in a step and in a run.
fn step_files() -> Vec<Case> {
    let faults = one_fault_under(Edition::Second).into_iter();
    faults
        .filter(|&(number, _)| number > refusal::EDITION)
        .map(|(number, file)| {
            let name = format!("edition-2-step-refused-{number}");
            Case::new(Command::step(&name, file, &[0, 0], Set::one(0), 2), number)
        })
        .collect()
}

/// Inputs with all 64 signals, and with those alone that no guard names.
fn step_inputs() -> Vec<Case> {
    let step = |name: &str, model: Model, input: Set| {
        let zeros = vec![0; model.charts.len()];
        let command = Command::step(name, second(model), &zeros, input, 4);
        Case::new(command, refusal::SUCCESS)
    };
    let unknown = Set::FULL.less(Set::of(&[0, 1, 2, 3]));
    vec![
        step("edition-2-all-signals-whole-case", whole_case(), Set::FULL),
        step("edition-2-all-signals-L2", l2(), Set::FULL),
        step("edition-2-all-signals-D", d(), Set::FULL),
        step("edition-2-all-signals-nested", nested(), Set::FULL),
        step(
            "edition-2-unknown-signals-whole-case",
            whole_case(),
            unknown,
        ),
        step("edition-2-unknown-signals-P1", p1(), unknown),
        step("edition-2-unknown-signals-D", d(), unknown),
    ]
}

/// Transitions from state 0 that are alike but for their actions.
fn alike(count: u32, needed: &[u32], barred: &[u32]) -> Vec<Transition> {
    (0..count)
        .map(|signal| go(0, 0, needed, barred, &[signal]))
        .collect()
}

/// Many choices. Signal 60 is never offered, so what needs it waits.
fn wide() -> Vec<Case> {
    let step = |name: &str, charts: Vec<Chart>, number: u8| {
        let zeros = vec![0; charts.len()];
        let file = second(row_of_charts(charts));
        let command = Command::step(name, file, &zeros, Set::EMPTY, 9);
        Case::new(command, number)
    };
    let most = STATE_TRANSITIONS as u32;
    let waiting = |count: u32| chart(1, &[], alike(count, &[60], &[]));
    let ready = |count: u32| chart(1, &[], alike(count, &[], &[]));
    // each bars its own output: never met, and yet triggered where nothing is offered
    let hindered = {
        let transitions = (0..most).map(|signal| go(0, 0, &[], &[signal], &[signal]));
        let all: Vec<u32> = (0..most).collect();
        chart(1, &all, transitions.collect())
    };
    let five_and = |last: Chart| [vec![ready(most); 5], vec![last]].concat();
    vec![
        step(
            "edition-2-wide-no-transitions",
            vec![waiting(0); EARLIER_CHARTS],
            refusal::SUCCESS,
        ),
        step(
            "edition-2-wide-two-each-all-stay",
            vec![waiting(2); EARLIER_CHARTS],
            refusal::SUCCESS,
        ),
        step(
            "edition-2-wide-two-each-none-stays",
            vec![ready(2); EARLIER_CHARTS],
            refusal::SUCCESS,
        ),
        // of 9^8 choices, which are too many, only the last one would be permitted
        step(
            "edition-2-wide-last-choice-alone",
            vec![waiting(most); EARLIER_CHARTS],
            refusal::MANY_OPEN,
        ),
        step(
            "edition-2-wide-last-chart-stays",
            five_and(waiting(most)),
            refusal::SUCCESS,
        ),
        step(
            "edition-2-wide-last-chart-cannot",
            five_and(hindered),
            refusal::NO_STEP,
        ),
    ]
}

/// Runs: a row in which a chart stays is a step that is given, so nothing is carried on from it.
pub fn run_cases() -> Vec<Case> {
    let run = |name: &str, model: Model, at: &[u8], carried: &[u32], inputs: &[&[u32]]| {
        let inputs: Vec<Set> = inputs.iter().map(|signals| Set::of(signals)).collect();
        let room = rows_bytes(inputs.len(), at.len()) + 2;
        let name = format!("edition-2-run-{name}");
        let command = Command::run(&name, second(model), at, &inputs, room);
        Case::new(command.carrying(Set::of(carried)), refusal::SUCCESS)
    };
    let refused = |name: &str, at: &[u8], room: usize, number: u8| {
        let name = format!("edition-2-run-{name}");
        let command = Command::run(&name, second(d()), at, &[Set::one(0)], room);
        Case::new(command.carrying(Set::FULL), number)
    };
    let nested_day: [&[u32]; 8] = [&[0], &[1], &[2], &[0, 1], &[], &[0, 1, 2], &[1, 2], &[0]];
    vec![
        run("whole-case", whole_case(), &[0], &[], &[&[0], &[], &[1]]),
        run("whole-case-waits", whole_case(), &[0], &[], &{
            [&[1], &[][..], &[9], &[0], &[0], &[1]]
        }),
        // refused, refused with 5 carried, stays with 0: then nothing is carried
        run("L2", l2(), &[0], &[], &[&[], &[5], &[0], &[]]),
        run("L2-carried-in-stays", l2(), &[0], &[0, 7], &[&[]]),
        run("L2-carried-in-refused", l2(), &[0], &[7], &[&[], &[8]]),
        run("L2-no-inputs", l2(), &[0], &[7], &[]),
        run("staying-loses-signals", p2(), &[0, 0], &[], &{
            [&[9][..], &[1, 9], &[0]]
        }),
        run("carried-in-staying-loses-it", l3(), &[0], &[4], &[&[], &[]]),
        run("mark-no", l1(), &[0], &[], &[&[], &[]]),
        run("P4", p4(), &[0, 0], &[], &[&[], &[0], &[]]),
        run("D", d(), &[0, 0], &[], &D_DAY),
        run("D-from-1-1", d(), &[1, 1], &[], &D_DAY),
        run("D-from-1-0", d(), &[1, 0], &[9], &D_DAY),
        run("nested", nested(), &[0, 0, 0], &[], &nested_day),
        run(
            "no-transitions",
            alone(chart(3, &[], vec![])),
            &[2],
            &[5],
            &{ [&[][..], &[1], &[63]] },
        ),
        refused("20", &[0], 12, refusal::CONFIGURATION_LENGTH),
        refused("21", &[0, 2], 12, refusal::CONFIGURATION_STATE),
        refused("27", &[0, 1], 11, refusal::RUN_ROOM),
    ]
}

/// The rewriting refuses edition 2 with 46: after 1 to 11, before 40 to 45, also where there is
/// nothing to be rewritten.
pub fn rewrite_cases() -> Vec<Case> {
    let case = |name: &str, file: Vec<u8>, room: usize, number: u8| {
        let name = format!("rewrite-edition-2-{name}");
        Case::new(Command::rewrite(&name, file, room), number)
    };
    let bad = refusal::REWRITING_EDITION;
    let none_free = {
        let mut model = d();
        model.charts[1].extra = Set::FULL;
        model
    };
    let inside = |inner: Chart| {
        let master = chart(2, &[], vec![go(0, 1, &[], &[], &[])]);
        decomposed(master, 1, inner)
    };
    let mut deep = d();
    while deep.nodes.len() < NODES {
        deep = wrapped(deep, &[], &[]);
    }
    let eight = STATE_TRANSITIONS;
    let mut cases = vec![
        case("D", second(d()), rewritten_bytes(&d()) + 3, bad),
        case("behind-front", behind(&[1; 9], second(d())), 400, bad),
        case("no-slaves", second(p3()), p3().file().len() + 1, bad),
        case("no-transitions", second(row_of(1)), 200, bad),
        case("before-40", second(none_free), 6, bad),
        case("before-41", second(inside(spread(1, eight))), 6, bad),
        case("before-42", second(inside(spread(16, 64))), 6, bad),
        case("before-44", second(deep), 6, bad),
        case("before-45", second(d()), 5, bad),
        case("before-45-no-buffer", second(d()), 0, bad),
    ];
    let faults = one_fault_under(Edition::Second).into_iter();
    for (number, file) in faults.filter(|&(number, _)| number > refusal::EDITION) {
        cases.push(case(&format!("behind-{number}"), file, 6, number));
    }
    cases
}

/// Clearing refuses edition 2 with 46: after 1 to 11, before 45, also where nothing is dead. There a
/// dead transition can keep its chart from staying, so its clearing would change answers.
pub fn clear_cases() -> Vec<Case> {
    let case = |name: &str, file: Vec<u8>, room: usize, number: u8| {
        let name = format!("clear-edition-2-{name}");
        Case::new(Command::clear(&name, file, room), number)
    };
    let bad = refusal::REWRITING_EDITION;
    let mut cases = vec![
        case("none", second(d()), 300, bad),
        case("L2", second(l2()), 100, bad),
        case("behind-front", behind(&[1; 9], second(l2())), 100, bad),
        case("before-45", second(d()), 5, bad),
        case("before-45-no-buffer", second(l2()), 0, bad),
    ];
    let faults = one_fault_under(Edition::Second).into_iter();
    for (number, file) in faults.filter(|&(number, _)| number > refusal::EDITION) {
        cases.push(case(&format!("behind-{number}"), file, 6, number));
    }
    cases
}

/// No file of edition 2 is plain, however its transitions are told apart; that is no refusal.
pub fn plain_cases() -> Vec<Case> {
    let command = |name: &str, file: Vec<u8>, number: u8| {
        let name = format!("edition-2-{name}");
        Case::new(Command::plain(&name, file), number)
    };
    let mut cases: Vec<Case> = plain_answers()
        .into_iter()
        .map(|known| {
            let file = changed_edition(known.file);
            command(known.name, file, refusal::SUCCESS)
        })
        .collect();
    let faults = one_fault_under(Edition::Second).into_iter();
    for (number, file) in faults.filter(|&(number, _)| number > refusal::EDITION) {
        let name = format!("plain-file-refused-{number}");
        cases.push(command(&name, file, number));
    }
    cases
}

/// The file with edition 2 in its trailer.
fn changed_edition(mut file: Vec<u8>) -> Vec<u8> {
    let at = file.len() - TRAILER_BYTES + EDITION_AT;
    file[at] = SECOND_EDITION;
    file
}
