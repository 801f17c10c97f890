//! Named cases of a run.

use super::charts::*;
use super::file::one_fault;
use super::Case;
use crate::command::Command;
use crate::limits::*;
use crate::model::Model;
use crate::set::Set;

/// All named cases of a run.
pub fn cases() -> Vec<Case> {
    [whole(), carried(), rooms(), orders(), files(), longer()]
        .into_iter()
        .flatten()
        .collect()
}

/// The inputs of the whole case: 1, 0, 2.
pub fn whole_case_inputs() -> [Set; 3] {
    [Set(1), Set(0), Set(2)]
}

/// Inputs for D: each of its guards is met by one of them, and some are outside its interface.
pub const D_DAY: [&[u32]; 9] = [
    &[],
    &[0],
    &[3],
    &[0],
    &[0, 3],
    &[0],
    &[3, 9],
    &[],
    &[0, 1, 3],
];

/// The bytes of a run's rows.
pub fn rows_bytes(inputs: usize, charts: usize) -> usize {
    inputs * (ROW_HEAD_BYTES + charts)
}

/// The whole case as a run, from each of its states, and rows of other charts of docs/EXAMPLES.md.
fn whole() -> Vec<Case> {
    let run = |name: &str, model: Model, at: &[u8], inputs: &[Set]| {
        let room = rows_bytes(inputs.len(), at.len()) + 3;
        let command = Command::run(name, model.file(), at, inputs, room);
        Case::new(command, refusal::SUCCESS)
    };
    let sets = |list: &[&[u32]]| {
        list.iter()
            .map(|signals| Set::of(signals))
            .collect::<Vec<_>>()
    };
    let day = sets(&D_DAY);
    vec![
        run("run-whole-case", whole_case(), &[0], &whole_case_inputs()),
        run(
            "run-whole-case-from-1",
            whole_case(),
            &[1],
            &whole_case_inputs(),
        ),
        run(
            "run-refused-throughout",
            l2(),
            &[0],
            &sets(&[&[], &[0], &[1]]),
        ),
        run("run-L1-then-stuck", l1(), &[0], &sets(&[&[], &[], &[0]])),
        run("run-D", d(), &[0, 0], &day),
        run("run-D-from-1-1", d(), &[1, 1], &day),
        run("run-nested", nested(), &[0, 0, 0], &{
            sets(&[&[0], &[1], &[2], &[0, 1], &[], &[0, 1, 2], &[1, 2], &[0]])
        }),
        run("run-mark-no", n1(), &[0], &sets(&[&[], &[7], &[]])),
    ]
}

/// What is carried into a run, from one input to the next, and out of it (RULES 6.4).
fn carried() -> Vec<Case> {
    let run = |name: &str, model: Model, at: &[u8], carried: &[u32], inputs: &[&[u32]]| {
        let inputs: Vec<Set> = inputs.iter().map(|signals| Set::of(signals)).collect();
        let room = rows_bytes(inputs.len(), at.len());
        let command = Command::run(name, model.file(), at, &inputs, room);
        Case::new(command.carrying(Set::of(carried)), refusal::SUCCESS)
    };
    let short = Command::run("run-27-carries-nothing", d().file(), &[0, 1], &[Set(1)], 11);
    vec![
        run("run-refused-input-is-carried", p2(), &[0, 0], &[], &{
            [&[0], &[1], &[0, 1][..]]
        }),
        run("run-carried-in", d(), &[0, 1], &[3], &[&[0]]),
        run("run-carried-in-is-barred", d(), &[0, 1], &[0], &[&[], &[]]),
        run("run-carried-in-no-inputs", d(), &[0, 1], &[3, 40], &[]),
        run("run-carried-uncut", d(), &[0, 1], &[40], &[&[0, 9], &[63]]),
        run("run-carried-twice", d(), &[0, 1], &[], &{
            [&[0][..], &[9], &[3], &[], &[3]]
        }),
        run(
            "run-nothing-carried-once-given",
            whole_case(),
            &[0],
            &[],
            &{ [&[1], &[0], &[][..]] },
        ),
        Case::new(short.carrying(Set::FULL), refusal::RUN_ROOM),
    ]
}

/// 27: a buffer that is too short for a row for each input.
fn rooms() -> Vec<Case> {
    let mut cases = Vec::new();
    let mut run = |name: String, charts: usize, inputs: usize, room: usize| {
        let number = if room < rows_bytes(inputs, charts) {
            refusal::RUN_ROOM
        } else {
            refusal::SUCCESS
        };
        let file = row_of(charts as u8).file();
        let sets = vec![Set::of(&[1]); inputs];
        let command = Command::run(&name, file, &vec![0; charts], &sets, room);
        cases.push(Case::new(command, number));
    };
    for charts in [1, 2, EARLIER_CHARTS, CHARTS] {
        for inputs in [0, 1, 3] {
            let exact = rows_bytes(inputs, charts);
            let name = |word| format!("run-{charts}-charts-{inputs}-inputs-buffer-{word}");
            run(name("exact"), charts, inputs, exact);
            run(name("longer"), charts, inputs, exact + 7);
            run(name("empty"), charts, inputs, 0);
            run(name("one-short"), charts, inputs, exact.saturating_sub(1));
        }
        let one_row_less = rows_bytes(2, charts);
        let name = format!("run-{charts}-charts-buffer-one-row-short");
        run(name, charts, 3, one_row_less);
    }
    cases
}

/// Two of 20, 21, 27 at once: the lower one is given; 22 is not one of them.
fn orders() -> Vec<Case> {
    let run = |name: &str, at: &[u8], inputs: &[Set], room: usize, number: u8| {
        let command = Command::run(name, d().file(), at, inputs, room);
        Case::new(command, number)
    };
    let one = [Set::one(0)];
    vec![
        run(
            "run-20-before-21",
            &[9; 3],
            &one,
            40,
            refusal::CONFIGURATION_LENGTH,
        ),
        run(
            "run-20-before-27",
            &[0],
            &one,
            0,
            refusal::CONFIGURATION_LENGTH,
        ),
        run(
            "run-20-no-inputs",
            &[],
            &[],
            0,
            refusal::CONFIGURATION_LENGTH,
        ),
        run(
            "run-21-before-27",
            &[0, 2],
            &one,
            0,
            refusal::CONFIGURATION_STATE,
        ),
        run(
            "run-21-no-inputs",
            &[2, 0],
            &[],
            9,
            refusal::CONFIGURATION_STATE,
        ),
        run("run-27", &[0, 0], &one, 11, refusal::RUN_ROOM),
        run("run-no-22", &[0, 0], &[], 1, refusal::SUCCESS),
        run("run-23-is-in-the-row", &[0, 1], &one, 12, refusal::SUCCESS),
    ]
}

/// A file for each of 1 to 11, with all else right and with all else wrong.
fn files() -> Vec<Case> {
    let mut cases = Vec::new();
    for (number, file) in one_fault() {
        let right = format!("run-file-refused-{number}");
        let wrong = format!("run-file-refused-{number}-all-else-wrong");
        let command = Command::run(&right, file.clone(), &[0, 0], &[Set::one(0)], 13);
        cases.push(Case::new(command, number));
        let command = Command::run(&wrong, file, &[7; 3], &[Set::FULL], 0);
        cases.push(Case::new(command.carrying(Set::FULL), number));
    }
    cases
}

/// A long run, and one whose inputs are as many as a command can have.
fn longer() -> Vec<Case> {
    let turning: Vec<Set> = (0..300).map(|n| Set(n % 4)).collect();
    let room = rows_bytes(turning.len(), 1);
    let long = Command::run("run-300-inputs", whole_case().file(), &[0], &turning, room);
    let most = vec![Set::one(1); 4_096];
    let file = whole_case().file();
    let refused = Command::run("run-4096-inputs-buffer-short", file, &[0], &most, 40);
    vec![
        Case::new(long, refusal::SUCCESS),
        Case::new(refused, refusal::RUN_ROOM),
    ]
}
