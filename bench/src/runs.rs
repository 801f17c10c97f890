//! Runs, compared with one step call for each input too.

use crate::compare::{compared, part, Calls, Part, Taken};
use crate::family::{self, Subject};
use crate::hand;
use crate::measure::{least, median, Call};
use crate::picture::Bar;
use crate::table::{ratio, Row};
use reference::Set;
use std::hint::black_box;

/// Runs, the time of one row each.
pub fn run() -> Part {
    let (everyday, hard) = (family::everyday(), family::hard());
    let rows = vec![
        row("everyday charts, 1,000 inputs", &everyday, 1_000, true),
        row("hard family, 100 inputs", &hard, 100, false),
    ];
    let mut runs = part("run", "a row of a run", rows);
    runs.table.columns.push("step calls ÷ run".to_string());
    runs
}

/// A row of runs over so many inputs, and how many times longer step calls take.
fn row(label: &str, family: &[Subject], count: usize, with_reference: bool) -> (Row, Vec<Bar>) {
    let inputs = family::inputs(1, count);
    let per_row = |taken: Taken| Taken {
        engine: taken.engine / count as f64,
        hand: taken.hand / count as f64,
        reference: taken.reference.map(|all| all / count as f64),
    };
    let all: Vec<Taken> = family
        .iter()
        .map(|subject| per_row(run_calls(subject, &inputs, with_reference).taken()))
        .collect();
    let (mut row, bars) = compared(label, &all);
    let to_steps = family.iter().map(|subject| steps_to_run(subject, &inputs));
    row.cells.push(ratio(median(to_steps.collect())));
    (row, bars)
}

/// What is carried into a run: nothing.
const NONE: mestecur::Set = mestecur::Set::EMPTY;

/// Inputs as the engine and as the reference take them.
fn as_sets(inputs: &[u64]) -> (Vec<mestecur::Set>, Vec<Set>) {
    let engine = inputs.iter().map(|&set| mestecur::Set(set));
    let reference = inputs.iter().map(|&set| Set(set));
    (engine.collect(), reference.collect())
}

/// The three runs of a file.
fn run_calls<'a>(subject: &'a Subject, inputs: &'a [u64], with_reference: bool) -> Calls<'a> {
    let (file, config) = (&subject.file[..], &subject.config[..]);
    let (sets, reference_sets) = as_sets(inputs);
    let room = mestecur::rows_bytes(inputs.len(), config.len());
    let (mut one, mut other, mut third) = (vec![0; room], vec![0; room], vec![0; room]);
    let left = mestecur::run(file, config, NONE, &sets, &mut one).unwrap();
    assert_eq!(hand::run(file, config, 0, inputs, &mut other), (0, left.0));
    assert_eq!(one, other);
    Calls {
        engine: Box::new(move || {
            let _ = black_box(mestecur::run(
                black_box(file),
                config,
                NONE,
                &sets,
                &mut one,
            ));
        }),
        hand: Box::new(move || {
            black_box(hand::run(black_box(file), config, 0, inputs, &mut other));
        }),
        reference: with_reference.then(|| -> Call {
            Box::new(move || {
                let sets = &reference_sets;
                black_box(reference::run_plainly(
                    black_box(file),
                    config,
                    Set::EMPTY,
                    sets,
                    &mut third,
                ));
            })
        }),
    }
}

/// How many times longer than a run one step call for each of its inputs takes, in the engine.
fn steps_to_run(subject: &Subject, inputs: &[u64]) -> f64 {
    let (file, config) = (&subject.file[..], &subject.config[..]);
    let (sets, _) = as_sets(inputs);
    let mut rows = vec![0; mestecur::rows_bytes(inputs.len(), config.len())];
    let times = least(vec![
        Box::new(|| {
            let _ = black_box(mestecur::run(
                black_box(file),
                config,
                NONE,
                &sets,
                &mut rows,
            ));
        }),
        Box::new(|| step_through(file, config, &sets)),
    ]);
    times[1] / times[0]
}

/// One step call for each input, each from where the last one led and with what is carried there.
fn step_through(file: &[u8], config: &[u8], inputs: &[mestecur::Set]) {
    let (mut present, mut next) = (config.to_vec(), config.to_vec());
    let mut carried = NONE;
    for &input in inputs {
        carried.0 |= input.0;
        if black_box(mestecur::step(
            black_box(file),
            &present,
            carried,
            &mut next,
        ))
        .is_ok()
        {
            present.copy_from_slice(&next);
            carried = NONE;
        }
    }
}
