//! Steps: everyday ones and hard ones, of nine charts and more, of edition 2, the worst that are known, and how
//! their time grows.

use crate::compare::{compared, part, row_of, taken_by, together, Calls, Part, Taken, COLUMNS};
use crate::family::{self, Subject};
use crate::hand;
use crate::measure::Call;
use crate::picture::Bar;
use crate::table::{ratio, thousands, time, Row, Table};
use reference::limits::CHARTS;
use reference::Set;
use std::hint::black_box;

/// The most choices that plain enumeration is let try where time grows.
const FEW_CHOICES: u64 = 100_000;

/// The rows of an everyday family: what an office waits for that posts them all, and the median file.
fn everyday(family: &[Subject]) -> Vec<(Row, Vec<Bar>)> {
    let taken = taken_by(family, |s| step_calls(s, true));
    vec![
        compared(
            "everyday charts: the mean over 24 files",
            &[together(&taken)],
        ),
        compared("everyday charts: the median file", &taken),
    ]
}

/// A row of a family that plain enumeration is let try.
fn row(label: &str, family: &[Subject]) -> (Row, Vec<Bar>) {
    row_of(label, family, |s| step_calls(s, true))
}

/// Steps of edition 1.
pub fn step() -> Part {
    let mut rows = everyday(&family::everyday());
    let hard = "hard family: 8 charts, 8 transitions from each state, median";
    rows.push(row(hard, &family::hard()));
    for (label, subject) in family::special() {
        rows.push(row(label, &[subject]));
    }
    part("step", "a step", rows)
}

/// Steps of edition 2, where every active chart may also stay: 8^8 choices instead of 7^8, and 3^8
/// instead of 2^8.
pub fn staying() -> Part {
    let mut rows = everyday(&family::everyday_staying());
    for out in [7, 2] {
        let label = format!("hard family: 8 charts, {out} transitions from each state, median");
        rows.push(row(&label, &family::hard_staying(out)));
    }
    part("staying", "a step of edition 2", rows)
}

/// Steps of nine charts and more. Plain enumeration is let try few choices only.
pub fn many() -> Part {
    let few = |s: &Subject| s.choices() <= FEW_CHOICES;
    let one = |(label, subject)| (label, vec![subject]);
    let families = family::many().into_iter();
    let singles = family::counted().into_iter().chain(family::bad()).map(one);
    let rows = families.chain(singles).map(|(label, family)| {
        let (mut row, bars) = row_of(label, &family, |s| step_calls(s, few(s)));
        row.cells.push(thousands(family[0].open()));
        (row, bars)
    });
    let mut steps = part("many", "a step of 9 to 16 charts", rows.collect());
    steps.table.columns.push("open choices".to_string());
    steps
}

/// The worst steps that are known, with more and more charts of eight moves.
pub fn worst() -> Part {
    let sizes = [5, 6, 7, 8];
    let all = sizes.map(|eights| family::worst(eights).map(|(label, s)| (label, worst_taken(&s))));
    let last = &all[sizes.len() - 1];
    let rows = last.iter().enumerate().map(|(place, (label, taken))| {
        let times = all.iter().map(|size| time(size[place].1.engine));
        Row {
            label: label.to_string(),
            cells: times.chain([ratio(taken.hand / taken.engine)]).collect(),
        }
    });
    let columns = ["8^5", "8^6", "8^7", "8^8", "8^8, by hand ÷ engine"];
    let table = Table::new("16 charts, by open choices", &columns, rows.collect());
    Part::plain("worst", table)
}

/// What a step takes that plain enumeration is not let try.
fn worst_taken(subject: &Subject) -> Taken {
    step_calls(subject, false).taken()
}

/// A step's answer and next configuration; of a refused one the refusal and the number of open choices.
type Stepped = (Result<mestecur::Step, (u8, u64)>, Vec<u8>);

/// The engine's step.
fn engine_step(subject: &Subject) -> Stepped {
    let mut next = vec![0; subject.config.len()];
    let input = mestecur::Set(subject.input);
    let answer = mestecur::step(&subject.file, &subject.config, input, &mut next);
    (
        answer.map_err(|refused| (refused.number(), refused.open)),
        next,
    )
}

/// The step by hand.
fn hand_step(subject: &Subject) -> Stepped {
    let mut next = vec![0; subject.config.len()];
    let (file, config) = (&subject.file, &subject.config);
    let stepped = hand::step(file, config, subject.input, &mut next);
    if stepped.refusal != 0 {
        return (Err((stepped.refusal, stepped.open)), next);
    }
    let step = mestecur::Step {
        output: mestecur::Set(stepped.output),
        mark: stepped.mark,
        places: stepped.places.map(mestecur::Place::of),
        open: stepped.open,
    };
    (Ok(step), next)
}

/// The three steps of a file.
fn step_calls(subject: &Subject, with_reference: bool) -> Calls<'_> {
    assert_eq!(engine_step(subject), hand_step(subject));
    let (file, config) = (&subject.file[..], &subject.config[..]);
    let (mut one, mut other, mut third) = ([0; CHARTS], [0; CHARTS], [0; CHARTS]);
    let input = subject.input;
    Calls {
        engine: Box::new(move || {
            let input = mestecur::Set(black_box(input));
            let _ = black_box(mestecur::step(black_box(file), config, input, &mut one));
        }),
        hand: Box::new(move || {
            let input = black_box(input);
            black_box(hand::step(black_box(file), config, input, &mut other));
        }),
        reference: with_reference.then(|| -> Call {
            Box::new(move || {
                let input = Set(black_box(input));
                black_box(reference::step_plainly(
                    black_box(file),
                    config,
                    input,
                    &mut third,
                ));
            })
        }),
    }
}

/// How the time of a step grows with charts, transitions and nodes.
pub fn growth() -> Vec<Part> {
    let row = family::random_row;
    vec![
        grown(
            "growth-charts",
            "charts, 8 transitions from a state",
            1..=8,
            |charts, seed| row(seed, charts, 8),
        ),
        grown(
            "growth-more-charts",
            "charts, 2 transitions from a state",
            8..=CHARTS,
            |charts, seed| row(seed, charts, 2),
        ),
        grown(
            "growth-transitions",
            "transitions from a state, 8 charts",
            1..=8,
            |out, seed| row(seed, 8, out),
        ),
        grown(
            "growth-nodes",
            "nodes, 4 charts, 2 transitions from a state",
            [7, 16, 32, 64],
            |nodes, seed| family::nodes(seed, nodes),
        ),
    ]
}

/// The table of families of some sizes, a column for each.
fn grown(
    name: &'static str,
    title: &str,
    sizes: impl IntoIterator<Item = usize>,
    subject: impl Fn(usize, u64) -> Subject,
) -> Part {
    let rows = sizes.into_iter().map(|size| {
        let family: Vec<Subject> = (0..9).map(|seed| subject(size, seed)).collect();
        let label = size.to_string();
        row_of(&label, &family, |s| {
            step_calls(s, s.choices() <= FEW_CHOICES)
        })
        .0
    });
    let table = Table::new(title, &COLUMNS, rows.collect());
    Part::plain(name, table.turned())
}
