//! A day's posting against a step call for each case, and how its time grows with the entries.

use crate::compare::Part;
use crate::family::{self, Subject};
use crate::measure::{least, median};
use crate::table::{ratio, time, Row, Table};
use mestecur::{posted_bytes, Case, Entry, Set, CASES};
use std::hint::black_box;

/// How many entries there are for each case, few and many.
const FEW: usize = 1;
const MANY: usize = 101;

/// What a day of a full book takes, in seconds.
struct Day {
    few: f64,
    many: f64,
    steps: f64,
}

/// A full book of everyday cases, and of hard ones.
pub fn posting() -> Part {
    let columns = ["post ÷ steps", "post, a case", "a step", "an entry more"];
    let rows = vec![
        row("everyday charts (1 to 4)", &family::everyday()),
        row("everyday charts, edition 2", &family::everyday_staying()),
        row(
            "hard family, 8 charts, 8 transitions from each state",
            &family::hard(),
        ),
    ];
    let title = format!("a book of {CASES} cases");
    Part::plain("posting", Table::new(&title, &columns, rows))
}

/// The medians over a family. A day has one entry for each case; what an entry more takes is told apart.
fn row(label: &str, family: &[Subject]) -> Row {
    let days: Vec<Day> = family.iter().map(day).collect();
    let of = |get: &dyn Fn(&Day) -> f64| median(days.iter().map(get).collect());
    let more = (CASES * (MANY - FEW)) as f64;
    Row {
        label: label.to_string(),
        cells: vec![
            ratio(of(&|day| day.few / day.steps)),
            time(of(&|day| day.few / CASES as f64)),
            time(of(&|day| day.steps / CASES as f64)),
            time(of(&|day| ((day.many - day.few) / more).max(0.0))),
        ],
    }
}

/// Posts a day with few and with many entries, and steps each case by a call of its own. Every case
/// of the book is in the subject's configuration before each day.
fn day(subject: &Subject) -> Day {
    let (file, config) = (&subject.file[..], &subject.config[..]);
    let book = [Case::new(config).expect("at most sixteen charts"); CASES];
    let (few, many) = (entries(subject, FEW), entries(subject, MANY));
    let post = |entries: &[Entry], rows: &mut [u8]| {
        let mut cases = black_box(book);
        let _ = black_box(mestecur::post(black_box(file), &mut cases, entries, rows));
        black_box(&cases);
    };
    let room = posted_bytes(CASES, config.len());
    let (mut one, mut other) = (vec![0; room], vec![0; room]);
    let mut next = vec![0; config.len()];
    let input = Set(subject.input);
    let times = least(vec![
        Box::new(|| post(&few, &mut one)),
        Box::new(|| post(&many, &mut other)),
        Box::new(|| {
            for _ in 0..CASES {
                let file = black_box(file);
                let _ = black_box(mestecur::step(file, black_box(config), input, &mut next));
            }
        }),
    ]);
    Day {
        few: times[0],
        many: times[1],
        steps: times[2],
    }
}

/// So many entries for each case, which join to the subject's input; the cases take turns.
fn entries(subject: &Subject, each: usize) -> Vec<Entry> {
    let signals = Set(subject.input);
    let turn = (0..CASES as u64).map(|number| Entry { number, signals });
    turn.cycle().take(CASES * each).collect()
}
