//! The engine's calls compared with those by hand and those of the reference: rows of a table, and bars.

use crate::family::Subject;
use crate::measure::{least, mean, median, Call};
use crate::picture::{Bar, Other};
use crate::table::{ratio, time, Row, Table, NOTHING};

/// A table by the name of its place on the page, and its bars.
pub struct Part {
    pub name: &'static str,
    pub table: Table,
    pub bars: Vec<Bar>,
}

impl Part {
    /// A table without bars.
    pub fn plain(name: &'static str, table: Table) -> Part {
        Part {
            name,
            table,
            bars: vec![],
        }
    }
}

/// What one subject took, in seconds; plain enumeration only where it is not too slow.
pub struct Taken {
    pub engine: f64,
    pub hand: f64,
    pub reference: Option<f64>,
}

/// The three calls of a subject that are compared: the engine's, by hand, and in the reference.
pub struct Calls<'a> {
    pub engine: Call<'a>,
    pub hand: Call<'a>,
    pub reference: Option<Call<'a>>,
}

impl Calls<'_> {
    /// What they take.
    pub fn taken(self) -> Taken {
        let calls = [self.engine, self.hand].into_iter().chain(self.reference);
        let times = least(calls.collect());
        Taken {
            engine: times[0],
            hand: times[1],
            reference: times.get(2).copied(),
        }
    }
}

/// The columns of a comparison, ratios first.
pub const COLUMNS: [&str; 3] = ["reference ÷ engine", "by hand ÷ engine", "engine"];

/// A row of medians over a family, and its bars.
pub fn compared(label: &str, all: &[Taken]) -> (Row, Vec<Bar>) {
    let of = |get: &dyn Fn(&Taken) -> f64| median(all.iter().map(get).collect());
    let slow = all.iter().filter_map(|t| Some(t.reference? / t.engine));
    let slow: Vec<f64> = slow.collect();
    let to_reference = (!slow.is_empty()).then(|| median(slow));
    let to_hand = of(&|t| t.hand / t.engine);
    let bar = |other, ratio| Bar {
        label: label.to_string(),
        other,
        ratio,
    };
    let bars = to_reference.map(|ratio| bar(Other::Reference, ratio));
    let row = Row {
        label: label.to_string(),
        cells: vec![
            to_reference.map_or(NOTHING.to_string(), ratio),
            ratio(to_hand),
            time(of(&|t| t.engine)),
        ],
    };
    let bars = bars.into_iter().chain([bar(Other::Hand, to_hand)]);
    (row, bars.collect())
}

/// What a step of a family takes when each file is stepped as often as any other: the mean.
pub fn together(all: &[Taken]) -> Taken {
    let mean = |get: &dyn Fn(&Taken) -> f64| mean(&all.iter().map(get).collect::<Vec<f64>>());
    Taken {
        engine: mean(&|t| t.engine),
        hand: mean(&|t| t.hand),
        reference: Some(mean(&|t| t.reference.unwrap_or(f64::NAN))),
    }
}

/// What each subject of a family takes.
pub fn taken_by(family: &[Subject], calls: impl Fn(&Subject) -> Calls<'_>) -> Vec<Taken> {
    family
        .iter()
        .map(|subject| calls(subject).taken())
        .collect()
}

/// A row of a family.
pub fn row_of(
    label: &str,
    family: &[Subject],
    calls: impl Fn(&Subject) -> Calls<'_>,
) -> (Row, Vec<Bar>) {
    compared(label, &taken_by(family, calls))
}

/// A part of several rows.
pub fn part(name: &'static str, title: &str, rows: Vec<(Row, Vec<Bar>)>) -> Part {
    let (rows, bars): (Vec<Row>, Vec<Vec<Bar>>) = rows.into_iter().unzip();
    let mut bars = bars.concat();
    for bar in &mut bars {
        bar.label = format!("{title}: {}", bar.label);
    }
    Part {
        name,
        table: Table::new(title, &COLUMNS, rows),
        bars,
    }
}
