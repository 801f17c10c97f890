//! Typed texts read, and files written as text, against the reference, which reads by a table worked out from
//! the grammar and writes on the heap; and whether a megabyte takes as long for each byte as a short text.

use crate::compare::Part;
use crate::measure::{least, Call};
use crate::table::{ratio, thousands, time, Row, Table};
use reference::cases::charts::full_charts;
use reference::limits::{CHARTS, TEXT_ROOM};
use reference::model::Model;
use reference::notation::file_of;
use reference::Set;
use std::hint::black_box;

/// The bytes of a long text.
const MEGABYTE: usize = 1_000_000;
/// The most transitions of a chart, as many from each of eight states as there may be.
const TRANSITIONS: usize = 64;
/// A chart of one state.
const SMALL: &str = "(c0,{q0},q0,{},{})";
/// A buffer for every file that a text can mean.
const FILE_ROOM: usize = 32_768;

/// The columns of both.
const COLUMNS: [&str; 4] = [
    "reference ÷ engine",
    "engine, bytes per µs",
    "engine",
    "bytes",
];

/// Short texts, the largest file, and texts of a megabyte.
pub fn reading() -> Part {
    let sample = include_str!("../../samples/29-february.text");
    let brackets = MEGABYTE / 2;
    let closed = format!("{}{SMALL}{}", "[".repeat(brackets), "]".repeat(brackets));
    let pairs = "(q0,q0,s0&-s1/{s2}),";
    let list = pairs.repeat(MEGABYTE / pairs.len());
    let cut = format!("(c0,{{q0}},q0,{{}},{{{list}");
    let rows = vec![
        read("one chart of one state", 0, SMALL),
        read("samples/29-february.text", 0, sample),
        read("8 charts, 512 transitions", 0, &largest(8)),
        read("16 charts, 1,024 transitions", 0, &largest(CHARTS)),
        read(
            "a megabyte of open brackets (50)",
            50,
            &"[".repeat(MEGABYTE),
        ),
        read("a megabyte of brackets, closed (51)", 51, &closed),
        read("a megabyte of transitions, cut (50)", 50, &cut),
        read("a megabyte of blanks", 0, &(" ".repeat(MEGABYTE) + SMALL)),
    ];
    Part::plain("reading", Table::new("text", &COLUMNS, rows))
}

/// Small files, one as large as can be, and one with the longest sets.
pub fn writing() -> Part {
    let sample = include_bytes!("../../samples/29-february");
    let rows = vec![
        written("one chart of one state", &meant(SMALL)),
        written("samples/29-february", sample),
        written("16 charts, 1,024 transitions", &meant(&largest(CHARTS))),
        written("the same, every set full", &full().file()),
    ];
    Part::plain("writing", Table::new("file", &COLUMNS, rows))
}

/// The largest file that a text means.
pub fn largest_file() -> Vec<u8> {
    meant(&largest(CHARTS))
}

/// So many charts with as many transitions as they can have, composed.
fn largest(charts: usize) -> String {
    let transition = |place: usize| {
        format!(
            "(q{},q{},s{}&-s{}/{{s{}}})",
            place / 8,
            place % 8,
            place,
            63 - place,
            place
        )
    };
    let list: Vec<String> = (0..TRANSITIONS).map(transition).collect();
    let states = "q0,q1,q2,q3,q4,q5,q6,q7";
    let chart =
        |number: usize| format!("(c{number},{{{states}}},q0,{{s1}},{{{}}})", list.join(","));
    let inner = (1..charts - 1).fold(chart(0), |left, number| {
        format!("({left}|{{}}|{})", chart(number))
    });
    format!("{inner}|{{}}|{}", chart(charts - 1))
}

/// The file that a text means.
fn meant(text: &str) -> Vec<u8> {
    file_of(text.as_bytes()).expect("a text that is accepted")
}

/// As many charts and transitions as a file can have, with all signals in each of their sets.
fn full() -> Model {
    let mut model = full_charts(CHARTS);
    for chart in &mut model.charts {
        (chart.feedback, chart.extra) = (Set::FULL, Set::FULL);
        for transition in &mut chart.transitions {
            (transition.needed, transition.barred) = (Set::FULL, Set::FULL);
            transition.action = Set::FULL;
        }
    }
    model
}

/// A text, read by both, which refuse it or not.
fn read(label: &str, refusal: u8, text: &str) -> Row {
    let (mut one, mut other) = (vec![0; FILE_ROOM], vec![0; FILE_ROOM]);
    let text = text.as_bytes();
    let expected = reference::read(text, &mut other);
    let told = mestecur::read(text, &mut one).map_or_else(|refused| refused.number(), |_| 0);
    assert_eq!((expected.refusal, told), (refusal, refusal), "{label}");
    assert_eq!(one, other, "{label}");
    row(
        label,
        text.len(),
        Box::new(|| {
            let _ = black_box(mestecur::read(black_box(text), &mut one));
        }),
        Box::new(|| {
            black_box(reference::read(black_box(text), &mut other));
        }),
    )
}

/// A file, written by both.
fn written(label: &str, file: &[u8]) -> Row {
    let (mut one, mut other) = (vec![0; TEXT_ROOM], vec![0; TEXT_ROOM]);
    let expected = reference::write(file, &mut other);
    assert_eq!(expected.refusal, 0, "{label}");
    let length = mestecur::write(file, &mut one);
    assert_eq!(length, Ok(expected.length), "{label}");
    assert_eq!(one, other, "{label}");
    row(
        label,
        expected.length,
        Box::new(|| {
            let _ = black_box(mestecur::write(black_box(file), &mut one));
        }),
        Box::new(|| {
            black_box(reference::write(black_box(file), &mut other));
        }),
    )
}

/// A call of the engine and of the reference that reads or writes so many bytes of text.
fn row(label: &str, bytes: usize, engine: Call, reference: Call) -> Row {
    let times = least(vec![engine, reference]);
    Row {
        label: label.to_string(),
        cells: vec![
            ratio(times[1] / times[0]),
            ratio(bytes as f64 / (times[0] * 1e6)),
            time(times[0]),
            thousands(bytes as u64),
        ],
    }
}
