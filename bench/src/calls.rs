//! Every call that asks about a file or makes a file of it, against the reference: on the case of 29
//! February, and on a file as large as there can be.

use crate::compare::Part;
use crate::measure::{least, Call};
use crate::table::{ratio, time, Row, Table};
use crate::texts::largest_file;
use reference::command::FILL;
use reference::limits::TEXT_ROOM;
use std::hint::black_box;

/// A call by its name, in the engine and in the reference.
struct Compared<'a> {
    name: &'static str,
    calls: [Call<'a>; 2],
}

/// A row for each call: how much longer the reference takes, and what the engine takes, on either file.
pub fn calls() -> Part {
    let sample = &include_bytes!("../../samples/29-february")[..];
    let large = largest_file();
    let both = all(sample).into_iter().zip(all(&large));
    let columns = [
        "samples/29-february: reference ÷ engine",
        "engine",
        "16 charts, 1,024 transitions: reference ÷ engine",
        "engine",
    ];
    let rows = both.map(|(small, large)| row(small, large)).collect();
    Part::plain("calls", Table::new("call", &columns, rows))
}

/// A call on the two files.
fn row(small: Compared, large: Compared) -> Row {
    let label = small.name.to_string();
    let cells = [small, large].map(|compared| {
        let times = least(Vec::from(compared.calls));
        [ratio(times[1] / times[0]), time(times[0])]
    });
    Row {
        label,
        cells: cells.concat(),
    }
}

/// All calls on a file; the engine and the reference answer the same.
fn all(file: &[u8]) -> Vec<Compared<'_>> {
    let told = reference::interface(file);
    let faces = mestecur::interface(file).expect("an accepted file");
    assert_eq!(
        (faces.input.0, faces.output.0),
        (told.input.0, told.output.0)
    );
    assert_eq!(mestecur::plain(file), Ok(reference::plain(file).plain));
    let (offered, set) = (mestecur::Set(1), reference::Set(1));
    vec![
        asked("check", file, mestecur::check, reference::check),
        filled("first", file, mestecur::first, reference::first),
        asked("interface", file, mestecur::interface, reference::interface),
        asked("plain", file, mestecur::plain, reference::plain),
        asked(
            "lacking",
            file,
            move |file| mestecur::lacking(file, 0, 0, offered),
            move |file| reference::lacking(file, 0, 0, set),
        ),
        filled("rewrite", file, mestecur::rewrite, reference::rewrite),
        filled("clear", file, mestecur::clear, reference::clear),
        filled("write", file, mestecur::write, reference::write),
    ]
}

/// A call that asks about a file.
fn asked<'a, One, Other>(
    name: &'static str,
    file: &'a [u8],
    engine: impl Fn(&[u8]) -> One + 'a,
    reference: impl Fn(&[u8]) -> Other + 'a,
) -> Compared<'a> {
    Compared {
        name,
        calls: [
            Box::new(move || {
                black_box(engine(black_box(file)));
            }),
            Box::new(move || {
                black_box(reference(black_box(file)));
            }),
        ],
    }
}

/// A call that fills a buffer, each time the same one; both fill it with the same bytes.
fn filled<'a, One, Other>(
    name: &'static str,
    file: &'a [u8],
    engine: impl Fn(&[u8], &mut [u8]) -> One + 'a,
    reference: impl Fn(&[u8], &mut [u8]) -> Other + 'a,
) -> Compared<'a> {
    let (mut one, mut other) = (vec![FILL; TEXT_ROOM], vec![FILL; TEXT_ROOM]);
    engine(file, &mut one);
    reference(file, &mut other);
    assert_eq!(one, other, "{name}");
    assert_ne!(one[0], FILL, "{name}");
    Compared {
        name,
        calls: [
            Box::new(move || {
                black_box(engine(black_box(file), &mut one));
            }),
            Box::new(move || {
                black_box(reference(black_box(file), &mut other));
            }),
        ],
    }
}
