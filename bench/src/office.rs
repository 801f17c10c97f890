//! An office's day: the cases of samples/29-february posted, each with an entry, by the library and by the desk's
//! program, one book after the other.

use crate::compare::Part;
use crate::measure::least;
use crate::table::{time, Row, Table, NOTHING};
use mestecur::{posted_bytes, Case, Entry, Set, CASES};
use std::fmt::Write;
use std::hint::black_box;
use std::path::Path;
use std::process::{Command, Stdio};
use std::time::Instant;
use std::{env, fs, io, process};

/// The cases of a small office and of a large one.
const OFFICES: [usize; 2] = [10_000, 10_000_000];
/// The days that the program posts to its book.
const DAYS: usize = 50;
/// The sample's file, and what arrives for each case.
const SAMPLE: &[u8] = include_bytes!("../../samples/29-february");
const SIGNALS: Set = Set(1);

/// What a day takes; for the program, MESTECUR_POST has to name it.
pub fn office() -> Part {
    let program = env::var("MESTECUR_POST").ok();
    let posted = program.map(|program| by_program(&program).expect("a folder for a book"));
    let rows = vec![
        row("mestecur_post", Some(by_library())),
        row("the program post", posted),
    ];
    let columns = [
        "a book of 64 cases",
        "ten thousand cases",
        "ten million cases",
    ];
    Part::plain("office", Table::new("a day", &columns, rows))
}

/// What a book takes, and all books of an office.
fn row(label: &str, book: Option<f64>) -> Row {
    let offices = OFFICES.map(|cases| cases.div_ceil(CASES));
    let counts = [1].into_iter().chain(offices);
    let cell = |books| book.map_or(NOTHING.to_string(), |one| time(one * books as f64));
    Row {
        label: label.to_string(),
        cells: counts.map(cell).collect(),
    }
}

/// What posting a day to a full book takes, in seconds.
fn by_library() -> f64 {
    let mut first = [0; 3];
    mestecur::first(SAMPLE, &mut first).expect("a sample of three charts");
    let book = [Case::new(&first).expect("three charts"); CASES];
    let entry = |number| Entry {
        number,
        signals: SIGNALS,
    };
    let entries: Vec<Entry> = (0..CASES as u64).map(entry).collect();
    let mut rows = vec![0; posted_bytes(CASES, first.len())];
    let post = || {
        let mut cases = black_box(book);
        let posted = mestecur::post(black_box(SAMPLE), &mut cases, &entries, &mut rows);
        black_box(posted).expect("a day in order");
    };
    least(vec![Box::new(post)])[0]
}

/// What the program takes for a day by the clock, the least of some, in a folder of its own.
fn by_program(program: &str) -> io::Result<f64> {
    let folder = env::temp_dir().join(format!("mestecur-{}", process::id()));
    fs::create_dir(&folder)?;
    let taken = by_program_in(program, &folder);
    fs::remove_dir_all(&folder)?;
    taken
}

/// The same in a folder.
fn by_program_in(program: &str, folder: &Path) -> io::Result<f64> {
    fs::write(folder.join("case"), SAMPLE)?;
    let cases = CASES.to_string();
    run(program, folder, &["new", "case", &cases, "book"])?;
    let mut least = f64::INFINITY;
    for day in 1..=DAYS {
        fs::write(folder.join("day"), entries(day))?;
        let start = Instant::now();
        run(program, folder, &["day", "case", "book", "day"])?;
        least = least.min(start.elapsed().as_secs_f64());
    }
    Ok(least)
}

/// A day's text with an entry for each case.
fn entries(day: usize) -> String {
    (0..CASES).fold(format!("day {day}\n"), |mut text, case| {
        let _ = writeln!(text, "{case} s0");
        text
    })
}

/// Runs the program in a folder; it has to end well, with nothing on standard error.
fn run(program: &str, folder: &Path, words: &[&str]) -> io::Result<()> {
    let mut command = Command::new(program);
    let ended = command
        .args(words)
        .current_dir(folder)
        .stdin(Stdio::null())
        .output()?;
    match ended.status.success() && ended.stderr.is_empty() {
        true => Ok(()),
        false => Err(io::Error::other(String::from_utf8_lossy(&ended.stderr))),
    }
}
