//! `bench [PART] [--page FILE] [--picture FILE]`: measures and prints the tables of a part in Markdown: `step`,
//! `many` (steps of nine charts and more), `staying` (steps of edition 2), `worst` (the worst steps that are
//! known), `growth`, `run`, `posting`, `office` (a day of all cases), `calls` (every call on a file), `files`
//! (checks and rewritings), `reading`, `writing` or `memory`; all of them if none is named. With a page, each
//! table is put there between the marks of its name. The picture has the ratios of the parts measured as bars
//! on a log scale.
//!
//! `bench once`: makes every everyday step once, for a profile (bench/shares).
//!
//! `bench worst COUNT`: looks for worse steps, of either edition: draws so many files, and changes the worst of
//! them, and the worst that are known, so many times.

use bench::calls::calls;
use bench::compare::Part;
use bench::family::{self, Subject};
use bench::files::files;
use bench::memory::memory;
use bench::office::office;
use bench::page::with_table;
use bench::picture::{picture, Bar};
use bench::posting::posting;
use bench::runs::run;
use bench::steps;
use bench::texts::{reading, writing};
use bench::worst::{climbs, Field};
use reference::limits::CHARTS;
use reference::model::Edition;
use reference::words;
use std::fs;
use std::hint::black_box;
use std::process::ExitCode;

/// What can be said on the command line.
const USE: &str =
    "use: bench [step | many | staying | worst | growth | run | posting | office | calls | files | reading | writing | \
    memory] [--page FILE] [--picture FILE] | worst COUNT";

/// All parts, in the order of the page.
const NAMES: [&str; 13] = [
    "step", "many", "staying", "worst", "growth", "run", "posting", "office", "calls", "files",
    "reading", "writing", "memory",
];

/// The most open choices of the files that are climbed from: with them a step takes milliseconds.
const CLIMBED_OPEN: u64 = 32_768;

fn main() -> ExitCode {
    words::done(|words| match *words {
        ["worst", count] => climb(count),
        ["once"] => {
            family::everyday().iter().for_each(once);
            Ok(())
        }
        [name, ref rest @ ..] if NAMES.contains(&name) => measure(&[name], rest),
        ref rest => measure(&NAMES, rest),
    })
}

/// Measures some parts, prints each as soon as it is measured, and puts them where the words say.
fn measure(names: &[&str], words: &[&str]) -> Result<(), String> {
    let (page, drawing) = match *words {
        [] => (None, None),
        ["--page", page] => (Some(page), None),
        ["--picture", drawing] => (None, Some(drawing)),
        ["--page", page, "--picture", drawing] => (Some(page), Some(drawing)),
        _ => return Err(USE.to_string()),
    };
    let mut bars: Vec<Bar> = vec![];
    for part in names.iter().flat_map(|name| measured(name)) {
        println!("{}", part.table);
        if let Some(path) = page {
            put(path, &part)?;
        }
        bars.extend(part.bars);
    }
    match drawing {
        None => Ok(()),
        Some(_) if bars.is_empty() => Err("these parts have no ratios to draw".to_string()),
        Some(path) => write(path, &picture(&bars)),
    }
}

/// Puts a table into a page.
fn put(path: &str, part: &Part) -> Result<(), String> {
    let page = fs::read_to_string(path).map_err(|what| format!("{path}: {what}"))?;
    write(path, &with_table(&page, part.name, &part.table)?)
}

/// Writes a text to a file.
fn write(path: &str, text: &str) -> Result<(), String> {
    fs::write(path, text).map_err(|what| format!("{path}: {what}"))
}

/// Makes a step once, for a profile.
fn once(subject: &Subject) {
    let mut next = [0; CHARTS];
    let input = mestecur::Set(subject.input);
    let _ = black_box(mestecur::step(
        &subject.file,
        &subject.config,
        input,
        &mut next,
    ));
}

/// Prints what is climbed to, from so many files and by so many changes.
fn climb(count: &str) -> Result<(), String> {
    let count: u64 = count.parse().map_err(|_| USE)?;
    for edition in [Edition::First, Edition::Second] {
        println!("edition {}", edition.number());
        let open = CLIMBED_OPEN;
        for climbed in climbs(Field { edition, open }, count, count) {
            println!("{climbed}");
        }
    }
    Ok(())
}

/// The tables of a part, by its name.
fn measured(name: &str) -> Vec<Part> {
    match name {
        "calls" => vec![calls()],
        "files" => vec![files()],
        "step" => vec![steps::step()],
        "many" => vec![steps::many()],
        "staying" => vec![steps::staying()],
        "worst" => vec![steps::worst()],
        "run" => vec![run()],
        "posting" => vec![posting()],
        "office" => vec![office()],
        "memory" => vec![memory()],
        "reading" => vec![reading()],
        "writing" => vec![writing()],
        _ => steps::growth(),
    }
}
