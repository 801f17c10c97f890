//! The command line tool's answers, for words that are typed right. A refusal has its number alone,
//! without the words behind it.

use crate::check::accept;
use crate::clearing::clear;
use crate::day::line;
use crate::first::first_configuration;
use crate::interface::interface;
use crate::lacking::{lacking, shown as shown_by};
use crate::limits::{refusal, EDITION_AT, SIGNALS, TRAILER_BYTES};
use crate::notation::file_of;
use crate::notation::laid_out::laid_out;
use crate::notation::write::text_of;
use crate::plain::is_plain;
use crate::rewriting::rewrite;
use crate::run::{run_model, Row};
use crate::set::Set;
use crate::step::{accept_configuration, step_model, Place};

/// Room for any file that the rewriting makes.
const ROOM: usize = 65_536;

/// What was refused, and the refusal.
pub type Refused = (&'static str, u8);

/// What is printed for a command on a file; nothing if it is no command or typed wrong.
pub fn chart(command: &str, file: &[u8], words: &[&str]) -> Option<String> {
    let answer = match (command, words) {
        ("check", []) => accept(file)
            .map(|_| "accepted\n".to_string())
            .map_err(of_file),
        ("first", []) => first(file),
        ("interface", []) => faces(file),
        ("plain", []) => plainness(file),
        ("lacking", [chart, place, set]) => {
            let (chart, place) = (chart.parse().ok()?, place.parse().ok()?);
            lacks(file, chart, place, typed_set(set)?)
        }
        ("why", [config, set]) => why(file, &configuration(config)?, typed_set(set)?),
        ("step", [config, set]) => one_step(file, &configuration(config)?, typed_set(set)?),
        ("run", [config, sets @ ..]) => {
            let sets: Option<Vec<Set>> = sets.iter().map(|set| typed_set(set)).collect();
            rows_and_carried(file, &configuration(config)?, &sets?)
        }
        ("rewrite", []) => rewritten(file).map(|out| format!("{} bytes written\n", out.len())),
        ("clear", []) => cleared(file).and_then(|out| lost(file, &out)),
        ("edition", [edition @ ("1" | "2")]) => under_edition(file, edition.parse().ok()?)
            .map(|out| format!("{} bytes written\n", out.len())),
        ("read", []) => file_typed(file).map(|out| format!("{} bytes written\n", out.len())),
        ("write", []) => text(file).map(|text| text + "\n"),
        ("show", []) => text(file).map(|text| laid_out(&text)),
        _ => return None,
    };
    Some(answer.unwrap_or_else(|(what, number)| format!("{what} refused {number}\n")))
}

/// The rewritten file.
pub fn rewritten(file: &[u8]) -> Result<Vec<u8>, Refused> {
    accept(file).map_err(of_file)?;
    let mut out = vec![0; ROOM];
    let done = rewrite(file, &mut out);
    if done.refusal != refusal::SUCCESS {
        return Err(("rewriting", done.refusal));
    }
    out.truncate(done.length);
    Ok(out)
}

/// The file without its dead transitions.
pub fn cleared(file: &[u8]) -> Result<Vec<u8>, Refused> {
    accept(file).map_err(of_file)?;
    let mut out = vec![0; ROOM];
    let done = clear(file, &mut out);
    if done.refusal != refusal::SUCCESS {
        return Err(("clearing", done.refusal));
    }
    out.truncate(done.length);
    Ok(out)
}

/// The file with another edition in its trailer.
pub fn under_edition(file: &[u8], edition: u8) -> Result<Vec<u8>, Refused> {
    accept(file).map_err(of_file)?;
    let mut out = file.to_vec();
    out[file.len() - TRAILER_BYTES + EDITION_AT] = edition;
    accept(&out).map_err(of_file)?;
    Ok(out)
}

/// A line for each chart that lost transitions.
fn lost(file: &[u8], cleared: &[u8]) -> Result<String, Refused> {
    let (old, new) = (
        accept(file).map_err(of_file)?,
        accept(cleared).map_err(of_file)?,
    );
    let charts = old.charts.iter().zip(&new.charts).enumerate();
    Ok(charts
        .filter_map(|(c, (before, after))| {
            match before.transitions.len() - after.transitions.len() {
                0 => None,
                1 => Some(format!("chart {c} lost 1 transition\n")),
                n => Some(format!("chart {c} lost {n} transitions\n")),
            }
        })
        .collect())
}

/// The file that a text means.
pub fn file_typed(text: &[u8]) -> Result<Vec<u8>, Refused> {
    file_of(text).map_err(|(number, _)| ("text", number))
}

/// The text of a file.
fn text(file: &[u8]) -> Result<String, Refused> {
    accept(file).map_err(of_file)?;
    text_of(file).map_err(|number| ("writing", number))
}

/// A refusal of the file.
fn of_file(number: u8) -> Refused {
    ("file", number)
}

/// The first configuration's line.
fn first(file: &[u8]) -> Result<String, Refused> {
    let model = accept(file).map_err(of_file)?;
    let states: Vec<String> = first_configuration(&model)
        .iter()
        .map(u8::to_string)
        .collect();
    Ok(states.join(".") + "\n")
}

/// The lines of both interfaces.
fn faces(file: &[u8]) -> Result<String, Refused> {
    accept(file).map_err(of_file)?;
    let found = interface(file);
    let (input, output) = (found.input, found.output);
    Ok(format!(
        "in {}  {}\nout {}  {}\n",
        input.hex(),
        shown(input),
        output.hex(),
        shown(output)
    ))
}

/// Whether the file is plain, in words.
fn plainness(file: &[u8]) -> Result<String, Refused> {
    let model = accept(file).map_err(of_file)?;
    let words = if is_plain(&model) {
        "plain\n"
    } else {
        "not plain\n"
    };
    Ok(words.to_string())
}

/// What a transition lacks, in words.
fn lacks(file: &[u8], chart: u64, place: u64, offered: Set) -> Result<String, Refused> {
    accept(file).map_err(of_file)?;
    let shown = lacking(file, chart, place, offered).map_err(|number| ("question", number))?;
    Ok(shown.words() + "\n")
}

/// The same of each transition that leaves the present state of its chart.
fn why(file: &[u8], configuration: &[u8], set: Set) -> Result<String, Refused> {
    let model = accept(file).map_err(of_file)?;
    accept_configuration(&model, configuration).map_err(|number| ("configuration", number))?;
    let mut lines = String::new();
    for (number, (chart, &state)) in model.charts.iter().zip(configuration).enumerate() {
        for (place, transition) in chart.transitions.iter().enumerate() {
            if transition.from == state {
                let words = shown_by(chart, transition, set).words();
                lines += &format!("chart {number} transition {place} {words}\n");
            }
        }
    }
    Ok(lines + "under the input alone; what charts feed back to each other may change this\n")
}

/// A line for each set, nothing being carried to the first: the day program's, and the output as
/// signals. Beside them what is carried after the last.
fn rows(file: &[u8], configuration: &[u8], sets: &[Set]) -> Result<(String, Set), Refused> {
    let model = accept(file).map_err(of_file)?;
    accept_configuration(&model, configuration).map_err(|number| ("configuration", number))?;
    let (rows, carried) = run_model(&model, configuration, Set::EMPTY, sets);
    let lines = rows
        .iter()
        .zip(1..)
        .map(|(row, number)| row_line(number, row))
        .collect();
    Ok((lines, carried))
}

/// The lines of a run, and one for what is carried after it, if that is something.
fn rows_and_carried(file: &[u8], configuration: &[u8], sets: &[Set]) -> Result<String, Refused> {
    let (lines, carried) = rows(file, configuration, sets)?;
    if carried == Set::EMPTY {
        return Ok(lines);
    }
    Ok(format!(
        "{lines}carried to the next set  {}\n",
        shown(carried)
    ))
}

/// The line of a run of one set; a line for each chart of a step that is given: which transition it
/// took, or that it stayed; and the number of open choices, if the step is given or refused with 24.
fn one_step(file: &[u8], configuration: &[u8], set: Set) -> Result<String, Refused> {
    let (row, _) = rows(file, configuration, &[set])?;
    let model = accept(file).map_err(of_file)?;
    let lines = match step_model(&model, configuration, set) {
        Ok(verdict) => {
            let took: String = verdict.choice.iter().enumerate().map(took).collect();
            took + &open(verdict.open)
        }
        Err(refused) if refused.number < refusal::MANY_OPEN => String::new(),
        Err(refused) => open(refused.open),
    };
    Ok(row + &lines)
}

fn open(number: u64) -> String {
    match number {
        1 => "1 open choice\n".to_string(),
        many => format!("{many} open choices\n"),
    }
}

fn took((chart, place): (usize, &Place)) -> String {
    match place {
        Place::None => format!("chart {chart} took no transition\n"),
        Place::Transition(place) => format!("chart {chart} took transition {place}\n"),
        Place::Stay => format!("chart {chart} stayed\n"),
    }
}

fn row_line(number: usize, row: &Row) -> String {
    let line = line(number, row);
    if row.refusal != refusal::SUCCESS {
        return line;
    }
    format!("{}  {}\n", line.trim_end(), shown(row.output))
}

/// A set as signals, `-` for none.
fn shown(set: Set) -> String {
    let signals: Vec<String> = set.signals().map(|signal| format!("s{signal}")).collect();
    if signals.is_empty() {
        return "-".to_string();
    }
    signals.join(",")
}

/// States with dots between.
fn configuration(word: &str) -> Option<Vec<u8>> {
    word.split('.').map(|state| state.parse().ok()).collect()
}

/// `-`, `0x` and hex digits, or signals with commas between.
fn typed_set(word: &str) -> Option<Set> {
    if word == "-" {
        return Some(Set::EMPTY);
    }
    if let Some(digits) = word.strip_prefix("0x") {
        return u64::from_str_radix(digits, 16).ok().map(Set);
    }
    let signals: Option<Vec<u32>> = word.split(',').map(signal).collect();
    signals.map(|signals| Set::of(&signals))
}

fn signal(word: &str) -> Option<u32> {
    let number: u32 = word.strip_prefix('s')?.parse().ok()?;
    (number < SIGNALS).then_some(number)
}
