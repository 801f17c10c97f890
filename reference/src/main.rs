//! The command line:
//!
//! - `reference record KIND COMMANDS LINES` writes the recorded calls of a kind (`file`, `step`,
//!   `run`, `rewrite`, `plain`, `clear`, `lacking`, `read` or `write`) to the file COMMANDS and the lines
//!   they answer to the file LINES; of the kind `post` the recorded postings.
//! - `reference file NAME` prints the file of a named case.
//! - `reference show` reads recorded calls on standard input and prints the lines they answer.
//! - `reference day` reads the day program's input on standard input and prints what it prints.
//! - `reference chart WORDS..` prints what the command line tool prints for words that are typed
//!   right, a refusal by its number alone.
//! - `reference fuzz SEED COUNT`, with the feature `engine`, makes so many random calls here and in
//!   the proved engine, and a tenth of that in postings, and compares; the first difference is printed
//!   with the call.
//! - `reference same SEED COUNT`, with the feature `engine`, rewrites so many random files with slaves
//!   here and in the proved engine, and compares the engine's steps of old and new file from every
//!   configuration; prints how many of each kind were compared.
//! - `reference replay`, with the feature `engine`, reads recorded postings on standard input, makes
//!   each in the proved engine and prints the lines it answers.
//! - `reference laws SEED COUNT` tries two laws of composed nodes on so many random files of both
//!   editions, from every configuration; with the feature `engine`, also in the proved engine.
//! - `reference cleared SEED COUNT` clears so many random files and compares old and new file, from
//!   every configuration; with the feature `engine`, also in the proved engine.
//! - `reference written SEED COUNT` writes so many random files as text, reads them back and compares old
//!   and new file, from every configuration; with the feature `engine`, also in the proved engine.

use reference::command::decode_all;
use reference::laws::{self, Engine, REFERENCE};
use reference::record::{commands, encode, lines, named, Kind, KINDS};
use reference::words;
use reference::{book, chart, cleared, written as read_back};
use std::fmt::Display;
use std::io::{Read, Write};
use std::process::ExitCode;

/// What can be said on the command line.
const USE: &str =
    "use: reference record KIND COMMANDS LINES | file NAME | show | day | chart WORDS.. \
    | replay | laws SEED COUNT | cleared SEED COUNT | written SEED COUNT | fuzz SEED COUNT | same SEED COUNT";

fn main() -> ExitCode {
    words::done(|words| match *words {
        ["record", "post", calls, answers] => record_posts(calls, answers),
        ["record", kind, calls, answers] => record(kind, calls, answers),
        ["file", name] => file(name),
        ["show"] => show(),
        ["day"] => day(),
        ["chart", "rewrite", file, out] => written("rewrite", file, &[], out, chart::rewritten),
        ["chart", "clear", file, out] => written("clear", file, &[], out, chart::cleared),
        ["chart", "edition", file, edition, out] => {
            let number = edition.parse().map_err(|_| USE)?;
            let make = |file: &[u8]| chart::under_edition(file, number);
            written("edition", file, &[edition], out, make)
        }
        ["chart", "read", text, out] => written("read", text, &[], out, chart::file_typed),
        ["chart", command, file, ref words @ ..] => answer(command, file, words),
        ["replay"] => replay(),
        ["laws", seed, count] => told("laws", seed, count, laws::hold),
        ["cleared", seed, count] => told("cleared", seed, count, cleared::hold),
        ["written", seed, count] => told("written", seed, count, read_back::hold),
        [command @ ("fuzz" | "same"), seed, count] => hold_engine(command, seed, count),
        _ => Err(USE.to_string()),
    })
}

/// Writes the calls of a kind and their lines.
fn record(kind: &str, calls: &str, answers: &str) -> Result<(), String> {
    let kind = Kind::of(kind).ok_or(
        "the kinds are file, step, run, rewrite, plain, clear, lacking, read, write, post",
    )?;
    let commands = commands(kind);
    write(calls, &encode(&commands))?;
    write(answers, lines(&commands).as_bytes())?;
    eprintln!("{} calls", commands.len());
    Ok(())
}

/// Writes the recorded postings and their lines.
fn record_posts(calls: &str, answers: &str) -> Result<(), String> {
    let posts = book::recorded();
    write(calls, &book::encode(&posts))?;
    write(answers, book::lines(&posts, reference::post).as_bytes())?;
    eprintln!("{} postings", posts.len());
    Ok(())
}

/// Prints the lines of the postings on standard input, made in the proved engine.
#[cfg(feature = "engine")]
fn replay() -> Result<(), String> {
    let posts = book::decode_all(&standard_input()?)?;
    print(book::lines(&posts, reference::fuzz::post::raw).as_bytes())
}

/// Without the engine there is nothing to make them in.
#[cfg(not(feature = "engine"))]
fn replay() -> Result<(), String> {
    Err("replay: not built with the feature `engine`".to_string())
}

/// Prints the file of a named case.
fn file(name: &str) -> Result<(), String> {
    let cases = KINDS.into_iter().flat_map(named);
    let mut files = cases.filter(|case| case.command.name == name);
    let case = files.next().ok_or("there is no case of this name")?;
    print(&case.command.file)
}

/// Prints the lines of the calls on standard input.
fn show() -> Result<(), String> {
    let commands = decode_all(&standard_input()?)?;
    print(lines(&commands).as_bytes())
}

/// Prints what the day program prints.
fn day() -> Result<(), String> {
    print(&reference::day(&standard_input()?))
}

/// Prints the command line tool's answer.
fn answer(command: &str, file: &str, words: &[&str]) -> Result<(), String> {
    let answer = chart::chart(command, &read(file)?, words).ok_or(USE)?;
    print(answer.as_bytes())
}

/// The same of a command that also writes a file, which is made of a file or of a text.
fn written(
    command: &str,
    file: &str,
    words: &[&str],
    out: &str,
    make: impl Fn(&[u8]) -> Result<Vec<u8>, chart::Refused>,
) -> Result<(), String> {
    if let Ok(bytes) = make(&read(file)?) {
        write(out, &bytes)?;
    }
    answer(command, file, words)
}

/// The engines that laws are asked of.
#[cfg(feature = "engine")]
const ENGINES: &[Engine] = &[REFERENCE, ("engine", reference::fuzz::engine::raw)];
#[cfg(not(feature = "engine"))]
const ENGINES: &[Engine] = &[REFERENCE];

/// What tries a law on so many random files, by some engines, and tells how much was tried.
type Hold<T> = fn(u64, usize, &[Engine]) -> Result<T, String>;

/// Tries a law on so many random files.
fn told<T: Display>(law: &str, seed: &str, count: &str, hold: Hold<T>) -> Result<(), String> {
    let (seed, count) = numbers(seed, count)?;
    let tried = hold(seed, count, ENGINES).map_err(|what| format!("{law}: {what}"))?;
    let names: Vec<&str> = ENGINES.iter().map(|(name, _)| *name).collect();
    let line = format!("{law}: {tried} (seed {seed}; {})\n", names.join(", "));
    print(line.as_bytes())
}

/// A seed and a number of calls or files.
fn numbers(seed: &str, count: &str) -> Result<(u64, usize), String> {
    let seed = seed.parse().map_err(|_| USE)?;
    let count = count.parse().map_err(|_| USE)?;
    Ok((seed, count))
}

/// Compares the proved engine with this one on so many random calls or files.
#[cfg(feature = "engine")]
fn hold_engine(command: &str, seed: &str, count: &str) -> Result<(), String> {
    let (seed, count) = numbers(seed, count)?;
    let what = match command {
        "fuzz" => {
            let posts = reference::fuzz::agree(seed, count)?;
            format!("{count} commands and {posts} postings agree")
        }
        _ => reference::fuzz::same::agree(seed, count)?.to_string(),
    };
    print(format!("{command}: {what} (seed {seed})\n").as_bytes())
}

/// Without the engine there is nothing to compare with.
#[cfg(not(feature = "engine"))]
fn hold_engine(command: &str, _: &str, _: &str) -> Result<(), String> {
    Err(format!("{command}: not built with the feature `engine`"))
}

/// All of standard input.
fn standard_input() -> Result<Vec<u8>, String> {
    let mut bytes = Vec::new();
    let read = std::io::stdin().read_to_end(&mut bytes);
    read.map_err(|what| what.to_string())?;
    Ok(bytes)
}

/// Prints bytes.
fn print(bytes: &[u8]) -> Result<(), String> {
    let written = std::io::stdout().write_all(bytes);
    written.map_err(|what| what.to_string())
}

/// Reads a file.
fn read(path: &str) -> Result<Vec<u8>, String> {
    std::fs::read(path).map_err(|what| format!("{path}: {what}"))
}

/// Writes a file.
fn write(path: &str, bytes: &[u8]) -> Result<(), String> {
    std::fs::write(path, bytes).map_err(|what| format!("{path}: {what}"))
}
