//! A chart engine in plain Rust that follows docs/RULES.md, cited here as `RULES 5.7`, as naively
//! as the rules allow. It is made to be read beside them and to be compared with other engines, not
//! to be fast. It is independent of the proved engine.
//!
//! The rules, by module:
//!
//! - [`limits`]: the limits and the refusal numbers, each by name (RULES 2.8, 3).
//! - [`set`]: signal sets (RULES 1.2).
//! - [`file`]: the bytes as records and back, nothing checked (RULES 2.1 to 2.6).
//! - [`model`]: an accepted file as charts, slaves and nodes (RULES 2.7).
//! - [`check`]: refusals 1 to 11 (RULES 3.2).
//! - [`first`]: the first configuration (RULES 6.1).
//! - [`interface`]: input and output interface (RULES 4).
//! - [`step`]: a step of either edition, its places, refusals 20 to 24 (RULES 5).
//! - [`open`]: the number of open choices (RULES 5.15).
//! - [`run`]: a run, what it carries, refusal 27 (RULES 6).
//! - [`rewriting`]: the rewriting, refusals 40 to 46 (RULES 9).
//! - [`clearing`]: the file without its dead transitions, refusals 46 and 45 (RULES 12).
//! - [`plain`]: whether a file is plain (RULES 8).
//! - [`lacking`]: what a transition lacks, refusals 25 and 26 (RULES 13).
//! - [`agreement`]: the places of a step of the rewritten file (RULES 9.8).
//! - [`day`]: the day program, refusals 30 and 31 (RULES 10).
//! - [`posting`]: a day's posting for a book, refusals 60 to 63 (RULES 11).
//! - [`notation`]: charts from typed text, refusals 50 to 52, and text out of files, refusals 46, 51
//!   and 45 (RULES 14 and 15, docs/NOTATION.md).
//! - [`chart`]: the command line tool's answers.
//!
//! What the comparison needs: [`command`] (one call as bytes, its answer as a line), [`cases`]
//! (calls with a name and an answer written by hand), [`generate`] (random calls from fixed seeds),
//! [`record`] (what is recorded of each kind), [`draw`] (random calls of every kind), [`book`] (the
//! same of postings), [`texts`] (random typed texts) and [`walk`] (random files with slaves, and all their configurations). [`laws`] tries two laws of composed
//! nodes on random files (RULES 5.13, 5.14), [`cleared`] compares them with their cleared ones, and
//! [`written`] with what is read back of their texts. With the feature `engine` also `fuzz`, which compares
//! the proved engine with this one. [`words`] is what a program does with its command line.

pub mod agreement;
pub mod book;
pub mod cases;
pub mod chart;
pub mod check;
pub mod cleared;
pub mod clearing;
pub mod command;
pub mod day;
pub mod draw;
pub mod file;
pub mod first;
#[cfg(feature = "engine")]
pub mod fuzz;
pub mod generate;
pub mod interface;
pub mod lacking;
pub mod laws;
pub mod limits;
pub mod model;
pub mod notation;
pub mod open;
pub mod pair;
pub mod plain;
pub mod posting;
pub mod record;
pub mod rewriting;
pub mod run;
pub mod set;
pub mod step;
pub mod texts;
pub mod walk;
pub mod words;
pub mod written;

pub use check::check;
pub use clearing::{clear, Cleared};
pub use day::day;
pub use first::first;
pub use interface::{interface, Interface};
pub use lacking::{lacking, Shown};
pub use notation::write::{write, Written};
pub use notation::{read, ReadText};
pub use plain::{plain, Plain};
pub use posting::{post, CaseRecord, Entry};
pub use rewriting::{rewrite, Rewritten};
pub use run::{run, run_plainly, Ran};
pub use set::Set;
pub use step::{step, step_plainly, Places, Refused, Stepped};
