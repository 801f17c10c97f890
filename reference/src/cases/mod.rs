//! Calls with a name. The refusal of each is written by hand beside it, from docs/RULES.md; the
//! tests compare the engine's with it.

pub mod charts;
pub mod clear;
pub mod damage;
pub mod file;
pub mod first_interface;
pub mod lacking;
pub mod many;
pub mod plain;
pub mod read;
pub mod rewrite;
pub mod rows;
pub mod run;
pub mod second;
pub mod step;
pub mod write;

use crate::command::Command;
use crate::limits::refusal;

/// A named call and its refusal by RULES 3.
pub struct Case {
    pub command: Command,
    pub refusal: u8,
}

/// Lengths of a buffer for the configuration of so many charts, by a word, and what they give.
pub fn configuration_rooms(charts: usize, much: usize) -> [(&'static str, usize, u8); 5] {
    [
        ("empty", 0, refusal::CONFIGURATION_ROOM),
        ("one-short", charts - 1, refusal::CONFIGURATION_ROOM),
        ("exact", charts, refusal::SUCCESS),
        ("one-longer", charts + 1, refusal::SUCCESS),
        ("much-longer", charts + much, refusal::SUCCESS),
    ]
}

impl Case {
    /// A call and its refusal.
    pub fn new(command: Command, refusal: u8) -> Case {
        Case { command, refusal }
    }
}
