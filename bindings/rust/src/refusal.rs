//! Why a call was refused.

use std::error::Error;
use std::fmt::{self, Display, Formatter};
use std::num::NonZeroU8;

/// The refusal of a call. It prints as its number and why the call was refused.
#[derive(Clone, Copy, PartialEq, Eq, PartialOrd, Ord, Hash, Debug)]
pub struct Refusal(NonZeroU8);

/// Why a call is refused, by number (RULES 3). The day program's numbers are not here: no call gives them.
const WORDS: [(u8, &str); 32] = [
    (1, "fewer than 12 bytes, so there is no trailer"),
    (2, "the edition is neither 1 nor 2"),
    (
        3,
        "a count in the trailer is out of range: 1 to 16 charts, up to 15 slaves, 1 to 64 \
         nodes, up to 1024 transitions",
    ),
    (
        4,
        "the distance in the trailer is not the size of the body, or the file is too short for it",
    ),
    (5, "a byte that has to be zero is not"),
    (
        6,
        "a chart needs 1 to 16 states, an initial state among them and at most 64 \
         transitions, and all transitions have to add up to the trailer's number",
    ),
    (
        7,
        "a transition leaves or enters a state that its chart does not have, or more than 8 \
         leave one state",
    ),
    (
        8,
        "a slave names a chart, a state or a node that does not exist, or the slaves are not \
         in order of chart and state",
    ),
    (
        9,
        "a node has a kind above 2, holds a chart that does not exist, names a node that is \
         not lower, or fills a field that its kind does not use",
    ),
    (
        10,
        "the nodes do not make one tree: every chart is in one node, every node but the last \
         has one name, and a slave's node is lower than its master's",
    ),
    (
        11,
        "a chart inside a slave has a number that is not above that of the slave's master",
    ),
    (20, "there is not exactly one state for each chart"),
    (21, "a state is not one of its chart's"),
    (22, "the buffer is shorter than a configuration"),
    (23, "no choice is permitted"),
    (24, "more than 16777216 choices are open"),
    (25, "there is no chart of this number"),
    (26, "the chart's list has no such place"),
    (27, "run: the buffer is shorter than a row for each input"),
    (40, "rewriting: there are fewer free signals than slaves"),
    (
        41,
        "rewriting: more than 8 transitions would leave one state",
    ),
    (42, "rewriting: a chart would have more than 64 transitions"),
    (44, "rewriting: there would be more than 64 nodes"),
    (45, "the buffer is shorter than the result"),
    (
        46,
        "edition 2, in which charts may stay; only edition 1 can be rewritten, cleared or written as text",
    ),
    (50, "the text is not of the notation"),
    (51, "the chart is nested more than 16 deep"),
    (
        52,
        "a name is out of range, or the charts or the states of a chart are not typed as they have to be: \
         each number from 0 on once, the initial state first, and no state used that its chart does not have",
    ),
    (60, "posting: a book needs 1 to 64 cases"),
    (
        61,
        "posting: an entry is for a case that is not in the book",
    ),
    (
        62,
        "posting: a case's last row has the number 4294967295, the highest there is",
    ),
    (
        63,
        "posting: the buffer is shorter than a row for each case",
    ),
];

impl Refusal {
    /// The refusal of this number; none if it is 0.
    pub fn of(number: u8) -> Option<Refusal> {
        NonZeroU8::new(number).map(Refusal)
    }

    /// Success if a call returned 0, else its refusal.
    pub(crate) fn unless_zero(number: u8) -> Result<(), Refusal> {
        match Refusal::of(number) {
            None => Ok(()),
            Some(refusal) => Err(refusal),
        }
    }

    /// Its number (RULES 3).
    pub fn number(self) -> u8 {
        self.0.get()
    }

    /// Why the call was refused.
    pub fn words(self) -> &'static str {
        let found = WORDS.iter().find(|(number, _)| *number == self.number());
        found.map_or("no refusal of a call", |(_, words)| words)
    }
}

impl Display for Refusal {
    fn fmt(&self, out: &mut Formatter) -> fmt::Result {
        write!(out, "refused {}: {}", self.number(), self.words())
    }
}

impl Error for Refusal {}

/// A step that was refused: why, and the number of open choices that was answered with it, which is
/// 0 unless the refusal is 24 (RULES 5.15). It prints as the refusal does, and in 24 with the number.
#[derive(Clone, Copy, PartialEq, Eq, Debug)]
pub struct RefusedStep {
    pub refusal: Refusal,
    pub open: u64,
}

impl RefusedStep {
    /// The refusal's number.
    pub fn number(self) -> u8 {
        self.refusal.number()
    }
}

impl Display for RefusedStep {
    fn fmt(&self, out: &mut Formatter) -> fmt::Result {
        match self.open {
            0 => self.refusal.fmt(out),
            open => write!(out, "{}: {open}", self.refusal),
        }
    }
}

impl Error for RefusedStep {}

/// The refusal alone, as other calls give it.
impl From<RefusedStep> for Refusal {
    fn from(refused: RefusedStep) -> Refusal {
        refused.refusal
    }
}
