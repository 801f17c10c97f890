//! Named cases of reading typed text (RULES 14). Refusal and place of each are written by
//! hand beside it, or follow from how its text is made.

mod given;
mod refused;
mod wrong;

use super::Case;
use crate::command::Command;
use crate::limits::*;
use crate::notation::file_of;

/// A text, the length of the buffer, and what is answered.
pub struct Known {
    pub name: String,
    pub text: Vec<u8>,
    pub room: usize,
    pub refusal: u8,
    pub place: usize,
}

/// How many bytes longer than the file a buffer is that is not said to be of another length; that of
/// a refused text has these alone.
const SPARE: usize = 3;

/// All named cases of reading, as calls.
pub fn cases() -> Vec<Case> {
    let case = |known: Known| {
        let command = Command::read(&known.name, known.text, known.room);
        Case::new(command, known.refusal)
    };
    known().into_iter().map(case).collect()
}

/// All named cases of reading.
pub fn known() -> Vec<Known> {
    let lists = [given::known(), wrong::known(), refused::known()];
    lists.into_iter().flatten().collect()
}

impl Known {
    /// The same text with another buffer.
    fn into_room(self, room: usize) -> Known {
        Known { room, ..self }
    }
}

/// A text that is accepted, or refused with a number other than 50.
fn answers(name: &str, refusal: u8, text: impl AsRef<[u8]>) -> Known {
    Known {
        name: format!("read-{name}"),
        text: text.as_ref().to_vec(),
        room: file_of(text.as_ref()).map_or(0, |file| file.len()) + SPARE,
        refusal,
        place: 0,
    }
}

/// A text that is accepted.
fn accepted(name: &str, text: impl AsRef<[u8]>) -> Known {
    answers(name, refusal::SUCCESS, text)
}

/// A text that is refused with 50 at the end of its first half.
fn wrong(name: &str, before: impl AsRef<[u8]>, from_there: impl AsRef<[u8]>) -> Known {
    let (before, rest) = (before.as_ref(), from_there.as_ref());
    Known {
        place: before.len(),
        ..answers(name, refusal::NOTATION, [before, rest].concat())
    }
}

/// A text that breaks off.
fn breaks_off(name: &str, text: impl AsRef<[u8]>) -> Known {
    wrong(name, text, "")
}

/// A chart of one state without transitions.
fn small(number: usize) -> String {
    format!("(c{number},{{q0}},q0,{{}},{{}})")
}

/// A chart of this list of states.
fn with_states(number: usize, states: &str, initial: &str) -> String {
    format!("(c{number},{{{states}}},{initial},{{}},{{}})")
}

/// A chart of one state with so many transitions.
fn busy(number: usize, transitions: usize) -> String {
    let list = vec!["(q0,q0,/{})"; transitions].join(",");
    format!("(c{number},{{q0}},q0,{{}},{{{list}}})")
}

/// Two parts, composed.
fn composed(a: &str, b: &str) -> String {
    format!("{a}|{{}}|{b}")
}

/// The same as a part.
fn bracketed(a: &str, b: &str) -> String {
    format!("({})", composed(a, b))
}

/// A chart hidden so many times.
fn hidden(times: usize, chart: &str) -> String {
    format!("{}{chart}{}", "[".repeat(times), "]".repeat(times))
}

/// A master of one state and its slave.
fn decomposed(master: usize, slave: &str) -> String {
    format!("Dec{}by{{(q0,{slave})}}", small(master))
}

/// A chart of one transition with this guard and action.
fn one_transition(guard: &str, action: &str) -> String {
    format!("(c0,{{q0,q1}},q0,{{}},{{(q0,q1,{guard}/{{{action}}})}})")
}
