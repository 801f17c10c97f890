//! What a transition lacks (RULES 13).

use crate::{raw, Refusal, Set};
use std::fmt::{self, Display, Formatter};

/// What testing a guard shows. It prints as a sentence, such as `needs s3, which is not offered`.
#[derive(Clone, Copy, PartialEq, Eq, Hash, Debug)]
pub enum Tested {
    /// The guard is met.
    Met,
    /// The lowest signal that it needs and that is not there.
    Absent(u8),
    /// All that it needs is there; the lowest signal that it bars and that is there too.
    Present(u8),
}

impl Display for Tested {
    fn fmt(&self, f: &mut Formatter<'_>) -> fmt::Result {
        match self {
            Tested::Met => write!(f, "met"),
            Tested::Absent(signal) => write!(f, "needs s{signal}, which is not offered"),
            Tested::Present(signal) => write!(f, "bars s{signal}, which is offered"),
        }
    }
}

/// Tests the guard of the transition at a place of a chart's list, both counted from 0, on a set that
/// its chart is offered. What the transition's own action feeds back to its chart is there too.
/// Refusals 1 to 11, 25, 26.
pub fn lacking(file: &[u8], chart: usize, place: usize, offered: Set) -> Result<Tested, Refusal> {
    let (mut answer, mut signal) = (0, 0);
    // SAFETY: the pointers are those of a slice with this length and of two numbers of our own.
    Refusal::unless_zero(unsafe {
        raw::mestecur_lacking(
            file.as_ptr(),
            file.len(),
            chart,
            place,
            offered.0,
            &mut answer,
            &mut signal,
        )
    })?;
    Ok(match answer {
        0 => Tested::Met,
        1 => Tested::Absent(signal),
        _ => Tested::Present(signal),
    })
}
