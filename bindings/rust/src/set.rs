//! Sets of signals.

use std::fmt::{self, Display, Formatter};

/// A set of signals: bit n is signal n, from 0 to 63.
#[derive(Clone, Copy, PartialEq, Eq, Hash, Debug, Default)]
#[repr(transparent)]
pub struct Set(pub u64);

impl Set {
    /// The set without a signal.
    pub const EMPTY: Set = Set(0);

    /// Whether a signal is in the set.
    pub fn has(self, signal: u8) -> bool {
        signal < 64 && self.0 >> signal & 1 == 1
    }

    /// The signals in the set, rising.
    pub fn iter(self) -> Signals {
        Signals { left: self.0 }
    }
}

/// The signals listed; those over 63 are none.
impl FromIterator<u8> for Set {
    fn from_iter<I: IntoIterator<Item = u8>>(signals: I) -> Set {
        let bits = signals.into_iter().filter(|&signal| signal < 64);
        Set(bits.fold(0, |set, signal| set | 1 << signal))
    }
}

/// The signals listed.
impl<const N: usize> From<[u8; N]> for Set {
    fn from(signals: [u8; N]) -> Set {
        signals.into_iter().collect()
    }
}

impl IntoIterator for Set {
    type Item = u8;
    type IntoIter = Signals;

    fn into_iter(self) -> Signals {
        self.iter()
    }
}

/// Signals in braces, `{1,2}`, and `none` for the empty set.
impl Display for Set {
    fn fmt(&self, out: &mut Formatter) -> fmt::Result {
        if *self == Set::EMPTY {
            return out.write_str("none");
        }
        let signals: Vec<String> = self.iter().map(|signal| signal.to_string()).collect();
        write!(out, "{{{}}}", signals.join(","))
    }
}

/// The signals of a set, rising.
#[derive(Clone, Debug)]
pub struct Signals {
    left: u64,
}

impl Iterator for Signals {
    type Item = u8;

    fn next(&mut self) -> Option<u8> {
        if self.left == 0 {
            return None;
        }
        let signal = self.left.trailing_zeros() as u8;
        self.left &= self.left - 1;
        Some(signal)
    }
}
