//! Signal sets (RULES 1.2): a number of 64 bits, one for each signal.

use crate::limits::{SET_BYTES, SIGNALS};

/// A set of signals, one bit each.
#[derive(Clone, Copy, PartialEq, Eq, Debug, Default)]
pub struct Set(pub u64);

impl Set {
    /// The set without a signal.
    pub const EMPTY: Set = Set(0);
    /// The set of all 64 signals.
    pub const FULL: Set = Set(u64::MAX);

    /// The set of one signal.
    pub fn one(signal: u32) -> Set {
        Set(1 << signal)
    }

    /// The set of the signals listed.
    pub fn of(signals: &[u32]) -> Set {
        Set::union(signals.iter().map(|&signal| Set::one(signal)))
    }

    /// The union of many sets.
    pub fn union(sets: impl Iterator<Item = Set>) -> Set {
        sets.fold(Set::EMPTY, Set::joined)
    }

    /// This set joined with the other.
    pub fn joined(self, other: Set) -> Set {
        Set(self.0 | other.0)
    }

    /// This set cut to the other: what is in both.
    pub fn cut(self, other: Set) -> Set {
        Set(self.0 & other.0)
    }

    /// This set less the other: what is in this one alone.
    pub fn less(self, other: Set) -> Set {
        Set(self.0 & !other.0)
    }

    /// Whether all signals of the other are in this set.
    pub fn holds_all(self, other: Set) -> bool {
        self.cut(other) == other
    }

    /// Whether no signal of the other is in this set.
    pub fn holds_none(self, other: Set) -> bool {
        self.cut(other) == Set::EMPTY
    }

    /// The signals in the set, rising.
    pub fn signals(self) -> impl Iterator<Item = u32> {
        (0..SIGNALS).filter(move |&signal| self.holds_all(Set::one(signal)))
    }

    /// The set as it is in a file: little-endian (RULES 1.2).
    pub fn bytes(self) -> [u8; SET_BYTES] {
        self.0.to_le_bytes()
    }

    /// The set as the day program prints it: 16 hex digits (RULES 10.3).
    pub fn hex(self) -> String {
        format!("{:016x}", self.0)
    }
}
