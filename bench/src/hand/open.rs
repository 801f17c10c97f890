//! How many choices are open, from the highest chart down.

use super::layout::Body;
use super::search::from_state;

/// A chart's nearest slave: its master and the master's state.
type Masters<const N: usize> = [Option<(usize, u8)>; N];

/// How many open choices each chart has with everything inside it while it is active, and how many the
/// whole has.
pub struct Open<'a, const N: usize> {
    masters: &'a Masters<N>,
    charts: usize,
    has_slaves: bool,
    counts: [u64; N],
    pub total: u64,
}

impl<'a, const N: usize> Open<'a, N> {
    /// The numbers from a configuration.
    pub fn counted(body: &Body, masters: &'a Masters<N>, config: &[u8]) -> Open<'a, N> {
        let mut open = Open {
            masters,
            charts: body.charts,
            has_slaves: body.slaves > 0,
            counts: [0; N],
            total: 1,
        };
        let mut next = body.transitions;
        for c in (0..body.charts).rev() {
            let last = next;
            next -= usize::from(body.chart(c).transitions);
            let moves = from_state(body, next, last, config[c]);
            let taken: u64 = moves.map(|(_, t)| open.branch(c, config[c], t.to)).sum();
            let stays = match body.may_stay() {
                true => open.branch(c, config[c], config[c]),
                false => 0,
            };
            open.counts[c] = taken + stays;
            if masters[c].is_none() {
                open.total *= open.counts[c];
            }
        }
        open
    }

    /// The product over the charts that are nearest in a slave which chart c activates by going from one
    /// state to another.
    fn branch(&self, c: usize, from: u8, to: u8) -> u64 {
        if !self.has_slaves {
            return 1;
        }
        let active = |&d: &usize| match self.masters[d] {
            Some((master, state)) => master == c && (state == from || state == to),
            None => false,
        };
        let inside = (c + 1..self.charts).filter(active);
        inside.map(|d| self.counts[d]).product()
    }

    /// Whether chart c begins an open choice by going from one state to another.
    pub fn goes_on(&self, c: usize, from: u8, to: u8) -> bool {
        self.branch(c, from, to) > 0
    }
}
