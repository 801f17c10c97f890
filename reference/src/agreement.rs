//! The places of a file's step and of its rewritten file's (RULES 9.8): they are equal, but where a
//! chart of the old file has 255 in a step that is given, the new one has an idle transition.

use crate::limits::{refusal, NO_PLACE};
use crate::model::{Model, Transition};
use crate::rewriting::calls;
use crate::set::Set;
use crate::step::Places;

/// A file, the file that it is rewritten into, and the call signals of the old one's slaves.
pub struct Agreement<'a> {
    old: &'a Model,
    new: &'a Model,
    calls: Vec<Set>,
}

impl<'a> Agreement<'a> {
    /// The old file is not refused with 40.
    pub fn new(old: &'a Model, new: &'a Model) -> Agreement<'a> {
        let calls = calls(old).expect("a call for each slave");
        Agreement { old, new, calls }
    }

    /// Whether the places of a step from a configuration agree; both files give it this refusal.
    pub fn holds(&self, at: &[u8], number: u8, old: &Places, new: &Places) -> bool {
        let is_given = number == refusal::SUCCESS;
        (0..old.len()).all(|chart| match at.get(chart) {
            Some(&state) if is_given && old[chart] == NO_PLACE => {
                self.is_idle(chart, state, new[chart])
            }
            _ => old[chart] == new[chart],
        })
    }

    /// Whether a place of the new chart's list is that of its idle transition of a state: one from
    /// the state to itself that bars the call signal of the chart's nearest slave, without action,
    /// after the chart's own transitions (RULES 9.3).
    fn is_idle(&self, chart: usize, state: u8, place: u8) -> bool {
        let own = self.old.charts[chart].transitions.len();
        let idle = |slave: usize| Transition {
            from: state,
            to: state,
            needed: Set::EMPTY,
            barred: self.calls[slave],
            action: Set::EMPTY,
        };
        let expected = self.old.nearest_slave(chart as u8).map(idle);
        let list = &self.new.charts[chart].transitions;
        expected.is_some()
            && list.get(usize::from(place)) == expected.as_ref()
            && usize::from(place) == own + usize::from(state)
    }
}
