//! What a transition lacks (RULES 13): whether its guard is met under an offered set, and if not,
//! the signal that is to blame.

use crate::check::accept;
use crate::limits::refusal;
use crate::model::{Chart, Model, Transition};
use crate::set::Set;

/// What testing a guard shows (RULES 5.6).
#[derive(Clone, Copy, PartialEq, Eq, Debug)]
pub enum Shown {
    Met,
    /// The lowest needed signal that is not there.
    Absent(u32),
    /// The lowest barred signal that is there, where no needed one is missing.
    Present(u32),
}

impl Shown {
    /// The answer in numbers (RULES 13.2): which of the three it is, and its signal.
    pub fn numbers(self) -> (u64, u64) {
        match self {
            Shown::Met => (0, 0),
            Shown::Absent(signal) => (1, u64::from(signal)),
            Shown::Present(signal) => (2, u64::from(signal)),
        }
    }

    /// The answer in words.
    pub fn words(self) -> String {
        match self {
            Shown::Met => "met".to_string(),
            Shown::Absent(signal) => format!("needs s{signal}, which is not offered"),
            Shown::Present(signal) => format!("bars s{signal}, which is offered"),
        }
    }
}

/// The call `lacking`. Refusals 1 to 11, 25, 26.
pub fn lacking(file: &[u8], chart: u64, place: u64, offered: Set) -> Result<Shown, u8> {
    let model = accept(file)?;
    let chart = chart_at(&model, chart).ok_or(refusal::QUESTION_CHART)?;
    let transition = transition_at(chart, place).ok_or(refusal::QUESTION_PLACE)?;
    Ok(shown(chart, transition, offered))
}

/// The chart of a number of any size.
fn chart_at(model: &Model, number: u64) -> Option<&Chart> {
    model.charts.get(usize::try_from(number).ok()?)
}

/// The transition at a place of any size.
fn transition_at(chart: &Chart, place: u64) -> Option<&Transition> {
    chart.transitions.get(usize::try_from(place).ok()?)
}

/// The guard on the offered set, joined with what the chart feeds back of the transition's own
/// action (RULES 13.1): its signals are looked at one by one, rising, the needed ones first.
pub fn shown(chart: &Chart, transition: &Transition, offered: Set) -> Shown {
    let there = offered.joined(transition.action.cut(chart.feedback));
    let is_there = |signal: &u32| there.holds_all(Set::one(*signal));
    let mut needed = transition.needed.signals();
    if let Some(signal) = needed.find(|signal| !is_there(signal)) {
        return Shown::Absent(signal);
    }
    match transition.barred.signals().find(is_there) {
        Some(signal) => Shown::Present(signal),
        None => Shown::Met,
    }
}
