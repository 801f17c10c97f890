//! Clearing out dead transitions (RULES 12).

use crate::check::{accept, refuse_if};
use crate::limits::refusal;
use crate::model::{Chart, Edition, Model, Transition};
use crate::set::Set;

/// The answer of [`clear`].
#[derive(Clone, PartialEq, Eq, Debug)]
pub struct Cleared {
    pub refusal: u8,
    pub length: usize,
}

/// The call `clear`. It tests 1 to 11, 46, 45 (RULES 12.4). Writes the cleared file, which has no
/// front, to the front of the buffer. The length of a refused one is 0.
pub fn clear(file: &[u8], room: &mut [u8]) -> Cleared {
    match try_clear(file, room.len()) {
        Ok(written) => {
            room[..written.len()].copy_from_slice(&written);
            Cleared {
                refusal: refusal::SUCCESS,
                length: written.len(),
            }
        }
        Err(number) => Cleared {
            refusal: number,
            length: 0,
        },
    }
}

/// The file to be written, or the refusal.
fn try_clear(file: &[u8], room: usize) -> Result<Vec<u8>, u8> {
    let model = accept(file)?;
    refuse_if(model.edition == Edition::Second, refusal::REWRITING_EDITION)?;
    let written = clear_model(&model).file();
    refuse_if(room < written.len(), refusal::REWRITING_ROOM)?;
    Ok(written)
}

/// The file with each of its charts cleared; slaves and nodes are the same (RULES 12.3).
pub fn clear_model(model: &Model) -> Model {
    Model {
        charts: model.charts.iter().map(clear_chart).collect(),
        ..model.clone()
    }
}

/// A chart with the transitions that are not dead, in their order. Signals that are in none of its
/// guards any more join its extra set, so that its input interface is the same.
fn clear_chart(chart: &Chart) -> Chart {
    let alive = chart.transitions.iter().filter(|t| !is_dead(chart, t));
    let transitions: Vec<Transition> = alive.cloned().collect();
    let lost = guards(&chart.transitions).less(guards(&transitions));
    Chart {
        extra: chart.extra.joined(lost),
        transitions,
        ..chart.clone()
    }
}

/// Whether a transition of a chart is dead: it needs a signal that it bars, or it bars one that it
/// outputs and its own chart feeds back (RULES 12.2).
pub fn is_dead(chart: &Chart, transition: &Transition) -> bool {
    let own_feedback = transition.action.cut(chart.feedback);
    let prevented = transition.needed.joined(own_feedback);
    !transition.barred.holds_none(prevented)
}

/// The signals that some guards name.
fn guards(transitions: &[Transition]) -> Set {
    Set::union(transitions.iter().map(|t| t.needed.joined(t.barred)))
}

/// The new place of a transition that is not dead: how many before it are not (RULES 12.5).
pub fn new_place(chart: &Chart, place: usize) -> usize {
    let before = chart.transitions[..place].iter();
    before.filter(|t| !is_dead(chart, t)).count()
}
