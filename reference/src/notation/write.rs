//! Text out of a file (RULES 15, docs/NOTATION.md, section 6).

use crate::check::{accept, refuse_if};
use crate::limits::*;
use crate::model::{Chart, Edition, Model, Node, Transition};
use crate::set::Set;

/// The answer of [`write`].
#[derive(Clone, Copy, PartialEq, Eq, Debug)]
pub struct Written {
    pub refusal: u8,
    pub length: usize,
}

/// The call `write`. It tests 1 to 11, 46, 51, 45, in this order (RULES 3.6). Writes the text of the file to
/// the front of the buffer. The length of a refused one is 0.
pub fn write(file: &[u8], room: &mut [u8]) -> Written {
    match try_write(file, room.len()) {
        Ok(text) => {
            room[..text.len()].copy_from_slice(text.as_bytes());
            Written {
                refusal: refusal::SUCCESS,
                length: text.len(),
            }
        }
        Err(number) => Written {
            refusal: number,
            length: 0,
        },
    }
}

/// The text to be written, or the refusal.
fn try_write(file: &[u8], room: usize) -> Result<String, u8> {
    let text = text_of(file)?;
    refuse_if(room < text.len(), refusal::REWRITING_ROOM)?;
    Ok(text)
}

/// The text of a file; 1 to 11, 46, 51.
pub fn text_of(file: &[u8]) -> Result<String, u8> {
    let model = accept(file)?;
    refuse_if(model.edition == Edition::Second, refusal::REWRITING_EDITION)?;
    refuse_if(depth(&model) > NESTING, refusal::NESTING)?;
    Ok(written(&model))
}

/// How deep the whole is (docs/NOTATION.md, section 3).
pub fn depth(model: &Model) -> usize {
    depth_of(model, model.whole() as u8)
}

/// A chart is one deep, and each composition, each hiding and each master with its slaves is one deeper
/// than the deepest of its parts.
fn depth_of(model: &Model, node: u8) -> usize {
    let node = &model.nodes[usize::from(node)];
    let parts = match *node {
        Node::Chart { chart } => model.slaves_of(chart).map(|slave| slave.node).collect(),
        _ => node.names(),
    };
    let deepest = parts.into_iter().map(|part| depth_of(model, part)).max();
    // a master is one deep itself, and so is never the deepest of its parts
    deepest.unwrap_or(0) + 1
}

/// The written form of a file.
pub fn written(model: &Model) -> String {
    chart(model, model.whole() as u8)
}

/// A node, where any form may be.
fn chart(model: &Model, node: u8) -> String {
    match model.nodes[usize::from(node)] {
        Node::Chart { chart } if model.is_master(chart) => decomposed(model, chart),
        Node::Chart { chart } => sequential(model, chart),
        Node::Composed { a, b, feedback } => {
            let (a, b) = (part(model, a), part(model, b));
            format!("{a}|{}|{b}", set(feedback))
        }
        Node::Hidden {
            part,
            filtered,
            hidden,
        } => format!("{}[{}]{}", set(filtered), chart(model, part), set(hidden)),
    }
}

/// A node as a part of a composition: if it is one itself, it has round brackets.
fn part(model: &Model, node: u8) -> String {
    let text = chart(model, node);
    match model.nodes[usize::from(node)] {
        Node::Composed { .. } => format!("({text})"),
        _ => text,
    }
}

/// A master and its slaves, by state.
fn decomposed(model: &Model, master: u8) -> String {
    let mut slaves: Vec<_> = model.slaves_of(master).collect();
    slaves.sort_by_key(|slave| slave.state);
    let pairs = slaves
        .into_iter()
        .map(|slave| format!("(q{},{})", slave.state, chart(model, slave.node)));
    format!("Dec{}by{}", sequential(model, master), list(pairs))
}

/// A chart in round brackets.
fn sequential(model: &Model, number: u8) -> String {
    let chart = &model.charts[usize::from(number)];
    let mut fields = vec![
        format!("c{number}"),
        list(states(chart).into_iter().map(|state| format!("q{state}"))),
        format!("q{}", chart.initial),
        set(chart.feedback),
        list(chart.transitions.iter().map(transition)),
    ];
    if chart.extra != Set::EMPTY {
        fields.push(set(chart.extra));
    }
    format!("({})", fields.join(","))
}

/// The states of a chart: the initial one, then the others, rising.
fn states(chart: &Chart) -> Vec<u8> {
    let others = (0..chart.states).filter(|&state| state != chart.initial);
    [chart.initial].into_iter().chain(others).collect()
}

fn transition(transition: &Transition) -> String {
    let (from, to) = (transition.from, transition.to);
    let action = set(transition.action);
    format!("(q{from},q{to},{}/{action})", guard(transition))
}

/// The literals of a guard, by signal, a needed one before the same one barred.
fn guard(transition: &Transition) -> String {
    let needed = transition.needed.signals().map(|signal| (signal, ""));
    let barred = transition.barred.signals().map(|signal| (signal, "-"));
    let mut literals: Vec<(u32, &str)> = needed.chain(barred).collect();
    literals.sort_unstable();
    let literals = literals
        .into_iter()
        .map(|(signal, sign)| format!("{sign}s{signal}"));
    literals.collect::<Vec<String>>().join("&")
}

/// The signals of a set, rising.
fn set(set: Set) -> String {
    list(set.signals().map(|signal| format!("s{signal}")))
}

/// A list in braces.
fn list(members: impl Iterator<Item = String>) -> String {
    format!("{{{}}}", members.collect::<Vec<String>>().join(","))
}
