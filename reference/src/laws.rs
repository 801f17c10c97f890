//! Two laws of composed nodes, tried on random files of both editions, from every configuration:
//!
//! - the parts of a composed node can be exchanged (RULES 5.13): a and b are exchanged in the bytes
//!   of one composed node after another, and every call whose answer is not a file is made again;
//! - fed-back signals count as the environment's (RULES 5.14): what is permitted is listed for every
//!   input within the interface, and each permitted choice is looked for under the other inputs.
//!
//! The first law is asked of every engine that is passed in, the second of this one, since no call
//! lists the permitted choices.

use crate::cases::run::rows_bytes;
use crate::command::{hex, Answer, Call, Command};
use crate::file::Trailer;
use crate::generate::{configuration, damaged, front, input, Random, Shape};
use crate::interface::node_input;
use crate::limits::*;
use crate::model::{Edition, Model, Node};
use crate::set::Set;
use crate::step::{Outcome, Place, Situation};
use crate::walk::{any_size, configurations, from_any_state, has_few_configurations};
use std::fmt::{self, Display, Formatter};

/// The most configurations of a file.
const CONFIGURATIONS: usize = 128;
/// The most choices from a configuration.
const CHOICES: usize = 128;
/// The most signals of a file's input interface, so that every input within it can be listed.
const INTERFACE: usize = 4;
/// The inputs of a run.
const INPUTS: usize = 6;

/// An engine: its name, and how it makes a call.
pub type Engine = (&'static str, Call);

/// This engine.
pub const REFERENCE: Engine = ("reference", Command::call);

// ── the bytes of an exchange ──

/// The file with a and b exchanged in the record of a node.
pub fn exchanged(file: &[u8], node: usize) -> Vec<u8> {
    let mut file = file.to_vec();
    let record = node_at(&file, node);
    file.swap(record + 1, record + 2);
    file
}

/// The composed nodes of a file that has bytes for all its nodes, whether it is refused or not.
pub fn composed_nodes(file: &[u8]) -> Vec<usize> {
    if file.len() < TRAILER_BYTES {
        return vec![];
    }
    let nodes = usize::from(Trailer::read(file).nodes);
    if file.len() - TRAILER_BYTES < nodes * NODE_BYTES {
        return vec![];
    }
    (0..nodes)
        .filter(|&node| file[node_at(file, node)] == KIND_COMPOSED)
        .collect()
}

/// The first byte of a node's record: the nodes are the last records before the trailer (RULES 2.1).
fn node_at(file: &[u8], node: usize) -> usize {
    let nodes = usize::from(Trailer::read(file).nodes);
    file.len() - TRAILER_BYTES - (nodes - node) * NODE_BYTES
}

// ── what was tried ──

/// How much was tried.
#[derive(Clone, PartialEq, Eq, Debug, Default)]
pub struct Tried {
    pub files: usize,
    /// Of these the files of edition 2.
    pub second: usize,
    /// The damaged files that are refused.
    pub refused: usize,
    pub configurations: usize,
    /// How often the parts of a composed node were exchanged.
    pub exchanges: usize,
    /// Of these the nodes inside a slave.
    pub inside: usize,
    /// The answers that were compared after an exchange.
    pub answers: usize,
    /// The files whose whole is composed.
    pub composed: usize,
    /// A choice that is permitted under an input, and another input that makes the same set.
    pub choices: usize,
    /// Of these the ones where the step gives another choice for the other input.
    pub other_step: usize,
    /// A choice that is permitted under an input and not under another one, which makes another set.
    pub not_permitted: usize,
}

impl Display for Tried {
    fn fmt(&self, out: &mut Formatter) -> fmt::Result {
        write!(
            out,
            "{} files ({} of edition 2) from {} configurations, {} damaged ones refused; {} exchanges \
             ({} inside a slave), {} answers the same; {} wholes composed, {} choices permitted \
             again ({} with another step), {} not permitted under another set",
            self.files,
            self.second,
            self.configurations,
            self.refused,
            self.exchanges,
            self.inside,
            self.answers,
            self.composed,
            self.choices,
            self.other_step,
            self.not_permitted
        )
    }
}

impl Tried {
    /// Whether so much was tried that it tells something: enough of every kind, and choices that
    /// some other input does not permit.
    fn tells(&self) -> bool {
        self.second >= self.files / 3
            && self.refused >= self.files / 4
            && self.exchanges >= self.files
            && self.inside >= self.files / 10
            && self.composed >= self.files / 3
            && self.choices >= self.files * 10
            && self.other_step >= self.files / 10
            && self.not_permitted >= self.files * 10
    }
}

/// Tries both laws on so many random files; the first failure, in words.
pub fn hold(seed: u64, count: usize, engines: &[Engine]) -> Result<Tried, String> {
    let mut random = Random::new(seed);
    let mut tried = Tried::default();
    for place in 0..count {
        let (shape, model) = composed_file(&mut random);
        let done = hold_file(&mut random, &shape, &model, engines, &mut tried);
        done.map_err(|what| format!("seed {seed}, file {place}: {what}"))?;
    }
    match tried.tells() {
        true => Ok(tried),
        false => Err(format!("too little to tell: {tried}")),
    }
}

/// A random file of either edition with a composed node, small enough for every configuration and
/// every input within its interface. In half of the files the whole is composed, in the others a
/// node inside a slave.
fn composed_file(random: &mut Random) -> (Shape, Model) {
    let edition = random.pick(&[Edition::First, Edition::Second]);
    let has_composed: fn(&Model) -> bool = match random.below(2) {
        0 => |model| is_composed(&model.nodes[model.whole()]),
        _ => |model| composed_inside_slaves(model) > 0,
    };
    loop {
        let (shape, model) = any_size(random);
        if has_composed(&model) && is_small(&model) {
            return (shape, model.under(edition));
        }
    }
}

/// Whether a node is composed.
fn is_composed(node: &Node) -> bool {
    matches!(node, Node::Composed { .. })
}

/// Whether every configuration, choice and input can be listed.
fn is_small(model: &Model) -> bool {
    has_few_configurations(model, CONFIGURATIONS)
        && from_any_state(model) <= CHOICES
        && interface(model).signals().count() <= INTERFACE
}

/// The input interface of the whole.
fn interface(model: &Model) -> Set {
    node_input(model, model.whole() as u8)
}

/// Tries both laws on a file, and the first one on a damaged copy of it.
fn hold_file(
    random: &mut Random,
    shape: &Shape,
    model: &Model,
    engines: &[Engine],
    tried: &mut Tried,
) -> Result<(), String> {
    tried.files += 1;
    tried.second += usize::from(model.edition == Edition::Second);
    let all = configurations(model);
    tried.configurations += all.len();
    let file = [front(random), model.file()].concat();
    let calls = calls(random, shape, model, &file, &all);
    hold_exchange(&calls, engines, tried)?;
    let bad = damaged(random, model);
    let at = configuration(random, model);
    let calls = self::calls(random, shape, model, &bad, &[at]);
    tried.refused += usize::from(crate::check(&bad) != refusal::SUCCESS);
    hold_exchange(&calls, engines, tried)?;
    tried.inside += composed_inside_slaves(model);
    hold_fed_back(model, &all, tried)
}

/// How many composed nodes are inside a slave.
fn composed_inside_slaves(model: &Model) -> usize {
    let composed = |node: u8| is_composed(&model.nodes[usize::from(node)]);
    let slaves = model.slaves.iter();
    let inside = slaves.flat_map(|slave| nodes_beside_slaves(model, slave.node));
    inside.filter(|&node| composed(node)).count()
}

/// A node and its parts, slaves aside.
fn nodes_beside_slaves(model: &Model, node: u8) -> Vec<u8> {
    let parts = model.nodes[usize::from(node)].names().into_iter();
    let below = parts.flat_map(|part| nodes_beside_slaves(model, part));
    [node].into_iter().chain(below).collect()
}

// ── exchanged parts ──

/// A call of each kind but the rewriting, whose answer names the parts in their order; the step from
/// each of the configurations under several inputs.
fn calls(
    random: &mut Random,
    shape: &Shape,
    model: &Model,
    file: &[u8],
    configurations: &[Vec<u8>],
) -> Vec<Command> {
    let charts = model.charts.len();
    let file = || file.to_vec();
    let inputs: Vec<Set> = (0..INPUTS).map(|_| input(random, shape)).collect();
    let at = configuration(random, model);
    let rows = rows_bytes(INPUTS, charts) + 1;
    let mut calls = vec![
        Command::check("check", file()),
        Command::first("first", file(), charts + 1),
        Command::interface("interface", file()),
        Command::plain("plain", file()),
        Command::run("run", file(), &at, &inputs, rows).carrying(input(random, shape)),
    ];
    let offered = [Set::EMPTY, Set::FULL, inputs[0], inputs[1]];
    // one chart more than there are, and places that a list may lack
    for chart in 0..=charts as u64 {
        let place = random.below(3) as u64;
        calls.push(Command::lacking(
            "lacking",
            file(),
            chart,
            place,
            offered[2],
        ));
    }
    for at in configurations {
        let step = |input| Command::step("step", file(), at, input, charts + 1).whole_line();
        calls.extend(offered.into_iter().map(step));
    }
    calls
}

/// Makes calls of one file again with the parts of each of its composed nodes exchanged in turn: each
/// engine answers what it answered.
fn hold_exchange(calls: &[Command], engines: &[Engine], tried: &mut Tried) -> Result<(), String> {
    let file = &calls[0].file;
    for &(who, call) in engines {
        let before: Vec<Answer> = calls
            .iter()
            .map(|command| command.answer_by(call))
            .collect();
        for node in composed_nodes(file) {
            let turned = exchanged(file, node);
            for (command, before) in calls.iter().zip(&before) {
                let command = Command {
                    file: turned.clone(),
                    ..command.clone()
                };
                let after = command.answer_by(call);
                if after != *before {
                    return Err(exchange_differs(
                        who,
                        node,
                        &command,
                        &before.line,
                        &after.line,
                    ));
                }
                tried.answers += 1;
            }
        }
    }
    tried.exchanges += composed_nodes(file).len();
    Ok(())
}

/// An answer that an exchange changes, in words.
fn exchange_differs(who: &str, node: usize, after: &Command, one: &str, other: &str) -> String {
    let (at, inputs) = (&after.configuration, &after.inputs);
    let file = hex(&after.file);
    format!(
        "{who}: parts of node {node} exchanged, from {at:?} under {inputs:x?}, {:x?} carried\n\
         before: {one}after: {other}exchanged file: {file}",
        after.carried
    )
}

// ── fed-back signals ──

/// The permitted choices of a step, in order, with what they lead to.
type Permitted = Vec<(Vec<Place>, Outcome)>;

/// Where the whole is composed: a choice that is permitted under an input is permitted, with the same
/// outcome, under every input within the interface that makes the same set with what this choice
/// feeds back.
fn hold_fed_back(model: &Model, all: &[Vec<u8>], tried: &mut Tried) -> Result<(), String> {
    let Node::Composed { feedback, .. } = model.nodes[model.whole()] else {
        return Ok(());
    };
    tried.composed += 1;
    let inputs = subsets(interface(model));
    for at in all {
        let permitted: Vec<Permitted> = inputs
            .iter()
            .map(|&input| permitted(model, at, input))
            .collect();
        for (&one, first) in inputs.iter().zip(&permitted) {
            for (&other, second) in inputs.iter().zip(&permitted) {
                hold_pair(feedback, (one, first), (other, second), tried)
                    .map_err(|what| format!("from {at:?}: {what}\n{}", hex(&model.file())))?;
            }
        }
    }
    Ok(())
}

/// Looks for each choice that is permitted under one input among those of another.
fn hold_pair(
    feedback: Set,
    (one, first): (Set, &Permitted),
    (other, second): (Set, &Permitted),
    tried: &mut Tried,
) -> Result<(), String> {
    for choice in first {
        let fed_back = choice.1.output.cut(feedback);
        let again = second.contains(choice);
        if other.joined(fed_back) != one.joined(fed_back) {
            tried.not_permitted += usize::from(!again);
        } else if !again {
            return Err(format!("{choice:x?} under {one:x?}, not under {other:x?}"));
        } else if other != one {
            tried.choices += 1;
            tried.other_step += usize::from(second[0] != first[0]);
        }
    }
    Ok(())
}

/// All permitted choices, in order.
fn permitted(model: &Model, at: &[u8], input: Set) -> Permitted {
    let situation = Situation::new(model, at, input);
    let mut permitted = Vec::new();
    situation.each_open_choice(&mut |choice| {
        if let Some(outcome) = situation.permitted(choice) {
            permitted.push((choice.to_vec(), outcome));
        }
    });
    permitted
}

/// Every subset of a set.
fn subsets(set: Set) -> Vec<Set> {
    set.signals().fold(vec![Set::EMPTY], |all, signal| {
        let with = all.iter().map(|part| part.joined(Set::one(signal)));
        all.iter().copied().chain(with).collect()
    })
}
