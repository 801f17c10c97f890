//! RULES 15.4 on random files: a file of edition 1 is written as text by every engine and read back, and
//! then each answers for the old file and for the new one, from every configuration.

use crate::check::accept;
use crate::command::{hex, Command, Numbers};
use crate::generate::{deaden, hide_again, Random, Shape};
use crate::laws::Engine;
use crate::limits::*;
use crate::model::{Model, Node};
use crate::notation::file_of;
use crate::notation::laid_out::laid_out;
use crate::notation::write::{depth, written};
use crate::pair::{self, made, Drawn, Pair, Steps};
use crate::set::Set;
use crate::texts::typed::right_text;
use crate::walk::is_nested;
use std::fmt::{self, Display, Formatter};

/// How much longer than its text a buffer is.
const SPARE: usize = 5;

/// How much was compared.
#[derive(Clone, PartialEq, Eq, Debug, Default)]
pub struct Compared {
    pub files: usize,
    /// Of these the files that are too deep.
    pub deep: usize,
    /// Of the written ones those with a slave inside a slave.
    pub nested: usize,
    /// Of the written ones those with nine charts and more.
    pub large: usize,
    /// Of the written ones those whose nodes have another order when they are read back.
    pub reordered: usize,
    /// The bytes of all texts.
    pub bytes: usize,
    pub steps: Steps,
}

impl Display for Compared {
    fn fmt(&self, out: &mut Formatter) -> fmt::Result {
        write!(
            out,
            "{} files, {} too deep, the others written in {} bytes ({} nested, {} with nine charts or more, \
             {} with nodes in another order); {} configurations, {} steps given ({} marked no), {} refused",
            self.files,
            self.deep,
            self.bytes,
            self.nested,
            self.large,
            self.reordered,
            self.steps.configurations,
            self.steps.given,
            self.steps.doubtful,
            self.steps.refused
        )
    }
}

/// Compares so many random files with what is read back of their texts; the first difference, in words.
pub fn hold(seed: u64, count: usize, engines: &[Engine]) -> Result<Compared, String> {
    pair::hold(seed, count, engines, change)
}

/// Dead transitions in every other file; some are hidden until they are about as deep as they may be.
fn change(random: &mut Random, shape: &Shape, model: &mut Model) {
    if random.chance(50) {
        deaden(random, shape, model);
    }
    if random.chance(15) {
        hide_again(random, shape, model);
    }
}

impl pair::Compared for Compared {
    fn add(&mut self, one: &Compared) {
        self.files += one.files;
        self.deep += one.deep;
        self.nested += one.nested;
        self.large += one.large;
        self.reordered += one.reordered;
        self.bytes += one.bytes;
        self.steps.add(one.steps);
    }

    fn tells(&self) -> bool {
        let kinds = [
            self.deep * 50,
            self.nested * 10,
            self.large * 40,
            self.reordered * 5,
        ];
        kinds.iter().all(|&files| files >= self.files) && self.steps.tells()
    }

    fn make(&mut self, drawn: &Drawn, engine: Engine) -> Result<Option<Vec<u8>>, String> {
        let model = &drawn.model;
        let expected = written(model);
        self.files += 1;
        if depth(model) > NESTING {
            self.deep += 1;
            let room = expected.len() + SPARE;
            return match made(engine, Command::write("", drawn.file.clone(), room)) {
                Err(refusal::NESTING) => Ok(None),
                told => Err(format!("too deep: {told:?}")),
            };
        }
        let new = read_back(engine, &drawn.file, &expected, model.file().len())?;
        self.bytes += expected.len();
        self.nested += usize::from(is_nested(model));
        self.large += usize::from(model.charts.len() > EARLIER_CHARTS);
        self.reordered += usize::from(new != model.file());
        Ok(Some(new))
    }

    /// First configuration, interface and plainness are the same, and so is the text; the lengths of the
    /// cleared and the rewritten file too, whose nodes may have another order. The new file holds the same
    /// chart, and is what the text means if it is typed in another way.
    fn hold_questions(&mut self, random: &mut Random, pair: &Pair) -> Result<(), String> {
        let text = written(&pair.drawn.model);
        pair.hold_first()?;
        pair.same(Command::interface("interface", vec![]))?;
        pair.same(Command::plain("plain", vec![]))?;
        pair.same(Command::write("write", vec![], text.len() + SPARE))?;
        for command in [
            Command::clear("clear", vec![], pair.drawn.file.len()),
            Command::rewrite("rewrite", vec![], 20_000),
        ] {
            let [old, new] = pair.told(&command);
            if (old.0, old.1) != (new.0, new.1) {
                return Err(format!("{command:?}: {old:x?}, read back {new:x?}"));
            }
        }
        hold_chart(&pair.drawn.model, &pair.new)?;
        hold_read("laid out", laid_out(&text).into_bytes(), pair)?;
        hold_read("typed", right_text(random, &pair.drawn.model), pair)
    }

    /// All that a step answers is the same. No file here is large enough for 24.
    fn hold_step(&mut self, pair: &Pair, at: &[u8], input: Set) -> Result<(u8, Numbers), String> {
        let step = Command::step("step", vec![], at, input, at.len() + 1);
        let (refusal, numbers, _) = pair.same(step)?;
        Ok((refusal, numbers))
    }

    fn steps(&mut self) -> &mut Steps {
        &mut self.steps
    }
}

/// The file that an engine reads from the text that it writes, in a buffer of this length. The text is
/// the one expected, and a buffer that is a byte shorter is refused.
fn read_back(engine: Engine, old: &[u8], expected: &str, room: usize) -> Result<Vec<u8>, String> {
    let write = |room| made(engine, Command::write("", old.to_vec(), room));
    let text = write(expected.len() + SPARE);
    if text.as_deref() != Ok(expected.as_bytes()) {
        return Err(format!("written as {text:?}, not {expected}"));
    }
    let short = write(expected.len() - 1);
    if short != Err(refusal::REWRITING_ROOM) {
        return Err(format!("a byte short: {short:?}"));
    }
    let read = Command::read("", expected.as_bytes().to_vec(), room);
    let new = made(engine, read).map_err(|number| format!("{expected} is refused {number}"))?;
    match file_of(expected.as_bytes()).as_deref() == Ok(&new) {
        true => Ok(new),
        false => Err(format!("{expected} is read as {}", hex(&new))),
    }
}

/// The file read back has the same charts, with their transitions in the same order, and the same tree. No
/// call would tell two parts of a composition exchanged.
fn hold_chart(model: &Model, new: &[u8]) -> Result<(), String> {
    let back = accept(new).map_err(|number| format!("read back, it is refused {number}"))?;
    match back.charts == model.charts && tree(&back) == tree(model) {
        true => Ok(()),
        false => Err(format!("read back, it is another chart: {}", hex(new))),
    }
}

/// The tree of a file as a term, with the slaves of a master by state. The numbers of nodes are not in it.
pub fn tree(model: &Model) -> String {
    fn of(model: &Model, node: u8) -> String {
        match &model.nodes[usize::from(node)] {
            Node::Chart { chart } => {
                let slaves = model.slaves_of(*chart);
                let slaves = slaves.map(|s| format!("{}:{}", s.state, of(model, s.node)));
                format!("{chart}<{}>", slaves.collect::<Vec<_>>().join(","))
            }
            Node::Composed { a, b, feedback } => {
                format!("({} {} {})", of(model, *a), feedback.hex(), of(model, *b))
            }
            Node::Hidden {
                part,
                filtered,
                hidden,
            } => format!("{}[{}]{}", filtered.hex(), of(model, *part), hidden.hex()),
        }
    }
    of(model, model.whole() as u8)
}

/// A text of the same chart, of this kind, is read as the new file too.
fn hold_read(kind: &str, text: Vec<u8>, pair: &Pair) -> Result<(), String> {
    let told = made(pair.engine, Command::read("", text.clone(), pair.new.len()));
    let text = String::from_utf8_lossy(&text);
    match told.as_deref() == Ok(&pair.new[..]) {
        true => Ok(()),
        false => Err(format!("{kind}, {text} is read as {told:x?}")),
    }
}
