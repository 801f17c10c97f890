//! RULES 12.5 on random files: a file of edition 1 is cleared by every engine, and then each answers
//! for the old file and for the new one, from every configuration.

use crate::check::accept;
use crate::clearing::{clear_model, is_dead, new_place};
use crate::command::{hex, Command, Numbers};
use crate::generate::{deaden, Random};
use crate::laws::Engine;
use crate::limits::refusal;
use crate::model::{Chart, Model};
use crate::pair::{self, made, Drawn, Pair, Steps};
use crate::set::Set;
use crate::step::Places;
use crate::walk::is_nested;
use std::fmt::{self, Display, Formatter};

/// How much was compared.
#[derive(Clone, PartialEq, Eq, Debug, Default)]
pub struct Compared {
    pub files: usize,
    /// Of these the files with a dead transition.
    pub cleared: usize,
    /// Of the cleared ones those with a slave inside a slave.
    pub nested: usize,
    /// The transitions that were cleared.
    pub dead: usize,
    /// Of the cleared files those with a smaller output interface.
    pub smaller: usize,
    pub steps: Steps,
    /// Of the steps given those with another place in the new file.
    pub moved: usize,
}

impl Display for Compared {
    fn fmt(&self, out: &mut Formatter) -> fmt::Result {
        write!(
            out,
            "{} files, {} cleared of {} dead transitions ({} nested, {} with fewer outputs); \
             {} configurations, {} steps given ({} marked no, {} with other places), {} refused",
            self.files,
            self.cleared,
            self.dead,
            self.nested,
            self.smaller,
            self.steps.configurations,
            self.steps.given,
            self.steps.doubtful,
            self.moved,
            self.steps.refused
        )
    }
}

/// Compares so many random files, mostly with dead transitions, with their cleared ones; the first difference,
/// in words.
pub fn hold(seed: u64, count: usize, engines: &[Engine]) -> Result<Compared, String> {
    pair::hold(seed, count, engines, deaden)
}

impl pair::Compared for Compared {
    fn add(&mut self, one: &Compared) {
        self.files += one.files;
        self.cleared += one.cleared;
        self.nested += one.nested;
        self.dead += one.dead;
        self.smaller += one.smaller;
        self.steps.add(one.steps);
        self.moved += one.moved;
    }

    fn tells(&self) -> bool {
        let kinds = [self.nested * 10, self.smaller * 5];
        self.cleared > self.files / 2
            && self.cleared < self.files
            && kinds.iter().all(|&files| files >= self.cleared)
            && self.steps.tells()
            && self.moved >= self.steps.given / 10
    }

    fn make(&mut self, drawn: &Drawn, engine: Engine) -> Result<Option<Vec<u8>>, String> {
        let model = &drawn.model;
        let new = cleared(engine, &drawn.file)?;
        let expected = clear_model(model);
        if new != expected.file() || accept(&new) != Ok(expected) {
            return Err(format!("cleared into {}", hex(&new)));
        }
        let dead: usize = model.charts.iter().map(dead_in).sum();
        self.files += 1;
        self.dead += dead;
        self.cleared += usize::from(dead > 0);
        self.nested += usize::from(dead > 0 && is_nested(model));
        Ok(Some(new))
    }

    /// First configuration and input interface are the same, the output interface has nothing new, a
    /// plain file stays plain, what can be rewritten still can, and clearing twice is clearing once.
    fn hold_questions(&mut self, _: &mut Random, pair: &Pair) -> Result<(), String> {
        pair.hold_first()?;
        let [old, new] = pair.told(&Command::interface("interface", vec![]));
        let outputs = [old.1, new.1].map(|numbers| Set(numbers.two[1]));
        if old.1.two[0] != new.1.two[0] || !outputs[0].holds_all(outputs[1]) {
            return Err(format!("interface {old:x?}, cleared {new:x?}"));
        }
        self.smaller += usize::from(outputs[0] != outputs[1]);
        let [old, new] = pair.told(&Command::plain("plain", vec![]));
        if old.1.two[0] > new.1.two[0] {
            return Err("plain, and not plain when cleared".to_string());
        }
        let [old, new] = pair.told(&Command::rewrite("rewrite", vec![], 20_000));
        if old.0 == refusal::SUCCESS && new.0 != refusal::SUCCESS {
            return Err(format!("rewritten, and refused {} when cleared", new.0));
        }
        match cleared(pair.engine, &pair.new)? == pair.new {
            true => Ok(()),
            false => Err("cleared again, it is another file".to_string()),
        }
    }

    /// A step's refusal, output, mark and buffer are the same, its places are those of the new lists,
    /// and no more choices are open. No file here is large enough for 24.
    fn hold_step(&mut self, pair: &Pair, at: &[u8], input: Set) -> Result<(u8, Numbers), String> {
        let step = Command::step("step", vec![], at, input, at.len() + 1);
        let [mut old, new] = pair.told(&step);
        let (before, open) = (old.1.places, old.1.open);
        old.1.places = new_places(&pair.drawn.model, &before);
        old.1.open = new.1.open;
        if old != new || new.1.open > open {
            return Err(format!("{step:?}: {old:x?}, {open} open, cleared {new:x?}"));
        }
        self.moved += usize::from(before != new.1.places);
        Ok((old.0, old.1))
    }

    fn steps(&mut self) -> &mut Steps {
        &mut self.steps
    }
}

/// How many transitions of a chart are dead.
fn dead_in(chart: &Chart) -> usize {
    chart
        .transitions
        .iter()
        .filter(|t| is_dead(chart, t))
        .count()
}

/// The file that an engine clears a file into, in a buffer of the file's length.
fn cleared(engine: Engine, file: &[u8]) -> Result<Vec<u8>, String> {
    made(engine, Command::clear("", file.to_vec(), file.len()))
        .map_err(|number| format!("refused {number}"))
}

/// The places of a step of the old file, in the new lists.
fn new_places(model: &Model, places: &Places) -> Places {
    let mut new = *places;
    for (place, chart) in new.iter_mut().zip(&model.charts) {
        if usize::from(*place) < chart.transitions.len() {
            *place = new_place(chart, usize::from(*place)) as u8;
        }
    }
    new
}
