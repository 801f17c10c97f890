//! RULES 9.8 over the proved engine: random files with slaves, of edition 1, are rewritten by it
//! and here, and then it answers for the old file and for the new one, from every configuration.

use super::engine::places;
use crate::agreement::Agreement;
use crate::cases::rewrite::rewritten_bytes;
use crate::cases::run::rows_bytes;
use crate::check::accept;
use crate::command::{hex, FILL};
use crate::generate::{configuration, crowd, front, input, Random, Shape};
use crate::limits::refusal;
use crate::model::Model;
use crate::set::Set;
use crate::step::{Places, NO_PLACES};
use crate::walk::{configurations, has_several, hides_inside, inputs, is_nested, with_slaves};
use mestecur::{Place, Refusal, RefusedStep, Step};
use std::fmt::{self, Debug, Display, Formatter};

/// The most configurations of a file.
const CONFIGURATIONS: usize = 4_096;
/// The rows of a run.
const ROWS: usize = 40;

/// How much was compared.
#[derive(Clone, PartialEq, Eq, Debug, Default)]
pub struct Compared {
    pub files: usize,
    /// Of these the rewritten ones; the others are refused by both engines alike.
    pub rewritten: usize,
    /// Of the rewritten ones those with a slave inside a slave.
    pub nested: usize,
    /// Of the rewritten ones those with several slaves of one master.
    pub several: usize,
    /// Of the rewritten ones those with a hidden node inside a slave.
    pub hiding: usize,
    pub configurations: usize,
    pub given: usize,
    /// Of the steps given those marked no.
    pub doubtful: usize,
    /// Of the steps given those that take an idle transition in the new file.
    pub idle: usize,
    pub refused: usize,
    pub rows: usize,
    /// The runs after which something is carried.
    pub carrying: usize,
}

impl Display for Compared {
    fn fmt(&self, out: &mut Formatter) -> fmt::Result {
        write!(
            out,
            "{} files with slaves, {} rewritten ({} nested, {} with several slaves of a master, \
             {} hiding inside a slave); {} configurations, {} steps given ({} marked no, \
             {} with an idle transition), {} refused, {} rows of runs, {} runs carrying on",
            self.files,
            self.rewritten,
            self.nested,
            self.several,
            self.hiding,
            self.configurations,
            self.given,
            self.doubtful,
            self.idle,
            self.refused,
            self.rows,
            self.carrying
        )
    }
}

impl Compared {
    /// Counts a rewritten file.
    fn add_rewritten(&mut self, model: &Model) {
        self.rewritten += 1;
        self.nested += usize::from(is_nested(model));
        self.several += usize::from(has_several(model));
        self.hiding += usize::from(hides_inside(model));
    }

    /// Counts a step of a file with so many charts.
    fn add_step(&mut self, charts: usize, answer: Result<Step, RefusedStep>) {
        match answer {
            Ok(step) => {
                self.given += 1;
                self.doubtful += usize::from(!step.mark);
                self.idle += usize::from(step.places[..charts].contains(&Place::None));
            }
            Err(_) => self.refused += 1,
        }
    }

    /// Whether so much was compared that it tells something: of the files most are rewritten, of those
    /// not few are of each kind, and so of the steps.
    fn tells(&self) -> bool {
        let kinds = [self.nested, self.several, self.hiding];
        let steps = self.given + self.refused;
        self.rewritten > self.files / 2
            && kinds.iter().all(|&files| files >= self.rewritten / 5)
            && self.given.min(self.refused) >= steps / 5
            && self.doubtful >= self.given / 50
            && self.idle >= self.given / 5
            && self.carrying >= self.rewritten / 5
    }
}

/// Compares so many random files with slaves; the first difference, in words.
pub fn agree(seed: u64, count: usize) -> Result<Compared, String> {
    let mut random = Random::new(seed);
    let mut compared = Compared::default();
    for place in 0..count {
        let (shape, mut model) = with_slaves(&mut random, CONFIGURATIONS);
        crowd(&mut random, &mut model);
        let old = [front(&mut random), model.file()].concat();
        let done = compare(&mut random, &shape, &model, &old, &mut compared);
        done.map_err(|what| format!("same: seed {seed}, file {place}: {what}\n{}", hex(&old)))?;
    }
    match compared.tells() {
        true => Ok(compared),
        false => Err(format!("same: too little to tell: {compared}")),
    }
}

/// Rewrites a file by both engines; if it is not refused, compares the new file with it.
fn compare(
    random: &mut Random,
    shape: &Shape,
    model: &Model,
    old: &[u8],
    compared: &mut Compared,
) -> Result<(), String> {
    compared.files += 1;
    let Some(new) = rewritten(old, rewritten_bytes(model))? else {
        return Ok(());
    };
    compared.add_rewritten(model);
    let charts = model.charts.len();
    let read = accept(&new).map_err(|number| format!("the new file: {number}"))?;
    let pair = Pair {
        old,
        new: &new,
        charts,
        agreement: Agreement::new(model, &read),
    };
    pair.hold_file()?;
    let inputs = inputs(random, shape, model);
    for at in configurations(model) {
        compared.configurations += 1;
        for &input in &inputs {
            compared.add_step(charts, pair.hold_step(&at, input)?);
        }
    }
    compared.rows += ROWS;
    let inputs: Vec<Set> = (0..ROWS).map(|_| input(random, shape)).collect();
    let carried = input(random, shape);
    let left = pair.hold_run(&configuration(random, model), carried, &inputs)?;
    compared.carrying += usize::from(left != mestecur::Set::EMPTY);
    Ok(())
}

/// The file that both engines rewrite a file into, in a buffer of the length that it needs; none if
/// both refuse it alike.
fn rewritten(old: &[u8], room: usize) -> Result<Option<Vec<u8>>, String> {
    let mut new = vec![FILL; room];
    let mut here = new.clone();
    let answer = mestecur::rewrite(old, &mut new);
    let expected = crate::rewrite(old, &mut here);
    let told = (
        answer.map_or_else(Refusal::number, |_| 0),
        answer.unwrap_or(0),
    );
    if told != (expected.refusal, expected.length) || new != here {
        return Err(format!("rewritten into {}, here {}", hex(&new), hex(&here)));
    }
    match answer {
        Ok(length) if length != room => Err(format!("{length} bytes, not {room}")),
        Ok(_) => Ok(Some(new)),
        Err(_) => Ok(None),
    }
}

/// A buffer after a call; shown in hex.
#[derive(PartialEq)]
struct Lent(Vec<u8>);

impl Debug for Lent {
    fn fmt(&self, out: &mut Formatter) -> fmt::Result {
        out.write_str(&hex(&self.0))
    }
}

/// A file with slaves, and the file that it was rewritten into.
struct Pair<'a> {
    old: &'a [u8],
    new: &'a [u8],
    charts: usize,
    agreement: Agreement<'a>,
}

/// A step's answer, and its buffer.
type Stepped = (Result<Step, RefusedStep>, Lent);

/// What a step told, but for its places and the number of open choices.
fn without_places((answer, next): &Stepped) -> (Result<(mestecur::Set, bool), Refusal>, &Lent) {
    let told = answer.map(|step| (step.output, step.mark));
    (told.map_err(Refusal::from), next)
}

/// Whether a step is refused with 24.
fn is_many((answer, _): &Stepped) -> bool {
    answer.is_err_and(|refused| refused.number() == refusal::MANY_OPEN)
}

/// The places of a step.
fn places_of((answer, _): &Stepped) -> Places {
    answer.map_or(NO_PLACES, |step| places(&step))
}

/// The answer for both files, if it is the same.
fn alike<T: PartialEq + Debug>(what: fmt::Arguments, old: T, new: T) -> Result<T, String> {
    if old == new {
        Ok(old)
    } else {
        Err(format!("{what}: {old:?}, rewritten {new:?}"))
    }
}

impl Pair<'_> {
    /// The engine's answer for both files.
    fn same<T: PartialEq + Debug>(
        &self,
        what: fmt::Arguments,
        call: impl Fn(&[u8]) -> T,
    ) -> Result<T, String> {
        alike(what, call(self.old), call(self.new))
    }

    /// The new file passes, has no slaves and is rewritten into itself; first configuration and
    /// interface are the old ones.
    fn hold_file(&self) -> Result<(), String> {
        let check = mestecur::check(self.new);
        check.map_err(|refusal| format!("the new file: {refusal}"))?;
        let slaves = accept(self.new).map(|model| model.slaves.len());
        if slaves != Ok(0) {
            return Err(format!("the new file has slaves: {slaves:?}"));
        }
        let _ = self.same(format_args!("interface"), mestecur::interface)?;
        let _ = self.same(format_args!("first"), |file| {
            let mut config = vec![FILL; self.charts + 1];
            (mestecur::first(file, &mut config), Lent(config))
        })?;
        let _ = self.same(format_args!("rewriting"), |file| {
            let mut out = vec![FILL; self.new.len()];
            (mestecur::rewrite(file, &mut out), Lent(out))
        })?;
        Ok(())
    }

    /// A step of one of the files: its answer, and its buffer.
    fn step(&self, file: &[u8], at: &[u8], input: Set) -> Stepped {
        let mut next = vec![FILL; self.charts + 1];
        let answer = mestecur::step(file, at, mestecur::Set(input.0), &mut next);
        (answer, Lent(next))
    }

    /// A step's refusal, output and mark, and all of its buffer, are those of the old file, and the
    /// places agree. Where a step of either file is refused with 24, nothing is compared.
    fn hold_step(&self, at: &[u8], input: Set) -> Result<Result<Step, RefusedStep>, String> {
        let what = format_args!("step from {at:?} under {input:x?}");
        let old = self.step(self.old, at, input);
        let new = self.step(self.new, at, input);
        if is_many(&old) || is_many(&new) {
            return Ok(old.0);
        }
        let _ = alike(what, without_places(&old), without_places(&new))?;
        let number = old.0.map_or_else(RefusedStep::number, |_| 0);
        let (here, there) = (places_of(&old), places_of(&new));
        match self.agreement.holds(at, number, &here, &there) {
            true => Ok(old.0),
            false => Err(format!("{what}: places {here:?}, rewritten {there:?}")),
        }
    }

    /// A run has the old file's rows, and carries on what the old file's does, up to the first row that
    /// has 24 in either.
    fn hold_run(&self, at: &[u8], carried: Set, inputs: &[Set]) -> Result<mestecur::Set, String> {
        let sets: Vec<mestecur::Set> = inputs.iter().map(|set| mestecur::Set(set.0)).collect();
        let carried = mestecur::Set(carried.0);
        let what = format_args!("run from {at:?}, {carried} carried, under {inputs:x?}");
        let run = |file: &[u8]| {
            let mut rows = vec![FILL; rows_bytes(inputs.len(), self.charts) + 1];
            let left = mestecur::run(file, at, carried, &sets, &mut rows);
            (left, rows)
        };
        let (old, new) = (run(self.old), run(self.new));
        let many = |row: mestecur::Row| row.answer.is_err_and(|r| r.number() == refusal::MANY_OPEN);
        let first_many = |rows: &[u8]| mestecur::rows(rows, self.charts).position(many);
        let firsts = [first_many(&old.1), first_many(&new.1)];
        match firsts.into_iter().flatten().min() {
            None => alike(what, (old.0, Lent(old.1)), (new.0, Lent(new.1)))?
                .0
                .map_err(|refusal| refusal.to_string()),
            Some(row) => {
                let rows = |all: Vec<u8>| Lent(all[..rows_bytes(row, self.charts)].to_vec());
                let _ = alike(what, rows(old.1), rows(new.1))?;
                old.0.map_err(|refusal| refusal.to_string())
            }
        }
    }
}
