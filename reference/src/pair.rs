//! A random file and the file that an engine makes of it: both are asked the same, from every
//! configuration.

use crate::cases::run::rows_bytes;
use crate::command::{hex, Command, Numbers, FILL};
use crate::generate::{configuration, front, input, Random, Shape};
use crate::laws::Engine;
use crate::limits::refusal;
use crate::model::Model;
use crate::set::Set;
use crate::walk::{any_size, configurations, from_any_state, has_few_configurations, inputs};
use std::fmt::Display;

/// The most configurations of a file.
const CONFIGURATIONS: usize = 256;
/// The most choices from a configuration.
const CHOICES: usize = 512;
/// The rows of a run.
const ROWS: usize = 20;

/// How much was compared, and how one file is.
pub trait Compared: Default + Display {
    /// Adds what was counted for one file.
    fn add(&mut self, one: &Self);

    /// Whether so much was compared that it tells something.
    fn tells(&self) -> bool;

    /// The file that an engine makes of a file; none if it refuses, as it has to.
    fn make(&mut self, drawn: &Drawn, engine: Engine) -> Result<Option<Vec<u8>>, String>;

    /// Compares the answers to what is asked about a file alone.
    fn hold_questions(&mut self, random: &mut Random, pair: &Pair) -> Result<(), String>;

    /// Compares a step of either file: its refusal, and its numbers for the old file.
    fn hold_step(&mut self, pair: &Pair, at: &[u8], input: Set) -> Result<(u8, Numbers), String>;

    /// The steps that were compared.
    fn steps(&mut self) -> &mut Steps;
}

/// A random file, its bytes with some in front, and the shape that it was drawn by.
pub struct Drawn {
    pub shape: Shape,
    pub model: Model,
    pub file: Vec<u8>,
}

/// Compares so many random files with what engines make of them; the first difference, in words. Each file
/// is changed by this before it is looked at.
pub fn hold<C: Compared>(
    seed: u64,
    count: usize,
    engines: &[Engine],
    change: impl Fn(&mut Random, &Shape, &mut Model),
) -> Result<C, String> {
    let mut random = Random::new(seed);
    let mut compared = C::default();
    for place in 0..count {
        let (shape, model) = small_file(&mut random, &change);
        let file = [front(&mut random), model.file()].concat();
        let drawn = Drawn { shape, model, file };
        let mut counted = C::default();
        for &engine in engines {
            // each engine is asked the same, and what is compared is counted once
            counted = C::default();
            let mut again = Random::new(seed ^ place as u64);
            let done = hold_file(&mut counted, &mut again, &drawn, engine);
            let (who, bytes) = (engine.0, hex(&drawn.file));
            done.map_err(|what| format!("seed {seed}, file {place}, {who}: {what}\n{bytes}"))?;
        }
        compared.add(&counted);
    }
    match compared.tells() {
        true => Ok(compared),
        false => Err(format!("too little to tell: {compared}")),
    }
}

/// A random file of edition 1, changed by this, small enough for every configuration.
fn small_file(
    random: &mut Random,
    change: impl Fn(&mut Random, &Shape, &mut Model),
) -> (Shape, Model) {
    loop {
        let (shape, mut model) = any_size(random);
        change(random, &shape, &mut model);
        if is_small(&model) {
            return (shape, model);
        }
    }
}

/// Makes a file of a file by an engine, and compares the two: what is asked about a file alone, a run, and
/// steps from every configuration.
fn hold_file<C: Compared>(
    compared: &mut C,
    random: &mut Random,
    drawn: &Drawn,
    engine: Engine,
) -> Result<(), String> {
    let Some(new) = compared.make(drawn, engine)? else {
        return Ok(());
    };
    let pair = Pair { engine, drawn, new };
    compared.hold_questions(random, &pair)?;
    pair.hold_run(random)?;
    let inputs = inputs(random, &drawn.shape, &drawn.model);
    for at in configurations(&drawn.model) {
        for &input in &inputs {
            let (refusal, numbers) = compared.hold_step(&pair, &at, input)?;
            compared.steps().count(refusal, &numbers);
        }
        compared.steps().configurations += 1;
    }
    Ok(())
}

/// Whether a file is small enough for every configuration and every choice.
fn is_small(model: &Model) -> bool {
    has_few_configurations(model, CONFIGURATIONS) && from_any_state(model) <= CHOICES
}

/// What an engine tells of a call: refusal, numbers and buffer.
pub type Told = (u8, Numbers, Vec<u8>);

/// What an engine writes to the buffer of a call, or the refusal; the rest of the buffer is unchanged.
pub fn made((_, call): Engine, command: Command) -> Result<Vec<u8>, u8> {
    let mut out = vec![FILL; command.room];
    let (refusal, numbers) = call(&command, &mut out);
    let rest = out.split_off(numbers.two[0] as usize);
    assert!(
        rest.iter().all(|&byte| byte == FILL),
        "a byte behind the answer has changed"
    );
    match refusal {
        refusal::SUCCESS => Ok(out),
        number => Err(number),
    }
}

/// A file, and the file that an engine makes of it.
pub struct Pair<'a> {
    pub engine: Engine,
    pub drawn: &'a Drawn,
    pub new: Vec<u8>,
}

impl Pair<'_> {
    /// What the engine tells of a call of either file.
    pub fn told(&self, command: &Command) -> [Told; 2] {
        [&self.drawn.file, &self.new].map(|file| {
            let command = Command {
                file: file.to_vec(),
                ..command.clone()
            };
            let mut lent = vec![FILL; command.room];
            let (refusal, numbers) = self.engine.1(&command, &mut lent);
            (refusal, numbers, lent)
        })
    }

    /// The same answer of both files.
    pub fn same(&self, command: Command) -> Result<Told, String> {
        let [old, new] = self.told(&command);
        match old == new {
            true => Ok(old),
            false => Err(format!("{command:?}: {old:x?}, of the new file {new:x?}")),
        }
    }

    /// Whether a file is accepted, and its first configuration, are the same.
    pub fn hold_first(&self) -> Result<(), String> {
        self.same(Command::check("check", vec![]))?;
        let room = self.drawn.model.charts.len() + 1;
        self.same(Command::first("first", vec![], room)).map(drop)
    }

    /// The rows of a run and what it carries are the same.
    fn hold_run(&self, random: &mut Random) -> Result<(), String> {
        let Drawn { shape, model, .. } = self.drawn;
        let at = configuration(random, model);
        let inputs: Vec<Set> = (0..ROWS).map(|_| input(random, shape)).collect();
        let room = rows_bytes(ROWS, at.len()) + 1;
        let run = Command::run("run", vec![], &at, &inputs, room);
        self.same(run.carrying(input(random, shape))).map(drop)
    }
}

/// From how many configurations steps were made, how many were given, how many of these were marked no, and how
/// many were refused.
#[derive(Clone, Copy, PartialEq, Eq, Debug, Default)]
pub struct Steps {
    pub configurations: usize,
    pub given: usize,
    pub doubtful: usize,
    pub refused: usize,
}

impl Steps {
    /// One step more.
    fn count(&mut self, refusal: u8, numbers: &Numbers) {
        let is_given = refusal == refusal::SUCCESS;
        self.given += usize::from(is_given);
        self.refused += usize::from(!is_given);
        self.doubtful += usize::from(is_given && numbers.two[1] == 0);
    }

    /// Adds those of another file.
    pub fn add(&mut self, one: Steps) {
        self.configurations += one.configurations;
        self.given += one.given;
        self.doubtful += one.doubtful;
        self.refused += one.refused;
    }

    /// Whether enough of them were given, refused and marked no.
    pub fn tells(&self) -> bool {
        self.given.min(self.refused) >= (self.given + self.refused) / 10
            && self.doubtful >= self.given / 50
    }
}
