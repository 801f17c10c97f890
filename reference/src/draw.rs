//! Random calls of every kind for a long comparison, the same for the same seed: random files, right
//! and damaged, the named cases with something altered, and some steps with many choices. A third of
//! the files are edition 2, and a third of the fresh ones have nine charts or more. Each call is cheap
//! enough for this engine, which tries every open choice.

use crate::book::{self, Post};
use crate::check::accept;
use crate::command::{Command, Op, OPS};
use crate::generate::*;
use crate::limits::*;
use crate::model::Edition;
use crate::notation::write::written;
use crate::record::{named, Kind, KINDS};
use crate::set::Set;
use crate::texts::typed::right_text;

/// The most choices of one call, those of all inputs of a run together.
const CHOICES: u64 = 5_000;
/// The choices of a step that is called hard, from and to.
const HARD_CHOICES: (u64, u64) = (2_000, 60_000);
/// There are many named texts, most of them alike: of so many, one is altered.
const TEXTS: usize = 8;

/// A source of random calls.
pub struct Draw {
    random: Random,
    named: Vec<Command>,
}

impl Draw {
    /// The source of a seed.
    pub fn new(seed: u64) -> Draw {
        let of_files = KINDS.into_iter().filter(|&kind| kind != Kind::Read);
        let texts = named(Kind::Read).into_iter().step_by(TEXTS);
        let named = of_files.flat_map(named).chain(texts);
        Draw {
            random: Random::new(seed),
            named: named.map(|case| case.command).collect(),
        }
    }

    /// The next call, under a name.
    pub fn command(&mut self, name: &str) -> Command {
        let random = &mut self.random;
        match random.below(100) {
            0 => hard_step(random, name),
            1..=39 => altered(random, &self.named, name),
            _ => fresh(random, name),
        }
    }

    /// The next posting, under a name.
    pub fn post(&mut self, name: &str) -> Post {
        let files = files(&mut self.random);
        book::draw::post(&mut self.random, files, name)
    }
}

/// An edition, edition 2 in a third of the cases.
fn edition(random: &mut Random) -> Edition {
    random.pick(&[Edition::First, Edition::First, Edition::Second])
}

/// Which files are drawn: in a third of the cases those of nine charts and more.
fn files(random: &mut Random) -> Files {
    Files {
        edition: edition(random),
        size: random.pick(&[Size::Small, Size::Small, Size::Large]),
    }
}

/// A call with a random file; half of the steps are compared with all that they answer in their
/// lines.
fn fresh(random: &mut Random, name: &str) -> Command {
    let (kind, files) = (random.below(22), files(random));
    affordable(random, |random| match kind {
        0..=3 => file_command(random, files, name),
        4 | 5 => step_command(random, files, name),
        6 | 7 => step_command(random, files, name).whole_line(),
        8 | 9 => run_command(random, files, name),
        10 | 11 => rewrite_command(random, files, name),
        12 | 13 => plain_command(random, files, name),
        14 | 15 => clear_command(random, files, name),
        16 | 17 => lacking_command(random, files, name),
        18 | 19 => read_command(random, files, name),
        _ => write_command(random, files, name),
    })
}

/// The first call drawn that has few enough choices.
fn affordable(random: &mut Random, mut draw: impl FnMut(&mut Random) -> Command) -> Command {
    loop {
        let command = draw(random);
        if choices(&command) <= CHOICES {
            return command;
        }
    }
}

/// A step with many choices: many charts, many transitions, few signals.
fn hard_step(random: &mut Random, name: &str) -> Command {
    loop {
        let mut shape = shape(random, CHARTS);
        (shape.charts, shape.out) = match random.below(2) {
            0 => (
                random.between(4, EARLIER_CHARTS),
                random.between(4, STATE_TRANSITIONS),
            ),
            _ => (
                random.between(EARLIER_CHARTS + 1, CHARTS),
                random.between(1, 3),
            ),
        };
        shape.states = random.between(1, 2);
        let model = model(random, &shape).under(edition(random));
        let at = configuration(random, &model);
        let command = Command::step(
            name,
            model.file(),
            &at,
            input(random, &shape),
            model.charts.len(),
        );
        if (HARD_CHOICES.0..=HARD_CHOICES.1).contains(&choices(&command)) {
            return command;
        }
    }
}

/// A named call with something altered, once or more; in a third of the cases its file is edition 2.
fn altered(random: &mut Random, named: &[Command], name: &str) -> Command {
    affordable(random, |random| {
        let mut command = random.pick(named);
        command.name = name.to_string();
        set_edition(edition(random), &mut command.file);
        for _ in 0..random.pick(&[1, 1, 1, 2, 4]) {
            alter(random, &mut command);
        }
        command
    })
}

/// Puts an edition in the trailer of a file of another one; a file that is no edition's keeps its byte.
fn set_edition(edition: Edition, file: &mut [u8]) {
    if file.len() < TRAILER_BYTES {
        return;
    }
    let byte = &mut file[file.len() - TRAILER_BYTES + EDITION_AT];
    if Edition::of(*byte).is_some() {
        *byte = edition.number();
    }
}

/// Alters one thing of a call.
fn alter(random: &mut Random, command: &mut Command) {
    match random.below(9) {
        0 => other_call(random, command),
        1 => command.room = room(random, command.room).min(command.room + 1),
        2 => alter_inputs(random, command),
        3 => alter_bytes(random, &mut command.configuration),
        4 => command.file = [front(random), std::mem::take(&mut command.file)].concat(),
        5 => {
            let missing = random.below(30).min(command.file.len());
            command.file.drain(..missing);
        }
        6 => rebuild(random, command),
        _ => alter_bytes(random, &mut command.file),
    }
}

/// Another call with the same file, and what it needs.
fn other_call(random: &mut Random, command: &mut Command) {
    command.op = random.pick(&OPS);
    command.carried = Set::EMPTY;
    let Ok(model) = accept(&command.file) else {
        return fit_inputs(command);
    };
    command.configuration = configuration(random, &model);
    fit_inputs(command);
    let charts = model.charts.len();
    command.room = match command.op {
        Op::Check | Op::Interface | Op::Plain | Op::Lacking => 0,
        Op::First | Op::Step | Op::Open => room(random, charts),
        Op::Run => room(random, command.inputs.len() * (ROW_HEAD_BYTES + charts)),
        Op::Rewrite => room(random, 2 * command.file.len() + NODES * NODE_BYTES),
        Op::Clear => room(random, command.file.len()),
        Op::Read => {
            command.file = right_text(random, &model);
            room(random, model.file().len())
        }
        Op::Write => room(random, written(&model).len()),
    };
}

/// A step has exactly one input; a question has a chart, a place and a set.
fn fit_inputs(command: &mut Command) {
    if command.is_step() {
        command.inputs.resize(1, Set::EMPTY);
    }
    if command.op == Op::Lacking {
        let offered = command.inputs.last().copied().unwrap_or(Set::EMPTY);
        command.inputs = vec![Set(0), Set(0), offered];
    }
}

/// Changes one input, or their number, or what is carried into a run.
fn alter_inputs(random: &mut Random, command: &mut Command) {
    let any = Set(random.bits() & random.bits());
    if command.op == Op::Run && random.chance(30) {
        command.carried = any;
    }
    if command.op == Op::Run && random.chance(50) {
        command.inputs.resize(random.below(8), any);
    }
    if let Some(last) = command.inputs.last_mut() {
        *last = match random.below(3) {
            0 => any,
            1 => Set(last.0 ^ Set::one(random.below(8) as u32).0),
            _ => Set(any.0 & 0xff),
        };
    }
}

/// Changes one byte: a bit of it, or to a value that is often just right or just wrong.
fn alter_bytes(random: &mut Random, bytes: &mut [u8]) {
    if bytes.is_empty() {
        return;
    }
    let place = random.below(bytes.len());
    let value = bytes[place];
    bytes[place] = match random.below(4) {
        0 => value.wrapping_add(1),
        1 => value.wrapping_sub(1),
        2 => random.below(20) as u8,
        _ => value ^ (1 << random.below(8)),
    };
}

/// A right file with other sets, states or order, and right again unless it can't be.
fn rebuild(random: &mut Random, command: &mut Command) {
    let Ok(mut model) = accept(&command.file) else {
        return;
    };
    let chart = random.below(model.charts.len());
    let chart = &mut model.charts[chart];
    let states = usize::from(chart.states);
    let signal = Set::one(random.below(8) as u32);
    match random.below(3) {
        0 => chart.feedback = Set(chart.feedback.0 ^ signal.0),
        1 => chart.initial = random.below(states) as u8,
        _ => {
            let mut moves = chart.transitions.clone();
            random.shuffle(&mut moves);
            if let Some(first) = moves.first_mut() {
                first.needed = Set(first.needed.0 ^ signal.0);
                first.action = Set(first.action.0 ^ Set::one(random.below(8) as u32).0);
                first.to = random.below(states) as u8;
            }
            chart.transitions = moves;
        }
    }
    command.file = model.file();
}
