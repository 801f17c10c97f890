//! What is recorded of each kind: the named cases, then random ones.

use crate::cases::{self, Case};
use crate::command::Command;
use crate::generate::{self, Drawing, Files, Size};
use crate::model::Edition;

/// The kinds of recordings.
#[derive(Clone, Copy, PartialEq, Eq, Debug)]
pub enum Kind {
    File,
    Step,
    Run,
    Rewrite,
    Plain,
    Clear,
    Lacking,
    Read,
    Write,
}

/// All kinds.
pub const KINDS: [Kind; 9] = [
    Kind::File,
    Kind::Step,
    Kind::Run,
    Kind::Rewrite,
    Kind::Plain,
    Kind::Clear,
    Kind::Lacking,
    Kind::Read,
    Kind::Write,
];

/// The random calls of a recording of each kind: with files of edition 1, then of edition 2.
const RANDOM_FILES: [Drawing; 2] = both((0x6669_6c65, 200), (0x6669_6c66, 60));
const RANDOM_STEPS: [Drawing; 2] = both((0x7374_6570, 1_000), (0x7374_6571, 300));
const RANDOM_RUNS: [Drawing; 2] = both((0x0072_756e, 300), (0x0072_756f, 150));
const RANDOM_REWRITINGS: [Drawing; 2] = both((0x7265_7772, 250), (0x7265_7773, 40));
const RANDOM_PLAINS: [Drawing; 2] = both((0x706c_6169, 300), (0x706c_616a, 40));
const RANDOM_CLEARINGS: [Drawing; 2] = both((0x636c_6561, 200), (0x636c_6562, 30));

const RANDOM_QUESTIONS: [Drawing; 2] = both((0x6c61_636b, 400), (0x6c61_636c, 100));

/// Texts have no edition of their own: the file that is read is edition 1. The seed is one whose texts
/// meet each refusal that a text can meet.
const RANDOM_TEXTS: [Drawing; 2] = both((0x7265_616e, 200), (0x7265_616f, 0));
const RANDOM_WRITINGS: [Drawing; 2] = both((0x7772_6974, 110), (0x7772_6975, 10));

/// Steps whose lines show all that they answer, and after them the calls with files of nine charts
/// and more.
const OPEN_STEPS: [Drawing; 2] = named_both("open-random", (0x6f70_656e, 200), (0x6f70_656f, 100));
const LARGE_FILES: [Drawing; 2] = large((0x1669_6c65, 60), (0x1669_6c66, 20));
const LARGE_STEPS: [Drawing; 2] = large((0x1674_6570, 150), (0x1674_6571, 80));
const LARGE_RUNS: [Drawing; 2] = large((0x1672_756e, 50), (0x1672_756f, 30));
const LARGE_REWRITINGS: [Drawing; 2] = large((0x1665_7772, 40), (0x1665_7773, 5));
const LARGE_PLAINS: [Drawing; 2] = large((0x166c_6169, 40), (0x166c_616a, 10));
const LARGE_CLEARINGS: [Drawing; 2] = large((0x166c_6561, 40), (0x166c_6562, 5));
const LARGE_QUESTIONS: [Drawing; 2] = large((0x1661_636b, 60), (0x1661_636c, 20));
const LARGE_WRITINGS: [Drawing; 2] = large((0x1672_6974, 25), (0x1672_6975, 5));

/// What makes the calls of a drawing.
type Make = fn(Drawing) -> Vec<Command>;

/// Seed and number of calls with files of edition 1, and of edition 2.
const fn both(first: (u64, usize), second: (u64, usize)) -> [Drawing; 2] {
    named_both("random", first, second)
}

/// The same under a name.
const fn named_both(name: &'static str, first: (u64, usize), second: (u64, usize)) -> [Drawing; 2] {
    [
        drawing(name, first, Edition::First, Size::Small),
        drawing(name, second, Edition::Second, Size::Small),
    ]
}

/// The same with large files.
const fn large(first: (u64, usize), second: (u64, usize)) -> [Drawing; 2] {
    [
        drawing("large-random", first, Edition::First, Size::Large),
        drawing("large-random", second, Edition::Second, Size::Large),
    ]
}

/// One drawing.
const fn drawing(
    name: &'static str,
    (seed, count): (u64, usize),
    edition: Edition,
    size: Size,
) -> Drawing {
    Drawing {
        name,
        seed,
        count,
        files: Files { edition, size },
    }
}

impl Kind {
    /// The kind of a word on the command line.
    pub fn of(word: &str) -> Option<Kind> {
        match word {
            "file" => Some(Kind::File),
            "step" => Some(Kind::Step),
            "run" => Some(Kind::Run),
            "rewrite" => Some(Kind::Rewrite),
            "plain" => Some(Kind::Plain),
            "clear" => Some(Kind::Clear),
            "lacking" => Some(Kind::Lacking),
            "read" => Some(Kind::Read),
            "write" => Some(Kind::Write),
            _ => None,
        }
    }
}

/// The named cases of a kind: of edition 1, then of edition 2, then those of files with nine charts
/// and more and of open choices.
pub fn named(kind: Kind) -> Vec<Case> {
    let lists = match kind {
        Kind::File => vec![
            cases::file::cases(),
            cases::first_interface::cases(),
            cases::second::file_cases(),
            cases::many::file_cases(),
        ],
        Kind::Step => vec![
            cases::rows::cases(),
            cases::step::cases(),
            cases::second::step_cases(),
            cases::many::step_cases(),
        ],
        Kind::Run => vec![
            cases::run::cases(),
            cases::second::run_cases(),
            cases::many::run_cases(),
        ],
        Kind::Rewrite => vec![
            cases::rewrite::cases(),
            cases::second::rewrite_cases(),
            cases::many::rewrite_cases(),
        ],
        Kind::Plain => vec![
            cases::plain::cases(),
            cases::second::plain_cases(),
            cases::many::plain_cases(),
        ],
        Kind::Clear => vec![
            cases::clear::cases(),
            cases::second::clear_cases(),
            cases::many::clear_cases(),
        ],
        Kind::Lacking => vec![cases::lacking::cases()],
        Kind::Read => vec![cases::read::cases()],
        Kind::Write => vec![cases::write::cases()],
    };
    lists.into_iter().flatten().collect()
}

/// The random calls of a kind: those with files of up to eight charts, then the others.
pub fn random(kind: Kind) -> Vec<Command> {
    let (drawings, make): ([Drawing; 2], Make) = match kind {
        Kind::File => (RANDOM_FILES, generate::file_commands),
        Kind::Step => (RANDOM_STEPS, generate::step_commands),
        Kind::Run => (RANDOM_RUNS, generate::run_commands),
        Kind::Rewrite => (RANDOM_REWRITINGS, generate::rewrite_commands),
        Kind::Plain => (RANDOM_PLAINS, generate::plain_commands),
        Kind::Clear => (RANDOM_CLEARINGS, generate::clear_commands),
        Kind::Lacking => (RANDOM_QUESTIONS, generate::lacking_commands),
        Kind::Read => (RANDOM_TEXTS, generate::read_commands),
        Kind::Write => (RANDOM_WRITINGS, generate::write_commands),
    };
    let later: Vec<Drawing> = match kind {
        Kind::File => LARGE_FILES.to_vec(),
        Kind::Step => [OPEN_STEPS, LARGE_STEPS].concat(),
        Kind::Run => LARGE_RUNS.to_vec(),
        Kind::Rewrite => LARGE_REWRITINGS.to_vec(),
        Kind::Plain => LARGE_PLAINS.to_vec(),
        Kind::Clear => LARGE_CLEARINGS.to_vec(),
        Kind::Lacking => LARGE_QUESTIONS.to_vec(),
        Kind::Read => vec![],
        Kind::Write => LARGE_WRITINGS.to_vec(),
    };
    let earlier = drawings.into_iter().flat_map(make);
    let later = later.into_iter().flat_map(make).map(Command::whole_line);
    earlier.chain(later).collect()
}

/// All calls of a kind, in the order of the recording.
pub fn commands(kind: Kind) -> Vec<Command> {
    let named = named(kind).into_iter().map(|case| case.command);
    named.chain(random(kind)).collect()
}

/// The recorded bytes of calls.
pub fn encode(commands: &[Command]) -> Vec<u8> {
    commands.iter().flat_map(Command::encode).collect()
}

/// The lines that calls answer.
pub fn lines(commands: &[Command]) -> String {
    commands
        .iter()
        .map(|command| command.answer().line)
        .collect()
}
