//! One call as recorded bytes, and its answer as a line of text.
//!
//! A command is a header of 24 bytes, numbers little-endian: op (1 byte), length of the name (1),
//! of the configuration (2), of the file (4), room, which is the length of the buffer (4), number
//! of inputs (2), two zero bytes, what is carried into a run (8). Then the name, the file, the
//! configuration, the inputs (8 bytes each). Before the call each byte of the buffer is [`FILL`].

use crate::limits::EARLIER_CHARTS;
use crate::set::Set;
use crate::step::NO_PLACES;
use crate::{
    check, clear, first, interface, lacking, plain, read, rewrite, run, step, write, Places,
};

/// The value of each byte of the buffer before a call.
pub const FILL: u8 = 0xA5;
/// The bytes of a command's header.
pub const HEADER_BYTES: usize = 24;
/// The longest file and the largest buffer of a command.
pub const MOST_BYTES: usize = 65_536;
/// The most inputs of a command.
pub const MOST_INPUTS: usize = 4_096;

/// Which call is made, and what its line shows.
#[derive(Clone, Copy, PartialEq, Eq, Debug)]
pub enum Op {
    Check,
    First,
    Interface,
    /// A step, as it was recorded before there were more than eight charts: its line shows the
    /// places of the first eight.
    Step,
    Run,
    Rewrite,
    Plain,
    Clear,
    /// A step: its line shows all places, and the number of open choices.
    Open,
    /// What a transition lacks: the inputs are the chart's number, the place, and the offered set.
    Lacking,
    /// Typed text read into a file: the text stands where other calls have their file.
    Read,
    /// The text of a file.
    Write,
}

/// All ops; the place of each is its number in the header.
pub const OPS: [Op; 12] = [
    Op::Check,
    Op::First,
    Op::Interface,
    Op::Step,
    Op::Run,
    Op::Rewrite,
    Op::Plain,
    Op::Clear,
    Op::Open,
    Op::Lacking,
    Op::Read,
    Op::Write,
];

/// One call, with all that is passed to it.
#[derive(Clone, PartialEq, Eq, Debug)]
pub struct Command {
    pub op: Op,
    pub name: String,
    pub file: Vec<u8>,
    pub configuration: Vec<u8>,
    pub room: usize,
    /// What is carried into a run; nothing in other calls.
    pub carried: Set,
    pub inputs: Vec<Set>,
}

/// What a call answers beside its refusal and its buffer: up to two numbers, 0 where it has none,
/// and a step's places and number of open choices.
#[derive(Clone, Copy, PartialEq, Eq, Debug)]
pub struct Numbers {
    pub two: [u64; 2],
    pub places: Places,
    pub open: u64,
}

impl Numbers {
    /// The numbers of a call that answers none, or is refused.
    pub const NONE: Numbers = Numbers::two(0, 0);

    /// The numbers of a call that is no step.
    pub const fn two(one: u64, other: u64) -> Numbers {
        Numbers {
            two: [one, other],
            places: NO_PLACES,
            open: 0,
        }
    }
}

/// How an engine makes a call: with a buffer, giving the refusal and the numbers.
pub type Call = fn(&Command, &mut [u8]) -> (u8, Numbers);

/// The answer of a call: the refusal, and the line that is printed for it.
#[derive(Clone, PartialEq, Eq, Debug)]
pub struct Answer {
    pub refusal: u8,
    pub line: String,
}

impl Command {
    /// A check of a file.
    pub fn check(name: &str, file: Vec<u8>) -> Command {
        Command {
            op: Op::Check,
            name: name.to_string(),
            file,
            configuration: vec![],
            room: 0,
            carried: Set::EMPTY,
            inputs: vec![],
        }
    }

    /// The first configuration of a file, into a buffer of this length.
    pub fn first(name: &str, file: Vec<u8>, room: usize) -> Command {
        Command {
            op: Op::First,
            room,
            ..Command::check(name, file)
        }
    }

    /// The interface of a file.
    pub fn interface(name: &str, file: Vec<u8>) -> Command {
        Command {
            op: Op::Interface,
            ..Command::check(name, file)
        }
    }

    /// A step of a file, into a buffer of this length.
    pub fn step(
        name: &str,
        file: Vec<u8>,
        configuration: &[u8],
        input: Set,
        room: usize,
    ) -> Command {
        Command {
            op: Op::Step,
            configuration: configuration.to_vec(),
            room,
            inputs: vec![input],
            ..Command::check(name, file)
        }
    }

    /// The same call; the line of a step shows all that it answers.
    pub fn whole_line(self) -> Command {
        match self.op {
            Op::Step => Command {
                op: Op::Open,
                ..self
            },
            _ => self,
        }
    }

    /// Whether it is a step.
    pub fn is_step(&self) -> bool {
        matches!(self.op, Op::Step | Op::Open)
    }

    /// A run of a file with nothing carried into it, into a buffer of this length.
    pub fn run(
        name: &str,
        file: Vec<u8>,
        configuration: &[u8],
        inputs: &[Set],
        room: usize,
    ) -> Command {
        Command {
            op: Op::Run,
            configuration: configuration.to_vec(),
            room,
            inputs: inputs.to_vec(),
            ..Command::check(name, file)
        }
    }

    /// The same run with this set carried into it.
    pub fn carrying(self, carried: Set) -> Command {
        Command { carried, ..self }
    }

    /// The rewriting of a file, into a buffer of this length.
    pub fn rewrite(name: &str, file: Vec<u8>, room: usize) -> Command {
        Command {
            op: Op::Rewrite,
            room,
            ..Command::check(name, file)
        }
    }

    /// Whether a file is plain.
    pub fn plain(name: &str, file: Vec<u8>) -> Command {
        Command {
            op: Op::Plain,
            ..Command::check(name, file)
        }
    }

    /// The clearing of a file, into a buffer of this length.
    pub fn clear(name: &str, file: Vec<u8>, room: usize) -> Command {
        Command {
            op: Op::Clear,
            room,
            ..Command::check(name, file)
        }
    }

    /// What the transition at a place of a chart's list lacks under an offered set.
    pub fn lacking(name: &str, file: Vec<u8>, chart: u64, place: u64, offered: Set) -> Command {
        Command {
            op: Op::Lacking,
            inputs: vec![Set(chart), Set(place), offered],
            ..Command::check(name, file)
        }
    }

    /// The reading of a text, into a buffer of this length.
    pub fn read(name: &str, text: Vec<u8>, room: usize) -> Command {
        Command {
            op: Op::Read,
            room,
            ..Command::check(name, text)
        }
    }

    /// The text of a file, into a buffer of this length.
    pub fn write(name: &str, file: Vec<u8>, room: usize) -> Command {
        Command {
            op: Op::Write,
            room,
            ..Command::check(name, file)
        }
    }

    /// Whether it is small enough to be recorded.
    pub fn can_be_recorded(&self) -> bool {
        let bytes = self.file.len().max(self.room);
        bytes <= MOST_BYTES && self.inputs.len() <= MOST_INPUTS
    }

    /// The command as recorded bytes.
    pub fn encode(&self) -> Vec<u8> {
        assert!(self.can_be_recorded());
        let op = OPS.iter().position(|&op| op == self.op).unwrap();
        let mut bytes = vec![op as u8, u8::try_from(self.name.len()).unwrap()];
        let configuration = u16::try_from(self.configuration.len()).unwrap();
        let inputs = u16::try_from(self.inputs.len()).unwrap();
        bytes.extend(configuration.to_le_bytes());
        bytes.extend((self.file.len() as u32).to_le_bytes());
        bytes.extend((self.room as u32).to_le_bytes());
        bytes.extend(inputs.to_le_bytes());
        bytes.extend([0; 2]);
        bytes.extend(self.carried.bytes());
        bytes.extend(self.name.as_bytes());
        bytes.extend(&self.file);
        bytes.extend(&self.configuration);
        bytes.extend(self.inputs.iter().flat_map(|input| input.bytes()));
        bytes
    }

    /// The answer of the call, made here with a buffer of its own.
    pub fn answer(&self) -> Answer {
        self.answer_by(Command::call)
    }

    /// The answer of the call as an engine makes it, with a buffer of its own.
    pub fn answer_by(&self, call: Call) -> Answer {
        let mut lent = vec![FILL; self.room];
        let (refusal, numbers) = call(self, &mut lent);
        let mut line = format!("{} {}", self.name, word(self.op));
        let fields = self.fields(numbers, &lent);
        for field in [vec![refusal.to_string()], fields].concat() {
            line.push(' ');
            line.push_str(&field);
        }
        line.push('\n');
        Answer { refusal, line }
    }

    /// The fields of a line after the refusal: the call's numbers, and its buffer.
    fn fields(&self, numbers: Numbers, lent: &[u8]) -> Vec<String> {
        let [one, other] = numbers.two;
        let mark = if other == 1 { "y" } else { "n" };
        let lent = if lent.is_empty() {
            "-".to_string()
        } else {
            hex(lent)
        };
        match self.op {
            Op::Check => vec![],
            Op::First => vec![lent],
            Op::Run => vec![Set(one).hex(), lent],
            Op::Interface => vec![Set(one).hex(), Set(other).hex()],
            Op::Step => {
                let places = hex(&numbers.places[..EARLIER_CHARTS]);
                vec![Set(one).hex(), mark.to_string(), places, lent]
            }
            Op::Open => {
                let (places, open) = (hex(&numbers.places), numbers.open.to_string());
                vec![Set(one).hex(), mark.to_string(), places, open, lent]
            }
            Op::Rewrite | Op::Clear | Op::Write => vec![one.to_string(), lent],
            Op::Plain => vec![one.to_string()],
            Op::Lacking => vec![one.to_string(), other.to_string()],
            Op::Read => vec![one.to_string(), other.to_string(), lent],
        }
    }

    /// Makes the call: its refusal, and the numbers that it answers.
    pub fn call(&self, lent: &mut [u8]) -> (u8, Numbers) {
        let (file, at) = (&self.file, &self.configuration);
        match self.op {
            Op::Check => (check(file), Numbers::NONE),
            Op::First => (first(file, lent), Numbers::NONE),
            Op::Interface => {
                let found = interface(file);
                (found.refusal, Numbers::two(found.input.0, found.output.0))
            }
            Op::Step | Op::Open => {
                let stepped = step(file, at, self.inputs[0], lent);
                let numbers = Numbers {
                    two: [stepped.output.0, u64::from(stepped.mark)],
                    places: stepped.places,
                    open: stepped.open,
                };
                (stepped.refusal, numbers)
            }
            Op::Run => {
                let ran = run(file, at, self.carried, &self.inputs, lent);
                (ran.refusal, Numbers::two(ran.carried.0, 0))
            }
            Op::Rewrite => {
                let rewritten = rewrite(file, lent);
                let length = rewritten.length as u64;
                (rewritten.refusal, Numbers::two(length, 0))
            }
            Op::Plain => {
                let found = plain(file);
                (found.refusal, Numbers::two(u64::from(found.plain), 0))
            }
            Op::Clear => {
                let cleared = clear(file, lent);
                (cleared.refusal, Numbers::two(cleared.length as u64, 0))
            }
            Op::Lacking => {
                let (chart, place) = (self.inputs[0].0, self.inputs[1].0);
                match lacking(file, chart, place, self.inputs[2]) {
                    Ok(shown) => {
                        let (which, signal) = shown.numbers();
                        (0, Numbers::two(which, signal))
                    }
                    Err(refusal) => (refusal, Numbers::NONE),
                }
            }
            Op::Read => {
                let answer = read(file, lent);
                let numbers = Numbers::two(answer.length as u64, answer.place as u64);
                (answer.refusal, numbers)
            }
            Op::Write => {
                let written = write(file, lent);
                (written.refusal, Numbers::two(written.length as u64, 0))
            }
        }
    }
}

/// The word of an op in a line.
fn word(op: Op) -> &'static str {
    match op {
        Op::Check => "check",
        Op::First => "first",
        Op::Interface => "interface",
        Op::Step => "step",
        Op::Run => "run",
        Op::Rewrite => "rewrite",
        Op::Plain => "plain",
        Op::Clear => "clear",
        Op::Open => "open",
        Op::Lacking => "lacking",
        Op::Read => "read",
        Op::Write => "write",
    }
}

/// Bytes in hex, two lower-case digits each.
pub fn hex(bytes: &[u8]) -> String {
    bytes.iter().map(|byte| format!("{byte:02x}")).collect()
}

/// Recorded bytes as commands, or what is wrong with them.
pub fn decode_all(mut bytes: &[u8]) -> Result<Vec<Command>, String> {
    let mut commands = Vec::new();
    while !bytes.is_empty() {
        commands.push(decode(&mut bytes).map_err(|what| {
            let place = commands.len();
            format!("command {place}: {what}")
        })?);
    }
    Ok(commands)
}

/// The next recorded command, taken off the bytes.
fn decode(bytes: &mut &[u8]) -> Result<Command, String> {
    let header = take(bytes, HEADER_BYTES)?;
    let number = |from: usize, to: usize| {
        let digits = header[from..to].iter().rev();
        digits.fold(0, |sum, &byte| sum * 256 + usize::from(byte))
    };
    let carried = Set(u64::from_le_bytes(header[16..].try_into().unwrap()));
    let op = *OPS.get(number(0, 1)).ok_or("no such op")?;
    let (room, inputs) = (number(8, 12), number(12, 14));
    let name = take(bytes, number(1, 2))?;
    let file = take(bytes, number(4, 8))?.to_vec();
    let configuration = take(bytes, number(2, 4))?.to_vec();
    let inputs = take(bytes, inputs * 8)?;
    if room > MOST_BYTES || file.len() > MOST_BYTES || inputs.len() > MOST_INPUTS * 8 {
        return Err("too large".to_string());
    }
    if matches!(op, Op::Step | Op::Open) && inputs.len() != 8 {
        return Err("a step has exactly one input".to_string());
    }
    if op == Op::Lacking && inputs.len() != 3 * 8 {
        return Err("a question has a chart, a place and a set".to_string());
    }
    Ok(Command {
        op,
        name: String::from_utf8(name.to_vec()).map_err(|_| "name not text")?,
        file,
        configuration,
        room,
        carried,
        inputs: inputs
            .chunks_exact(8)
            .map(|set| Set(u64::from_le_bytes(set.try_into().unwrap())))
            .collect(),
    })
}

/// The next bytes, if there are that many.
pub fn take<'a>(bytes: &mut &'a [u8], count: usize) -> Result<&'a [u8], String> {
    if bytes.len() < count {
        return Err("breaks off".to_string());
    }
    let (taken, rest) = bytes.split_at(count);
    *bytes = rest;
    Ok(taken)
}
