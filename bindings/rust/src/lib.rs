//! The proved chart engine for Rust. docs/RULES.md defines chart files and every answer, and is
//! cited here as RULES; docs/PROMISES.md says what is proved of each call.
//!
//! Every call takes slices and gives a result: its answer, or the [`Refusal`]. A call that is
//! refused leaves every buffer unchanged; one that succeeds writes to the front of the buffer, and
//! leaves the rest of it unchanged (RULES 1.4).
//!
//! ```no_run
//! # fn main() -> Result<(), Box<dyn std::error::Error>> {
//! use mestecur::{first, step, Place, Set};
//! let file = std::fs::read("door.chart")?;
//! let (mut now, mut next) = ([0; 2], [0; 2]);
//! first(&file, &mut now)?;
//! let done = step(&file, &now, Set::from([0, 3]), &mut next)?;
//! println!("puts out {} and goes to {next:?}", done.output);
//! match done.places[0] {
//!     Place::Transition(place) => println!("chart 0 took transition {place} of its list"),
//!     Place::Stayed => println!("chart 0 stayed: nothing triggered it"),
//!     Place::None => println!("chart 0 was inactive"),
//! }
//! # Ok(())
//! # }
//! ```

mod lacking;
mod place;
mod posting;
pub mod raw;
mod reading;
mod refusal;
mod row;
mod set;
mod writing;

pub use lacking::{lacking, Tested};
pub use place::{Place, Places, CHARTS};
pub use posting::{post, posted_bytes, posted_rows, Case, Entry, PostedRow, CASES, CONFIGURATION};
pub use reading::{read, RefusedText, FILE_BYTES};
pub use refusal::{Refusal, RefusedStep};
pub use row::{rows, rows_bytes, Given, Row};
pub use set::{Set, Signals};
pub use writing::{text, write, TEXT_BYTES};

/// The signals that a file looks at, and those that it can output (RULES 4).
#[derive(Clone, Copy, PartialEq, Eq, Debug)]
pub struct Interface {
    pub input: Set,
    pub output: Set,
}

/// The most open choices of a step that is not refused with 24 (RULES 2.8).
pub const OPEN_CHOICES: u64 = 16_777_216;

/// What a step gives beside the next configuration.
#[derive(Clone, Copy, PartialEq, Eq, Debug)]
pub struct Step {
    pub output: Set,
    /// Whether all permitted choices have the same output and the same next configuration (RULES
    /// 5.10).
    pub mark: bool,
    /// What each chart did.
    pub places: Places,
    /// The number of open choices: those that fit the present states and leave no active chart out,
    /// whether or not their guards are met (RULES 5.15).
    pub open: u64,
}

/// Tests whether a file is accepted. Refusals 1 to 11.
pub fn check(file: &[u8]) -> Result<(), Refusal> {
    // SAFETY: the pointer is that of a slice with this length.
    Refusal::unless_zero(unsafe { raw::mestecur_check(file.as_ptr(), file.len()) })
}

/// Writes the first configuration, the initial state of every chart, to the front of the buffer
/// (RULES 6.1). Refusals 1 to 11, 22.
pub fn first(file: &[u8], config: &mut [u8]) -> Result<(), Refusal> {
    // SAFETY: the pointers are those of slices with these lengths; the one written overlaps nothing
    // else.
    Refusal::unless_zero(unsafe {
        raw::mestecur_first(file.as_ptr(), file.len(), config.as_mut_ptr(), config.len())
    })
}

/// The interface of a file. Refusals 1 to 11.
pub fn interface(file: &[u8]) -> Result<Interface, Refusal> {
    let (mut input, mut output) = (0, 0);
    // SAFETY: the pointers are those of a slice with this length and of two numbers of our own.
    Refusal::unless_zero(unsafe {
        raw::mestecur_interface(file.as_ptr(), file.len(), &mut input, &mut output)
    })?;
    Ok(Interface {
        input: Set(input),
        output: Set(output),
    })
}

/// Makes one step from a configuration under an input (RULES 5), and writes the next configuration
/// to the front of the buffer. Refusals 1 to 11, 20, 21, 22, 24, 23. A step with more than
/// [`OPEN_CHOICES`] open choices is refused with 24, and the error has their number.
pub fn step(file: &[u8], config: &[u8], input: Set, next: &mut [u8]) -> Result<Step, RefusedStep> {
    let (mut output, mut mark, mut places, mut open) = (0, 0, [Place::NO_PLACE; CHARTS], 0);
    // SAFETY: the pointers are those of slices with these lengths, of three numbers and of as many bytes
    // as there can be charts, of our own; the slice written overlaps nothing else.
    let answer = Refusal::unless_zero(unsafe {
        raw::mestecur_step(
            file.as_ptr(),
            file.len(),
            config.as_ptr(),
            config.len(),
            input.0,
            next.as_mut_ptr(),
            next.len(),
            &mut output,
            &mut mark,
            &mut places,
            &mut open,
        )
    });
    answer.map_err(|refusal| RefusedStep { refusal, open })?;
    Ok(Step {
        output: Set(output),
        mark: mark == 1,
        places: Place::all(&places, config.len()),
        open,
    })
}

/// Makes one step for each input, in order, starting from a configuration and with a carried set
/// (RULES 6). Writes one row for each input to the front of the buffer; [`rows`] reads them. The
/// signals of a refused step are carried: the following steps are made under their input and the
/// carried signals together, up to the first that is given. Returns what is carried after the last
/// input, for the run that continues from there. Refusals 1 to 11, 20, 21, 27.
pub fn run(
    file: &[u8],
    config: &[u8],
    carried: Set,
    inputs: &[Set],
    buffer: &mut [u8],
) -> Result<Set, Refusal> {
    let mut carried_on = 0;
    // SAFETY: the pointers are those of slices with these lengths and of a number of our own, and a set
    // is laid out as its number; the slice written overlaps nothing else.
    Refusal::unless_zero(unsafe {
        raw::mestecur_run(
            file.as_ptr(),
            file.len(),
            config.as_ptr(),
            config.len(),
            carried.0,
            inputs.as_ptr().cast(),
            inputs.len(),
            buffer.as_mut_ptr(),
            buffer.len(),
            &mut carried_on,
        )
    })?;
    Ok(Set(carried_on))
}

/// Writes a file without slaves that makes the same steps to the front of the buffer, and returns
/// its length (RULES 9). Files of edition 2 can't be rewritten. Refusals 1 to 11, 46, 40 to 42, 44,
/// 45.
pub fn rewrite(file: &[u8], buffer: &mut [u8]) -> Result<usize, Refusal> {
    writing::made(raw::mestecur_rewrite, file, buffer)
}

/// Writes the file without its dead transitions to the front of the buffer, and returns its length
/// (RULES 12). The new file makes the same steps; places count in its shorter lists. A buffer of the
/// file's length is always enough. Files of edition 2 can't be cleared. Refusals 1 to 11, 46, 45.
pub fn clear(file: &[u8], buffer: &mut [u8]) -> Result<usize, Refusal> {
    writing::made(raw::mestecur_clear, file, buffer)
}

/// Whether a file is plain (RULES 8). Every step of a plain file that is given has the mark yes.
/// Refusals 1 to 11.
pub fn plain(file: &[u8]) -> Result<bool, Refusal> {
    let mut plain = 0;
    // SAFETY: the pointers are those of a slice with this length and of a number of our own.
    Refusal::unless_zero(unsafe { raw::mestecur_plain(file.as_ptr(), file.len(), &mut plain) })?;
    Ok(plain == 1)
}
