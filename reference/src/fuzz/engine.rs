//! A call made in the proved engine: by its own functions, and through its binding for Rust.

use crate::command::{Command, Numbers, Op};
use crate::limits::CHARTS;
use crate::step::Places;
use mestecur::raw::*;
use mestecur::{Place, Refusal, Set, Step, Tested};

/// What a number behind a pointer is before a call.
const BEFORE: u64 = 0x5A5A_5A5A_5A5A_5A5A;

/// The call by the engine's own functions; the numbers are those that it leaves behind the pointers.
pub fn raw(command: &Command, lent: &mut [u8]) -> (u8, Numbers) {
    let (file, long) = (command.file.as_ptr(), command.file.len());
    let (config, charts) = (command.configuration.as_ptr(), command.configuration.len());
    let inputs: Vec<u64> = command.inputs.iter().map(|set| set.0).collect();
    let (out, room) = (lent.as_mut_ptr(), lent.len());
    let (mut one, mut other, mut mark, mut length) =
        (BEFORE, BEFORE, BEFORE as u8, BEFORE as usize);
    let mut places = [BEFORE as u8; CHARTS];
    // SAFETY: each pointer is that of a slice with the length beside it, or of a number of our own;
    // what is written overlaps nothing else.
    unsafe {
        match command.op {
            Op::Check => (mestecur_check(file, long), Numbers::NONE),
            Op::First => (mestecur_first(file, long, out, room), Numbers::NONE),
            Op::Interface => {
                let refusal = mestecur_interface(file, long, &mut one, &mut other);
                (refusal, Numbers::two(one, other))
            }
            Op::Step | Op::Open => {
                let mut open = BEFORE;
                let refusal = mestecur_step(
                    file,
                    long,
                    config,
                    charts,
                    inputs[0],
                    out,
                    room,
                    &mut one,
                    &mut mark,
                    &mut places,
                    &mut open,
                );
                let two = [one, u64::from(mark)];
                (refusal, Numbers { two, places, open })
            }
            Op::Run => {
                let (list, count) = (inputs.as_ptr(), inputs.len());
                let carried = command.carried.0;
                let refusal = mestecur_run(
                    file, long, config, charts, carried, list, count, out, room, &mut one,
                );
                (refusal, Numbers::two(one, 0))
            }
            Op::Rewrite => {
                let refusal = mestecur_rewrite(file, long, out, room, &mut length);
                (refusal, Numbers::two(length as u64, 0))
            }
            Op::Plain => {
                let mut plain = BEFORE as u8;
                let refusal = mestecur_plain(file, long, &mut plain);
                (refusal, Numbers::two(u64::from(plain), 0))
            }
            Op::Clear => {
                let refusal = mestecur_clear(file, long, out, room, &mut length);
                (refusal, Numbers::two(length as u64, 0))
            }
            Op::Lacking => {
                let (mut answer, mut signal) = (BEFORE as u8, BEFORE as u8);
                let (chart, place) = (inputs[0] as usize, inputs[1] as usize);
                let refusal = mestecur_lacking(
                    file,
                    long,
                    chart,
                    place,
                    inputs[2],
                    &mut answer,
                    &mut signal,
                );
                (refusal, Numbers::two(u64::from(answer), u64::from(signal)))
            }
            Op::Read => {
                let mut place = BEFORE as usize;
                let refusal = mestecur_read(file, long, out, room, &mut length, &mut place);
                (refusal, Numbers::two(length as u64, place as u64))
            }
            Op::Write => {
                let refusal = mestecur_write(file, long, out, room, &mut length);
                (refusal, Numbers::two(length as u64, 0))
            }
        }
    }
}

/// The call through the binding; a refusal has no numbers, but for that of open choices.
pub fn binding(command: &Command, lent: &mut [u8]) -> (u8, Numbers) {
    let (file, config) = (&command.file, &command.configuration);
    let inputs: Vec<Set> = command.inputs.iter().map(|set| Set(set.0)).collect();
    let answer = match command.op {
        Op::Check => mestecur::check(file).map(|()| Numbers::NONE),
        Op::First => mestecur::first(file, lent).map(|()| Numbers::NONE),
        Op::Interface => {
            mestecur::interface(file).map(|found| Numbers::two(found.input.0, found.output.0))
        }
        Op::Step | Op::Open => return step(file, config, inputs[0], lent),
        Op::Read => return read(file, lent),
        Op::Run => mestecur::run(file, config, Set(command.carried.0), &inputs, lent)
            .map(|carried| Numbers::two(carried.0, 0)),
        Op::Rewrite => mestecur::rewrite(file, lent).map(|length| Numbers::two(length as u64, 0)),
        Op::Plain => mestecur::plain(file).map(|plain| Numbers::two(u64::from(plain), 0)),
        Op::Clear => mestecur::clear(file, lent).map(|length| Numbers::two(length as u64, 0)),
        Op::Write => mestecur::write(file, lent).map(|length| Numbers::two(length as u64, 0)),
        Op::Lacking => {
            let (chart, place) = (inputs[0].0 as usize, inputs[1].0 as usize);
            mestecur::lacking(file, chart, place, inputs[2]).map(|tested| match tested {
                Tested::Met => Numbers::two(0, 0),
                Tested::Absent(signal) => Numbers::two(1, u64::from(signal)),
                Tested::Present(signal) => Numbers::two(2, u64::from(signal)),
            })
        }
    };
    answer.map_or_else(
        |refusal: Refusal| (refusal.number(), Numbers::NONE),
        |numbers| (0, numbers),
    )
}

/// A step through the binding.
fn step(file: &[u8], config: &[u8], input: Set, lent: &mut [u8]) -> (u8, Numbers) {
    match mestecur::step(file, config, input, lent) {
        Ok(step) => {
            let numbers = Numbers {
                two: [step.output.0, u64::from(step.mark)],
                places: places(&step),
                open: step.open,
            };
            (0, numbers)
        }
        Err(refused) => {
            let open = refused.open;
            (
                refused.number(),
                Numbers {
                    open,
                    ..Numbers::NONE
                },
            )
        }
    }
}

/// A text read through the binding.
fn read(text: &[u8], lent: &mut [u8]) -> (u8, Numbers) {
    match mestecur::read(text, lent) {
        Ok(length) => (0, Numbers::two(length as u64, 0)),
        Err(refused) => (refused.number(), Numbers::two(0, refused.place as u64)),
    }
}

/// The places of a step that the binding gives, as bytes (RULES 5.11).
pub fn places(step: &Step) -> Places {
    step.places.map(Place::number)
}
