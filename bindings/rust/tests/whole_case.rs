//! The whole file of docs/FORMAT.md, call by call, and the rewriting of D.

mod charts;

use charts::{d, whole_case};
use mestecur::{
    check, first, interface, rewrite, rows, rows_bytes, run, step, Given, Place, Refusal, Row, Set,
    Step, CHARTS,
};

/// A row's answer for a step with this output, all choices agreeing.
fn puts_out<const N: usize>(signals: [u8; N]) -> Given {
    Given {
        output: Set::from(signals),
        mark: true,
    }
}

/// The answer of a step with this output by this transition, all choices agreeing.
fn by<const N: usize>(place: u8, signals: [u8; N]) -> Step {
    let Given { output, mark } = puts_out(signals);
    let mut places = [Place::None; CHARTS];
    places[0] = Place::Transition(place);
    Step {
        output,
        mark,
        places,
        open: 1,
    }
}

#[test]
fn the_file_is_the_documents() {
    let file = whole_case();
    assert_eq!(file.len(), 136 - 3 * 8);
    let trailer = [0x64, 0, 0, 0, 1, 0, 1, 1, 2, 0, 0, 0];
    assert_eq!(file[file.len() - 12..], trailer);
    assert_eq!(check(&file), Ok(()));
}

#[test]
fn first_and_interface() {
    let mut config = [9; 3];
    assert_eq!(first(&whole_case(), &mut config), Ok(()));
    assert_eq!(config, [0, 9, 9]);
    let found = interface(&whole_case()).unwrap();
    assert_eq!(found.input, Set::from([0, 1]));
    assert_eq!(found.output, Set::from([1]));
}

#[test]
fn step_by_step() {
    let file = whole_case();
    let mut next = [9];
    assert_eq!(step(&file, &[0], Set(1), &mut next), Ok(by(0, [1])));
    assert_eq!(next, [1]);
    assert_eq!(
        step(&file, &[1], Set(0), &mut next).unwrap_err().number(),
        23
    );
    assert_eq!(next, [1]);
    assert_eq!(step(&file, &[1], Set(2), &mut next), Ok(by(1, [])));
    assert_eq!(next, [0]);
}

#[test]
fn as_one_run() {
    let mut buffer = [0xA5; 35];
    let inputs = [Set(1), Set(0), Set(2)];
    let left = run(&whole_case(), &[0], Set::EMPTY, &inputs, &mut buffer);
    assert_eq!(left, Ok(Set::EMPTY));
    let made: Vec<Row> = rows(&buffer[..rows_bytes(3, 1)], 1).collect();
    assert_eq!(
        (made[0].answer, made[0].config),
        (Ok(puts_out([1])), &[1][..])
    );
    assert_eq!(made[1].answer.unwrap_err().number(), 23);
    assert_eq!(made[1].config, [1]);
    assert_eq!(
        (made[2].answer, made[2].config),
        (Ok(puts_out([])), &[0][..])
    );
    assert_eq!((made.len(), &buffer[33..]), (3, &[0xA5; 2][..]));
}

#[test]
fn a_run_without_inputs() {
    let left = run(&whole_case(), &[1], Set(4), &[], &mut []);
    assert_eq!(left, Ok(Set(4)));
}

/// D4 in two runs: signal 0 alone has no step and is carried, 9 with it though D does not know it; with
/// signal 3 it has one, and then nothing is carried.
#[test]
fn a_refused_day_carries_its_signals_on() {
    let mut buffer = [0; 12];
    let mut day = |carried: Set, input: Set| {
        let left = run(&d(), &[0, 1], carried, &[input], &mut buffer);
        let row = rows(&buffer, 2).next().unwrap();
        (
            left,
            row.answer.map_err(Refusal::number),
            row.config.to_vec(),
        )
    };
    let kept = Set::from([0, 9]);
    assert_eq!(day(Set::EMPTY, kept), (Ok(kept), Err(23), vec![0, 1]));
    let given = (Ok(Set::EMPTY), Ok(puts_out([1, 4])), vec![1, 1]);
    assert_eq!(day(kept, Set::from([3])), given);
}

#[test]
fn a_file_without_slaves_rewrites_to_itself() {
    let file = whole_case();
    let behind = [vec![7; 5], file.clone()].concat();
    let mut buffer = [0xA5; 200];
    assert_eq!(rewrite(&behind, &mut buffer), Ok(file.len()));
    assert_eq!(buffer[..file.len()], file);
    assert!(buffer[file.len()..].iter().all(|&byte| byte == 0xA5));
}

/// The call signal is 5 (RULES 9.7).
#[test]
fn d_rewritten_makes_the_same_steps() {
    let mut buffer = [0; 1_000];
    let length = rewrite(&d(), &mut buffer).unwrap();
    let rewritten = &buffer[..length];
    assert_eq!(check(rewritten), Ok(()));
    assert_eq!(rewritten[length - 7], 0, "slaves");
    let faces = [interface(&d()), interface(rewritten)];
    assert_eq!(faces[0], faces[1]);
    for (config, input) in
        (0..4).flat_map(|at| (0..32).map(move |input| ([at & 1, at >> 1], input)))
    {
        let (mut one, mut other) = ([9; 2], [9; 2]);
        let before = step(&d(), &config, Set(input), &mut one);
        let after = step(rewritten, &config, Set(input), &mut other);
        let before = before.map(|step| with_idle(step, config[1]));
        let after = after.map(|step| Step { open: 0, ..step });
        assert_eq!((before, one), (after, other), "{config:?} {input}");
    }
}

/// The answer of the rewritten D, the number of open choices aside: where the old chart 1 took none,
/// the new one takes the idle transition of its state, whose place is after those of its two own
/// transitions.
fn with_idle(step: Step, state: u8) -> Step {
    let mut places = step.places;
    if places[1] == Place::None {
        places[1] = Place::Transition(2 + state);
    }
    Step {
        places,
        open: 0,
        ..step
    }
}
