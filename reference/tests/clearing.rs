//! Clearing (RULES 12): the example of the rules byte for byte, what is dead by hand, and the same steps
//! on random files.

use reference::cases::charts::*;
use reference::cases::clear::known;
use reference::cleared::hold;
use reference::clearing::{clear_model, is_dead, new_place};
use reference::command::{Command, Numbers};
use reference::generate::{any, deaden, Random};
use reference::laws::REFERENCE;
use reference::limits::*;
use reference::model::{Edition, Model};
use reference::walk::configurations;
use reference::{check, clear, interface, step, Set};

/// The cleared file; what comes after it is unchanged.
fn cleared(file: &[u8]) -> Vec<u8> {
    let mut room = vec![0xA5; 20_000];
    let answer = clear(file, &mut room);
    assert_eq!(answer.refusal, 0);
    assert!(room[answer.length..].iter().all(|&byte| byte == 0xA5));
    room.truncate(answer.length);
    room
}

/// The chart of RULES 12.6.
fn example() -> Model {
    let transitions = vec![
        go(0, 1, &[0], &[], &[1]),
        go(0, 1, &[2], &[2], &[3]),
        go(1, 0, &[0], &[4], &[4]),
        go(1, 1, &[0], &[1], &[1]),
    ];
    alone(chart(2, &[4], transitions))
}

#[test]
fn the_example_byte_for_byte() {
    let low = |byte: u8| [byte, 0, 0, 0, 0, 0, 0, 0];
    let mut expected = vec![2, 0, 2, 0, 0, 0, 0, 0];
    // feedback {4}; extra {2,4}, which no guard names any more
    expected.extend([low(0x10), low(0x14)].concat());
    expected.extend([0, 1, 0, 0]);
    expected.extend([low(0x01), low(0x00), low(0x02)].concat());
    expected.extend([1, 1, 0, 0]);
    expected.extend([low(0x01), low(0x02), low(0x02)].concat());
    expected.extend([0; 20]);
    // distance 24 + 2 * 28 + 20; 1 chart, no slaves, 1 node, edition 1, 2 transitions
    expected.extend([100, 0, 0, 0, 1, 0, 1, 1, 2, 0, 0, 0]);
    assert_eq!(cleared(&example().file()), expected);
    let fronted = [&[9; 13][..], &example().file()].concat();
    assert_eq!(cleared(&fronted), expected);
}

#[test]
fn what_is_dead_by_hand() {
    for known in known() {
        let charts = known.model.charts.iter();
        let dead = charts.flat_map(|c| c.transitions.iter().filter(move |t| is_dead(c, t)));
        assert_eq!(dead.count(), known.dead, "{}", known.name);
        let new = cleared(&known.model.file());
        assert_eq!(new.len(), known.length(), "{}", known.name);
        assert_eq!(check(&new), 0, "{}", known.name);
        assert_eq!(cleared(&new), new, "{}", known.name);
        if known.dead == 0 {
            assert_eq!(new, known.model.file(), "{}", known.name);
        }
    }
}

/// The places of the example's transitions that stay: 0 and 3 become 0 and 1.
#[test]
fn places_by_hand() {
    let chart = &example().charts[0];
    assert_eq!([0, 3].map(|place| new_place(chart, place)), [0, 1]);
    let new = cleared(&example().file());
    let step = |file: &[u8]| step(file, &[1], Set::of(&[0]), &mut [0; 1]);
    let (old, new) = (step(&example().file()), step(&new));
    assert_eq!((old.places[0], new.places[0]), (3, 1));
    assert_eq!((old.output, old.mark), (new.output, new.mark));
}

/// A lost guard signal stays in the input interface; a lost output signal leaves the output interface.
#[test]
fn interfaces_by_hand() {
    let faces = |file: &[u8]| {
        let found = interface(file);
        (found.input, found.output)
    };
    let old = example().file();
    assert_eq!(faces(&old), (Set::of(&[0, 1, 2, 4]), Set::of(&[1, 3, 4])));
    let new = cleared(&old);
    assert_eq!(faces(&new), (Set::of(&[0, 1, 2, 4]), Set::of(&[1])));
}

/// Why edition 2 is refused: L2's transition is dead, and keeps its chart from staying.
#[test]
fn clearing_would_change_edition_2() {
    let old = l2().under(Edition::Second);
    let new = clear_model(&old);
    let refusal = |model: &Model| step(&model.file(), &[0], Set::EMPTY, &mut [0; 1]).refusal;
    assert_eq!((refusal(&old), refusal(&new)), (refusal::NO_STEP, 0));
}

#[test]
fn old_and_new_answer_alike_on_random_files() {
    let compared = hold(3, 150, &[REFERENCE]).unwrap();
    assert_eq!(compared.files, 150);
}

/// No permitted choice takes a dead transition: it is in no answer.
#[test]
fn a_dead_transition_is_never_taken() {
    let mut random = Random::new(8);
    let mut dead = 0;
    while dead < 500 {
        let (shape, mut model) = any(&mut random, 3);
        deaden(&mut random, &shape, &mut model);
        let file = model.file();
        for at in configurations(&model) {
            for input in [Set::EMPTY, Set::FULL, Set::of(&shape.signals)] {
                let stepped = step(&file, &at, input, &mut [0; 3]);
                for (chart, &place) in model.charts.iter().zip(&stepped.places) {
                    let taken = chart.transitions.get(usize::from(place));
                    assert!(taken.is_none_or(|t| !is_dead(chart, t)));
                }
            }
        }
        let charts = model.charts.iter();
        dead += charts
            .map(|c| c.transitions.iter().filter(|t| is_dead(c, t)).count())
            .sum::<usize>();
    }
}

/// An engine that clears by copying.
fn copies(command: &Command, lent: &mut [u8]) -> (u8, Numbers) {
    match command.op {
        reference::command::Op::Clear => {
            lent[..command.file.len()].copy_from_slice(&command.file);
            (0, Numbers::two(command.file.len() as u64, 0))
        }
        _ => command.call(lent),
    }
}

#[test]
fn an_engine_that_copies_is_caught() {
    let told = hold(3, 150, &[REFERENCE, ("other", copies)]);
    assert!(told.unwrap_err().contains("other: cleared into"));
}
