//! Edition 2: an active chart that nothing triggers may stay.

mod charts;

use charts::*;
use mestecur::{
    check, first, interface, rows, rows_bytes, run, step, Given, Place, Places, Refusal, Set,
    CHARTS,
};

/// What a step says: the next configuration, the output, the mark and the places of the first charts.
type Says = Result<(Vec<u8>, Set, bool, Vec<Place>), u8>;

/// A step under edition 2, the places of charts that there are not left out.
fn stepped(file: &[u8], at: &[u8], input: &[u8]) -> Says {
    let file = edition_2(file.to_vec());
    let mut next = vec![0xA5; at.len() + 1];
    let answer = step(&file, at, input.iter().copied().collect(), &mut next);
    assert_eq!(next.pop(), Some(0xA5));
    match answer {
        Ok(done) => {
            let (charts, rest) = done.places.split_at(at.len());
            assert!(rest.iter().all(|&place| place == Place::None));
            Ok((next, done.output, done.mark, charts.to_vec()))
        }
        Err(refusal) => {
            assert!(next.iter().all(|&byte| byte == 0xA5));
            Err(refusal.number())
        }
    }
}

/// A step that is given.
fn given(next: &[u8], output: &[u8], mark: bool, places: &[Place]) -> Says {
    let output = output.iter().copied().collect();
    Ok((next.to_vec(), output, mark, places.to_vec()))
}

/// One chart of one transition from 0 to 1.
fn one(feedback: &[u8], needed: &[u8], barred: &[u8], action: &[u8]) -> Chart {
    chart(feedback, vec![go(0, 1, needed, barred, action)])
}

const STAYED: Place = Place::Stayed;
const FIRST: Place = Place::Transition(0);

/// L1 moves by its own output, or stays. On the empty input L2 is triggered and prevented by its
/// own output, so it can do neither; under {0} it stays. L3 lacks what it needs and stays.
#[test]
fn one_chart() {
    let l1 = alone(one(&[0], &[0], &[], &[0]));
    let l2 = alone(one(&[0], &[], &[0], &[0]));
    let l3 = alone(one(&[], &[0], &[], &[0]));
    assert_eq!(stepped(&l1, &[0], &[]), given(&[1], &[0], false, &[FIRST]));
    assert_eq!(stepped(&l2, &[0], &[]), Err(23));
    assert_eq!(stepped(&l2, &[0], &[0]), given(&[0], &[], true, &[STAYED]));
    assert_eq!(stepped(&l3, &[0], &[]), given(&[0], &[], true, &[STAYED]));
    let still = alone(chart(&[], vec![]));
    assert_eq!(
        stepped(&still, &[1], &[5]),
        given(&[1], &[], true, &[STAYED])
    );
}

/// P2's second chart stays, since what it needs is not fed back; of P4 both move or both stay.
#[test]
fn two_charts() {
    let p2 = beside(one(&[], &[0], &[], &[1]), one(&[], &[1], &[], &[2]), &[]);
    let p4 = beside(
        one(&[], &[1], &[], &[0]),
        one(&[], &[0], &[], &[1]),
        &[0, 1],
    );
    assert_eq!(
        stepped(&p2, &[0, 0], &[0]),
        given(&[1, 0], &[1], true, &[FIRST, STAYED])
    );
    assert_eq!(
        stepped(&p4, &[0, 0], &[]),
        given(&[1, 1], &[0, 1], false, &[FIRST, FIRST])
    );
}

/// D4's slave stays. A master that stays in the slave's state keeps the slave active; an inactive
/// one doesn't stay.
#[test]
fn a_master_and_its_slave() {
    let d = d();
    assert_eq!(
        stepped(&d, &[0, 1], &[0]),
        given(&[1, 1], &[1], true, &[FIRST, STAYED])
    );
    assert_eq!(
        stepped(&d, &[1, 0], &[1]),
        given(&[1, 1], &[2], true, &[STAYED, FIRST])
    );
    assert_eq!(
        stepped(&d, &[0, 1], &[]),
        given(&[0, 1], &[], true, &[Place::Transition(1), Place::None])
    );
}

/// A row in which the chart stays is a step that is given: nothing is carried on from it.
#[test]
fn a_run() {
    let file = edition_2(whole_case());
    let inputs = [Set(1), Set(4), Set(2)];
    let mut buffer = vec![0; rows_bytes(3, 1)];
    assert_eq!(
        run(&file, &[0], Set::EMPTY, &inputs, &mut buffer),
        Ok(Set::EMPTY)
    );
    let made: Vec<(Result<Given, Refusal>, u8)> = rows(&buffer, 1)
        .map(|row| (row.answer, row.config[0]))
        .collect();
    let row = |output: Set, state: u8| (Ok(Given { output, mark: true }), state);
    assert_eq!(
        made,
        [
            row(Set::from([1]), 1),
            row(Set::EMPTY, 1),
            row(Set::EMPTY, 0)
        ]
    );
}

#[test]
fn calls_that_take_both_editions() {
    for file in [whole_case(), d()] {
        let second = edition_2(file.clone());
        assert_eq!(check(&second), Ok(()));
        assert_eq!(interface(&second), interface(&file));
        let (mut old, mut new) = ([9; 2], [9; 2]);
        assert_eq!(
            (first(&file, &mut old), first(&second, &mut new)),
            (Ok(()), Ok(()))
        );
        assert_eq!(old, new);
    }
}

#[test]
fn places_and_their_bytes() {
    let mut places: Places = [Place::None; CHARTS];
    for (place, number) in places.iter_mut().zip([0, 63, 253, 254, 255]) {
        *place = Place::of(number);
    }
    assert_eq!(places[..2], [FIRST, Place::Transition(63)]);
    assert_eq!(places[2..5], [Place::Transition(253), STAYED, Place::None]);
    for number in 0..=255 {
        assert_eq!(Place::of(number).number(), number);
    }
}
