//! The thirteen charts of docs/EXAMPLES.md, section 2.

mod charts;

use charts::*;
use mestecur::{step, Place, Set, CHARTS};

/// What is expected of one input: the next configuration, the output and the mark, or refusal 23.
type Says<'a> = Option<(&'a [u8], &'a [u8], bool)>;

/// Compares a step with what is expected; the buffer is two bytes longer than needed.
fn hold(name: &str, file: &[u8], at: &[u8], input: &[u8], says: Says) {
    let mut next = vec![0xA5; at.len() + 2];
    let answer = step(file, at, input.iter().copied().collect(), &mut next);
    let (states, rest) = next.split_at(at.len());
    assert_eq!(rest, [0xA5; 2], "{name}");
    match says {
        None => {
            assert_eq!(answer.unwrap_err().number(), 23, "{name}");
            assert!(states.iter().all(|&state| state == 0xA5), "{name}");
        }
        Some((after, output, mark)) => {
            let output: Set = output.iter().copied().collect();
            let row = answer.map(|step| (step.output, step.mark));
            assert_eq!(row, Ok((output, mark)), "{name}");
            assert_eq!(states, after, "{name}");
        }
    }
}

/// One chart of one transition from 0 to 1.
fn one(feedback: &[u8], needed: &[u8], barred: &[u8], action: &[u8]) -> Chart {
    chart(feedback, vec![go(0, 1, needed, barred, action)])
}

#[test]
fn one_chart() {
    let l1 = alone(one(&[0], &[0], &[], &[0]));
    let l2 = alone(one(&[0], &[], &[0], &[0]));
    let l3 = alone(one(&[], &[0], &[], &[0]));
    hold("L1", &l1, &[0], &[], Some((&[1], &[0], true)));
    hold("L2", &l2, &[0], &[], None);
    hold("L2", &l2, &[0], &[0], None);
    hold("L3", &l3, &[0], &[], None);
}

#[test]
fn two_charts_beside_each_other() {
    let first = || one(&[], &[0], &[], &[1]);
    let second = || one(&[], &[1], &[], &[2]);
    let p1 = beside(first(), second(), &[1]);
    let p2 = beside(first(), second(), &[]);
    let hidden = [pair(&[1]), vec![node(2, 2, 0, &[1], &[1])]].concat();
    let p3 = file(&[first(), second()], &[], &hidden);
    let p4 = beside(
        one(&[], &[1], &[], &[0]),
        one(&[], &[0], &[], &[1]),
        &[0, 1],
    );
    hold("P1", &p1, &[0, 0], &[0], Some((&[1, 1], &[1, 2], true)));
    hold("P2", &p2, &[0, 0], &[0], None);
    hold("P3", &p3, &[0, 0], &[0], Some((&[1, 1], &[2], true)));
    hold("P3", &p3, &[0, 0], &[1], None);
    hold("P4", &p4, &[0, 0], &[], Some((&[1, 1], &[0, 1], true)));
}

#[test]
fn two_permitted_choices() {
    let n1 = vec![go(0, 0, &[], &[], &[1]), go(0, 1, &[], &[], &[2])];
    let n2 = vec![go(0, 1, &[], &[], &[1]), go(0, 1, &[], &[], &[1])];
    hold(
        "N1",
        &alone(chart(&[], n1)),
        &[0],
        &[],
        Some((&[0], &[1], false)),
    );
    hold(
        "N2",
        &alone(chart(&[], n2)),
        &[0],
        &[],
        Some((&[1], &[1], true)),
    );
}

#[test]
fn a_master_and_its_slave() {
    let d = d();
    hold("D1", &d, &[0, 0], &[0], Some((&[1, 1], &[1, 2], true)));
    hold("D1", &d, &[0, 0], &[0, 9], Some((&[1, 1], &[1, 2], true)));
    hold("D2", &d, &[0, 0], &[], Some((&[0, 0], &[], true)));
    hold("D3", &d, &[1, 1], &[3], Some((&[0, 1], &[4], true)));
    hold("D4", &d, &[0, 1], &[0], None);
    hold("D4", &d, &[0, 1], &[0, 3], Some((&[1, 1], &[1, 4], true)));
}

/// The places of D's steps: chart 1 takes none while it is inactive, and there is no chart 2.
#[test]
fn the_transitions_of_a_master_and_its_slave() {
    let took = |at: &[u8], input: &[u8]| {
        let input = input.iter().copied().collect();
        step(&d(), at, input, &mut [0; 2]).unwrap().places
    };
    let places = |master: u8, slave: Place| {
        let mut places = [Place::None; CHARTS];
        (places[0], places[1]) = (Place::Transition(master), slave);
        places
    };
    assert_eq!(took(&[0, 0], &[0]), places(0, Place::Transition(0)));
    assert_eq!(took(&[0, 0], &[]), places(1, Place::None));
    assert_eq!(took(&[1, 1], &[3]), places(2, Place::Transition(1)));
    assert_eq!(took(&[0, 1], &[0, 3]), places(0, Place::Transition(1)));
}
