//! Dead transitions cleared out (RULES 12).

mod charts;

use charts::{alone, chart, d, edition_2, go, Chart};
use mestecur::{check, clear, interface, step, Place, Set};

/// The chart of RULES 12.6: the second transition needs what it bars, the third bars what it outputs
/// and its chart feeds back. The fourth bars its output as well, but that is not fed back.
fn example() -> Chart {
    let transitions = vec![
        go(0, 1, &[0], &[], &[1]),
        go(0, 1, &[2], &[2], &[3]),
        go(1, 0, &[0], &[4], &[4]),
        go(1, 1, &[0], &[1], &[1]),
    ];
    chart(&[4], transitions)
}

#[test]
fn two_of_four_are_dead() {
    let old = alone(example());
    let mut out = vec![0xA5; old.len()];
    let length = clear(&old, &mut out).unwrap();
    assert_eq!(length, old.len() - 2 * 28);
    assert_eq!(out[length..], [0xA5; 2 * 28]);
    let new = &out[..length];
    assert_eq!(check(new), Ok(()));
    // extra {2,4}
    assert_eq!(out[16..24], [0x14, 0, 0, 0, 0, 0, 0, 0]);
    let faces = interface(new).unwrap();
    assert_eq!(faces.input, interface(&old).unwrap().input);
    assert_eq!(faces.output, Set::from([1]));
    let took = |file: &[u8]| step(file, &[1], Set::from([0]), &mut [0]).unwrap();
    assert_eq!(took(&old).places[0], Place::Transition(3));
    assert_eq!(took(new).places[0], Place::Transition(1));
    assert_eq!(took(new).output, took(&old).output);
}

#[test]
fn clearing_twice_is_clearing_once() {
    let old = alone(example());
    let (mut once, mut twice) = (vec![0; old.len()], vec![0; old.len()]);
    let length = clear(&old, &mut once).unwrap();
    assert_eq!(clear(&once[..length], &mut twice), Ok(length));
    assert_eq!(once, twice);
}

#[test]
fn a_front_is_left_out_and_the_rest_written_as_it_is() {
    let file = [&[7; 9][..], &d()].concat();
    let mut out = vec![0xA5; d().len() + 1];
    assert_eq!(clear(&file, &mut out), Ok(d().len()));
    assert_eq!(out, [&d()[..], &[0xA5]].concat());
}

#[test]
fn refusals() {
    let mut short = vec![0xA5; d().len() - 1];
    assert_eq!(clear(&d(), &mut short).unwrap_err().number(), 45);
    let second = edition_2(d());
    assert_eq!(clear(&second, &mut short).unwrap_err().number(), 46);
    assert_eq!(clear(&second[1..], &mut short).unwrap_err().number(), 4);
    assert!(short.iter().all(|&byte| byte == 0xA5));
}
