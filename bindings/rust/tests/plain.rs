//! Which files are plain, and what that says of their steps.

mod charts;

use charts::*;
use mestecur::{plain, step, Set};

/// A chart with two transitions from state 0: the first needs signal 3, the second bars it.
fn apart(feedback: &[u8]) -> Chart {
    let out = vec![go(0, 1, &[3], &[], &[4]), go(0, 0, &[], &[3], &[])];
    chart(feedback, out)
}

/// A chart without transitions.
fn still(feedback: &[u8]) -> Chart {
    chart(feedback, vec![])
}

/// One chart of two transitions from state 0 with these needed and barred signals.
fn two(one: (&[u8], &[u8]), other: (&[u8], &[u8])) -> Vec<u8> {
    let out = |(needed, barred)| go(0, 1, needed, barred, &[]);
    alone(chart(&[], vec![out(one), out(other)]))
}

#[test]
fn two_transitions_from_one_state() {
    assert_eq!(plain(&whole_case()), Ok(true));
    assert_eq!(plain(&d()), Ok(true));
    assert_eq!(plain(&two((&[3], &[]), (&[], &[3]))), Ok(true));
    assert_eq!(plain(&two((&[], &[3]), (&[3], &[]))), Ok(true));
    assert_eq!(plain(&two((&[3], &[]), (&[3], &[]))), Ok(false));
    assert_eq!(plain(&two((&[3], &[]), (&[], &[4]))), Ok(false));
    assert_eq!(plain(&two((&[], &[]), (&[], &[]))), Ok(false));
}

#[test]
fn a_signal_that_is_fed_back_tells_nothing_apart() {
    let fed_by_its_own = alone(apart(&[3]));
    let fed_by_another = beside(apart(&[]), still(&[3]), &[]);
    let fed_between = beside(apart(&[]), still(&[]), &[3]);
    for fed in [fed_by_its_own, fed_by_another, fed_between] {
        assert_eq!(plain(&fed), Ok(false));
    }
    let others = beside(apart(&[2]), still(&[4]), &[5]);
    let hidden = [pair(&[]), vec![node(2, 2, 0, &[3], &[3])]].concat();
    let filtered = file(&[apart(&[]), still(&[])], &[], &hidden);
    for not_fed in [alone(apart(&[])), others, filtered] {
        assert_eq!(plain(&not_fed), Ok(true));
    }
}

#[test]
fn edition_2_is_never_plain_and_not_refused() {
    for file in [whole_case(), d(), alone(apart(&[])), alone(still(&[]))] {
        assert_eq!(plain(&file), Ok(true));
        assert_eq!(plain(&edition_2(file)), Ok(false));
    }
}

/// N1 is not plain, and its step has the mark no; D is plain, and none of its steps has.
#[test]
fn marks() {
    let n1 = chart(
        &[],
        vec![go(0, 0, &[], &[], &[1]), go(0, 1, &[], &[], &[2])],
    );
    let n1 = alone(n1);
    assert_eq!(plain(&n1), Ok(false));
    let done = step(&n1, &[0], Set::EMPTY, &mut [0]).unwrap();
    assert!(!done.mark);
    for (at, input) in (0..4).flat_map(|at| (0..32).map(move |input| ([at & 1, at >> 1], input))) {
        match step(&d(), &at, Set(input), &mut [0; 2]) {
            Ok(done) => assert!(done.mark, "{at:?} {input}"),
            Err(refusal) => assert_eq!(refusal.number(), 23, "{at:?} {input}"),
        }
    }
}
