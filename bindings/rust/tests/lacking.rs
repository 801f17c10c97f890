//! What a transition lacks.

mod charts;

use charts::*;
use mestecur::{lacking, Set, Tested};

/// One chart with a transition that needs 3 and 5, bars 4, and feeds 5 back to itself.
fn one() -> Vec<u8> {
    alone(chart(&[5], vec![go(0, 1, &[3, 5], &[4], &[5])]))
}

#[test]
fn the_lowest_signal_is_named_a_needed_one_first() {
    let ask = |offered| lacking(&one(), 0, 0, Set(offered)).unwrap();
    assert_eq!(ask(0), Tested::Absent(3));
    assert_eq!(ask(1 << 4), Tested::Absent(3));
    assert_eq!(ask(1 << 3), Tested::Met);
    assert_eq!(ask(1 << 3 | 1 << 4), Tested::Present(4));
}

#[test]
fn an_answer_prints_as_a_sentence() {
    assert_eq!(Tested::Met.to_string(), "met");
    assert_eq!(
        Tested::Absent(3).to_string(),
        "needs s3, which is not offered"
    );
    assert_eq!(
        Tested::Present(63).to_string(),
        "bars s63, which is offered"
    );
}

#[test]
fn a_chart_and_a_place_that_are_not_there() {
    let refused = |file: &[u8], chart, place| {
        let answer = lacking(file, chart, place, Set(0));
        answer.unwrap_err().number()
    };
    assert_eq!(refused(&one(), 0, 1), 26);
    assert_eq!(refused(&one(), 0, usize::MAX), 26);
    assert_eq!(refused(&one(), 1, 0), 25);
    assert_eq!(refused(&one(), usize::MAX, usize::MAX), 25);
    assert_eq!(refused(&[], 0, 0), 1);
}
