//! The number of open choices, and refusal 24 (RULES 5.15).

mod charts;

use charts::*;
use mestecur::{
    post, posted_bytes, posted_rows, rows, rows_bytes, run, step, Case, Entry, Place, Refusal, Set,
    CHARTS, OPEN_CHOICES,
};

/// So many charts, each with so many transitions that nothing is needed for, composed one after the
/// other.
fn free(charts: u8, transitions: usize) -> Vec<u8> {
    let moves = vec![go(0, 0, &[], &[], &[]); transitions];
    let all: Vec<Chart> = (0..charts).map(|_| chart(&[], moves.clone())).collect();
    let mut nodes: Vec<Vec<u8>> = (0..charts).map(|n| node(0, n, 0, &[], &[])).collect();
    for number in 1..charts {
        let so_far = match number {
            1 => 0,
            _ => charts + number - 2,
        };
        nodes.push(node(1, so_far, number, &[], &[]));
    }
    file(&all, &[], &nodes)
}

#[test]
fn numbers() {
    let open = |file: &[u8], at: &[u8]| step(file, at, Set(1), &mut [0; CHARTS]).unwrap().open;
    assert_eq!(open(&whole_case(), &[0]), 1);
    assert_eq!(open(&d(), &[0, 0]), 2);
    assert_eq!(open(&edition_2(d()), &[0, 0]), 4);
    assert_eq!(open(&free(16, 2), &[0; 16]), 1 << 16);
    assert_eq!(open(&free(8, 8), &[0; 8]), OPEN_CHOICES);
    assert_eq!(open(&free(12, 4), &[0; 12]), OPEN_CHOICES);
}

#[test]
fn sixteen_places() {
    let done = step(&free(16, 1), &[0; 16], Set::EMPTY, &mut [9; 16]).unwrap();
    assert_eq!(done.places, [Place::Transition(0); CHARTS]);
    let done = step(&free(9, 1), &[0; 9], Set::EMPTY, &mut [9; 9]).unwrap();
    assert_eq!(done.places[8..10], [Place::Transition(0), Place::None]);
}

#[test]
fn too_many() {
    let mut next = [0xA5; 16];
    let refused = step(&free(9, 8), &[0; 9], Set::EMPTY, &mut next).unwrap_err();
    assert_eq!((refused.number(), refused.open), (24, 8_u64.pow(9)));
    assert_eq!(
        refused.to_string(),
        "refused 24: more than 16777216 choices are open: 134217728"
    );
    assert_eq!(Refusal::from(refused), Refusal::of(24).unwrap());
    let refused = step(&edition_2(free(16, 8)), &[0; 16], Set::EMPTY, &mut next).unwrap_err();
    assert_eq!((refused.number(), refused.open), (24, 9_u64.pow(16)));
    assert_eq!(next, [0xA5; 16]);
    // no number in other refusals
    let refused = step(&free(9, 0), &[0; 9], Set::EMPTY, &mut next).unwrap_err();
    assert_eq!((refused.number(), refused.open), (23, 0));
    assert_eq!(refused.to_string(), "refused 23: no choice is permitted");
    let refused = step(&free(9, 8), &[0; 9], Set::EMPTY, &mut next[..8]).unwrap_err();
    assert_eq!((refused.number(), refused.open), (22, 0));
}

/// A row with 24 keeps the configuration, and what was offered is carried.
#[test]
fn rows_of_runs_and_postings() {
    let file = free(9, 8);
    let mut buffer = vec![0; rows_bytes(2, 9)];
    let carried = run(
        &file,
        &[0; 9],
        Set::from([1]),
        &[Set::from([2]), Set::EMPTY],
        &mut buffer,
    );
    assert_eq!(carried, Ok(Set::from([1, 2])));
    for row in rows(&buffer, 9) {
        assert_eq!(row.answer, Err(Refusal::of(24).unwrap()));
        assert_eq!(row.config, [0; 9]);
    }
    let mut cases = [Case::new(&[0; 9]).unwrap()];
    let mut buffer = vec![0; posted_bytes(1, 9)];
    let entry = Entry {
        number: 0,
        signals: Set::from([3]),
    };
    assert_eq!(post(&file, &mut cases, &[entry], &mut buffer), Ok(()));
    let row = posted_rows(&buffer, 9).next().unwrap();
    assert_eq!(row.row.answer, Err(Refusal::of(24).unwrap()));
    assert_eq!((row.number, cases[0].carried), (1, Set::from([3])));
}
