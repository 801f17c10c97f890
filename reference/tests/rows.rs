//! The thirteen charts of docs/EXAMPLES.md, section 2, and the answers written by hand, as bytes of
//! a buffer.

use reference::cases::rows::{rows, RowAnswer};
use reference::cases::step::{cases, meanings};
use reference::limits::{refusal, CHARTS, NO_PLACE};
use reference::step::NO_PLACES;
use reference::{step, Set};

/// A byte of the buffer that is no state.
const FILL: u8 = 0xA5;

/// Compares a step with what was written by hand, with one byte to spare.
fn hold(row: &RowAnswer) {
    let charts = row.configuration.len();
    let mut next = vec![FILL; charts + 1];
    let stepped = step(&row.model.file(), &row.configuration, row.input, &mut next);
    match &row.result {
        Some((state, output, mark)) => {
            assert_eq!(stepped.refusal, refusal::SUCCESS, "{}", row.name);
            assert_eq!(&next[..charts], &state[..], "{}", row.name);
            assert_eq!(stepped.output, *output, "{}", row.name);
            assert_eq!(stepped.mark, *mark, "{}", row.name);
            assert_eq!(next[charts], FILL, "{}", row.name);
        }
        None => {
            assert_eq!(stepped.refusal, refusal::NO_STEP, "{}", row.name);
            assert_eq!(stepped.output, Set::EMPTY, "{}", row.name);
            assert!(!stepped.mark, "{}", row.name);
            assert_eq!(stepped.places, NO_PLACES, "{}", row.name);
            assert_eq!(next, vec![FILL; charts + 1], "{}", row.name);
        }
    }
}

#[test]
fn the_thirteen_rows_have_seventeen_answers() {
    let rows = rows();
    assert_eq!(rows.len(), 17);
    let mut names: Vec<&str> = rows.iter().map(|r| &r.name[..2]).collect();
    names.dedup();
    assert_eq!(names.len(), 13);
    rows.iter().for_each(hold);
}

/// The places of the thirteen charts' steps that are given: D's chart 1 is inactive in D2, and of
/// two transitions N1 and N2 take the first.
#[test]
fn the_places_of_the_rows() {
    let expected: [(&str, &[u8]); 11] = [
        ("L1", &[0]),
        ("P1", &[0, 0]),
        ("P3-0", &[0, 0]),
        ("P4", &[0, 0]),
        ("N1", &[0]),
        ("N2", &[0]),
        ("D1-0", &[0, 0]),
        ("D1-0-9", &[0, 0]),
        ("D2", &[1, NO_PLACE]),
        ("D3", &[2, 1]),
        ("D4-0-3", &[0, 1]),
    ];
    let rows = rows();
    let given = rows.iter().filter(|row| row.result.is_some());
    assert_eq!(given.clone().count(), expected.len());
    for (row, (name, places)) in given.zip(expected) {
        assert_eq!(row.name, name);
        let (file, at) = (row.model.file(), &row.configuration);
        let stepped = step(&file, at, row.input, &mut vec![0; at.len()]);
        assert_eq!(&stepped.places[..places.len()], places, "{name}");
        assert_eq!(
            stepped.places[places.len()..],
            NO_PLACES[..CHARTS - places.len()],
            "{name}"
        );
    }
}

/// The cases of places by hand, as lines have them.
#[test]
fn the_places_of_named_cases() {
    let line = |name: &str| {
        let named = cases().into_iter().find(|case| case.command.name == name);
        named.unwrap().command.answer().line
    };
    assert!(line("place-63").contains(" 1e3fffffffffffff "));
    assert!(line("place-of-equal-transitions").contains(" y 01ffffffffffffff "));
    assert!(line("states-all-highest").contains(" y 0001020304050607 "));
    assert!(line("wide-last-choice-alone").contains(" y 070707070707ffff "));
    assert!(line("wide-all-alike").contains(" y 000000000000ffff "));
}

#[test]
fn the_meanings_written_by_hand() {
    let meanings = meanings();
    assert!(meanings.len() > 60);
    meanings.iter().for_each(hold);
}
