//! A book of cases, posted day by day.

mod charts;

use charts::{d, edition_2, whole_case};
use mestecur::{
    post, posted_bytes, posted_rows, Case, Entry, Given, PostedRow, Refusal, Row, Set, CASES,
};

/// A case at a configuration, after a row.
fn case(config: &[u8], last_row: u32, carried: &[u8]) -> Case {
    Case {
        last_row,
        carried: carried.iter().copied().collect(),
        ..Case::new(config).unwrap()
    }
}

/// An entry.
fn entry(number: u64, signals: &[u8]) -> Entry {
    Entry {
        number,
        signals: signals.iter().copied().collect(),
    }
}

/// A row of a step that is given.
fn given<'a>(number: u32, output: &[u8], config: &'a [u8]) -> PostedRow<'a> {
    let output = output.iter().copied().collect();
    let answer = Ok(Given { output, mark: true });
    PostedRow {
        number,
        row: Row { answer, config },
    }
}

/// A row of a refused step.
fn refused(number: u32, config: &[u8]) -> PostedRow<'_> {
    let answer = Err(Refusal::of(23).unwrap());
    PostedRow {
        number,
        row: Row { answer, config },
    }
}

/// The chart of RULES 6.5: two days of three cases.
#[test]
fn two_days() {
    let file = whole_case();
    let mut cases = [case(&[0], 0, &[]), case(&[1], 41, &[]), case(&[0], 7, &[1])];
    let mut rows = vec![0xA5; posted_bytes(3, 1) + 2];
    let day = [entry(1, &[9]), entry(0, &[0])];
    post(&file, &mut cases, &day, &mut rows).unwrap();
    assert_eq!(rows[45..], [0xA5; 2]);
    let expected = [given(1, &[1], &[1]), refused(42, &[1]), refused(8, &[0])];
    assert!(posted_rows(&rows, 1).eq(expected));
    let moved = [
        case(&[1], 1, &[]),
        case(&[1], 42, &[9]),
        case(&[0], 8, &[1]),
    ];
    assert_eq!(cases, moved);
    let day = [entry(2, &[0]), entry(1, &[1])];
    post(&file, &mut cases, &day, &mut rows).unwrap();
    let expected = [refused(2, &[1]), given(43, &[], &[0]), given(9, &[1], &[1])];
    assert!(posted_rows(&rows, 1).eq(expected));
    assert!(cases.iter().all(|case| case.carried == Set::EMPTY));
}

/// Entries of one case are joined: neither of them alone gives a step (D4 of docs/EXAMPLES.md).
#[test]
fn joined_entries() {
    let mut cases = [case(&[0, 1], 0, &[])];
    let mut rows = [0; 16];
    let day = [entry(0, &[3]), entry(0, &[0])];
    post(&d(), &mut cases, &day, &mut rows).unwrap();
    assert!(posted_rows(&rows, 2).eq([given(1, &[1, 4], &[1, 1])]));
    assert_eq!(cases[0].configuration(), Some(&[1, 1][..]));
}

/// Edition 2: a case that nothing triggers has a row as well, in which its chart stays.
#[test]
fn a_case_that_stays() {
    let mut cases = [case(&[0], 0, &[])];
    let mut rows = [0; 15];
    post(&edition_2(whole_case()), &mut cases, &[], &mut rows).unwrap();
    assert!(posted_rows(&rows, 1).eq([given(1, &[], &[0])]));
}

#[test]
fn refusals_change_nothing() {
    let file = whole_case();
    let right = case(&[0], 3, &[0]);
    let last = case(&[0], u32::MAX, &[]);
    let refused = |cases: &[Case], entries: &[Entry], room: usize, number: u8| {
        let (mut book, mut rows) = (cases.to_vec(), vec![0xA5; room]);
        let answer = post(&file, &mut book, entries, &mut rows);
        assert_eq!(answer.unwrap_err().number(), number);
        assert_eq!(book, cases);
        assert!(rows.iter().all(|&byte| byte == 0xA5));
    };
    let room = posted_bytes(CASES, 1);
    let too_long = Case {
        length: 17,
        ..right
    };
    refused(&[right, case(&[0, 0], 0, &[])], &[], room, 20);
    refused(&[right, too_long], &[], room, 20);
    refused(&[right, case(&[2], 0, &[]), too_long], &[], room, 21);
    refused(&[], &[], room, 60);
    refused(&[right; CASES + 1], &[], room + 15, 60);
    refused(&[right], &[entry(1, &[0])], room, 61);
    refused(&[right], &[entry(1 << 32, &[0])], room, 61);
    refused(&[right, last], &[], room, 62);
    refused(&[right; CASES], &[], room - 1, 63);
    let mut book = [right; CASES];
    assert_eq!(post(&file, &mut book, &[], &mut vec![0; room]), Ok(()));
}

#[test]
fn a_case_is_made_of_a_configuration() {
    assert_eq!(Case::new(&[0; 17]), None);
    let case = Case::new(&[4; 16]).unwrap();
    assert_eq!(
        (case.length, case.last_row, case.carried),
        (16, 0, Set::EMPTY)
    );
    assert_eq!(case.configuration(), Some(&[4; 16][..]));
    let too_long = Case { length: 17, ..case };
    assert_eq!(too_long.configuration(), None);
}

/// As include/mestecur.h lays them out.
#[test]
fn the_layout_of_c() {
    use std::mem::{align_of, offset_of, size_of};
    let fields = [
        offset_of!(Case, carried),
        offset_of!(Case, last_row),
        offset_of!(Case, length),
        offset_of!(Case, config),
    ];
    assert_eq!(fields, [0, 8, 12, 13]);
    assert_eq!((size_of::<Case>(), align_of::<Case>()), (32, 8));
    assert_eq!((size_of::<Entry>(), offset_of!(Entry, signals)), (16, 8));
}
