//! The day program, byte for byte.

use reference::cases::charts::{alone, chart, d, n1, p1, whole_case};
use reference::cases::damage::{behind, changed};
use reference::cases::file::one_fault;
use reference::day;
use reference::limits::DAY_INPUT;
use reference::model::Edition;

/// Inputs as front bytes.
fn front(inputs: &[u64]) -> Vec<u8> {
    inputs
        .iter()
        .flat_map(|input| input.to_le_bytes())
        .collect()
}

/// What the day program prints, as text.
fn printed(input: &[u8]) -> String {
    String::from_utf8(day(input)).unwrap()
}

#[test]
fn the_whole_case() {
    let input = behind(&front(&[1, 0, 2]), whole_case().file());
    assert_eq!(input.len(), 136);
    assert_eq!(
        input[124..],
        [0x64, 0, 0, 0, 1, 0, 1, 1, 2, 0, 0, 0],
        "the trailer"
    );
    assert_eq!(
        printed(&input),
        "1 0000000000000002 1 y\n2 refused 23\n3 0000000000000000 0 y\n"
    );
}

#[test]
fn the_whole_case_written_byte_by_byte() {
    let mut input = Vec::new();
    input.extend([1, 0, 0, 0, 0, 0, 0, 0]);
    input.extend([0, 0, 0, 0, 0, 0, 0, 0]);
    input.extend([2, 0, 0, 0, 0, 0, 0, 0]);
    // chart: states, initial, transitions, five zero bytes, feedback, extra
    input.extend([2, 0, 2, 0, 0, 0, 0, 0]);
    input.extend([0; 16]);
    // 0 to 1 needs {0}, action {1}
    input.extend([0, 1, 0, 0]);
    input.extend([1, 0, 0, 0, 0, 0, 0, 0]);
    input.extend([0; 8]);
    input.extend([2, 0, 0, 0, 0, 0, 0, 0]);
    // 1 to 0 needs {1}
    input.extend([1, 0, 0, 0]);
    input.extend([2, 0, 0, 0, 0, 0, 0, 0]);
    input.extend([0; 16]);
    // node kind 0
    input.extend([0; 20]);
    input.extend([0x64, 0, 0, 0, 1, 0, 1, 1, 2, 0, 0, 0]);
    assert_eq!(input, behind(&front(&[1, 0, 2]), whole_case().file()));
}

#[test]
fn several_states_are_joined_by_dots() {
    let input = behind(&front(&[1, 1 << 63, 9, 8]), d().file());
    assert_eq!(
        printed(&input),
        "1 0000000000000006 1.1 y\n2 refused 23\n3 0000000000000010 0.1 y\n4 0000000000000000 0.1 y\n"
    );
}

#[test]
fn a_mark_of_no_is_n() {
    let input = behind(&front(&[0]), n1().file());
    assert_eq!(printed(&input), "1 0000000000000002 0 n\n");
}

/// The whole case under edition 2: without its signal the second day has a step in which the chart
/// stays.
#[test]
fn the_whole_case_under_edition_2() {
    let file = whole_case().under(Edition::Second).file();
    let input = behind(&front(&[1, 0, 2]), file);
    assert_eq!(
        printed(&input),
        "1 0000000000000002 1 y\n2 0000000000000000 1 y\n3 0000000000000000 0 y\n"
    );
}

#[test]
fn an_empty_front_prints_nothing() {
    assert_eq!(printed(&p1().file()), "");
}

#[test]
fn numbers_are_decimal_also_past_nine() {
    let input = behind(&front(&[0; 12]), n1().file());
    let text = printed(&input);
    assert_eq!(text.lines().count(), 12);
    assert_eq!(text.lines().last(), Some("12 0000000000000002 0 n"));
}

#[test]
fn a_bad_file_prints_only_its_refusal() {
    for (number, file) in one_fault() {
        assert_eq!(printed(&file), format!("file refused {number}\n"));
        if number > 1 {
            let with_inputs = behind(&front(&[1, 2]), file.clone());
            assert_eq!(printed(&with_inputs), format!("file refused {number}\n"));
            let odd_front = behind(&[1, 2, 3], file);
            assert_eq!(printed(&odd_front), format!("file refused {number}\n"));
        }
    }
}

#[test]
fn a_front_that_is_no_multiple_of_8_is_30() {
    for length in [1, 7, 9, 15, 23] {
        let input = behind(&vec![0; length], whole_case().file());
        assert_eq!(printed(&input), "file refused 30\n");
    }
}

#[test]
fn an_input_over_65536_bytes_is_31_before_all_else() {
    let file = whole_case().file();
    let room = DAY_INPUT - file.len();
    assert_eq!(room, 8 * 8_178);
    let longest = behind(&vec![3; room], file.clone());
    assert!(printed(&longest).ends_with("\n8178 0000000000000000 0 y\n"));
    let one_less = behind(&vec![1; room - 1], file.clone());
    assert_eq!(printed(&one_less), "file refused 30\n");
    let over = behind(&vec![0; DAY_INPUT + 1 - file.len()], file);
    assert_eq!(printed(&over), "file refused 31\n");
    let over_and_bad = behind(
        &vec![0; DAY_INPUT],
        changed(&whole_case(), |r| r.trailer.edition = 0),
    );
    assert_eq!(printed(&over_and_bad), "file refused 31\n");
}

/// The smallest file has 24 bytes of a chart, 20 of a node and the trailer's 12.
#[test]
fn in_front_of_the_smallest_chart_8185_inputs_fit() {
    let smallest = alone(chart(1, &[], vec![])).file();
    assert_eq!(smallest.len(), 56);
    let with = |inputs: usize| behind(&front(&vec![0; inputs]), smallest.clone());
    assert_eq!(with(8_185).len(), DAY_INPUT);
    let text = printed(&with(8_185));
    assert_eq!(text.lines().count(), 8_185);
    assert!(text.ends_with("\n8185 refused 23\n"));
    assert_eq!(with(8_189).len(), 65_568);
    for inputs in [8_186, 8_189] {
        assert_eq!(printed(&with(inputs)), "file refused 31\n");
    }
}

#[test]
fn an_empty_input_is_1() {
    assert_eq!(printed(&[]), "file refused 1\n");
}
