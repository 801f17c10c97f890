//! Text out of files (RULES 15).

mod charts;

use charts::{alone, beside, chart, d, edition_2, file, go, node, whole_case};
use mestecur::{check, read, step, text, write, Set, TEXT_BYTES};

/// The text of a sample, without its blanks.
fn sample(name: &str) -> String {
    let path = format!("{}/../../samples/{name}.text", env!("CARGO_MANIFEST_DIR"));
    let text = std::fs::read_to_string(path).expect("a sample");
    text.split_whitespace().collect()
}

/// A chart hidden so many times.
fn hidden(times: u8) -> Vec<u8> {
    let mut nodes = vec![node(0, 0, 0, &[], &[])];
    nodes.extend((0..times).map(|below| node(2, below, 0, &[], &[])));
    file(&[chart(&[], vec![])], &[], &nodes)
}

#[test]
fn a_file_is_written_as_its_text() {
    for (name, file) in [("whole-case", whole_case()), ("decomposed", d())] {
        let expected = sample(name);
        let mut out = vec![0xA5; expected.len() + 3];
        assert_eq!(write(&file, &mut out), Ok(expected.len()));
        assert_eq!(out, [expected.as_bytes(), &[0xA5; 3]].concat());
        assert_eq!(text(&file), Ok(expected));
    }
}

#[test]
fn guards_rise_and_both_hiding_sets_are_there() {
    let guarded = alone(chart(&[], vec![go(0, 1, &[2, 10], &[1, 2], &[])]));
    assert_eq!(
        text(&guarded).unwrap(),
        "(c0,{q0,q1},q0,{},{(q0,q1,-s1&s2&-s2&s10/{})})"
    );
    assert_eq!(text(&hidden(1)).unwrap(), "{}[(c0,{q0,q1},q0,{},{})]{}");
}

#[test]
fn what_is_read_back_makes_the_same_steps() {
    let old = beside(
        chart(&[], vec![go(0, 1, &[0], &[], &[1])]),
        chart(
            &[],
            vec![go(0, 1, &[1], &[], &[2]), go(0, 0, &[], &[1], &[])],
        ),
        &[1],
    );
    let written = text(&old).unwrap();
    let mut new = vec![0; old.len()];
    assert_eq!(read(written.as_bytes(), &mut new), Ok(old.len()));
    assert_eq!(check(&new), Ok(()));
    assert_eq!(text(&new), Ok(written));
    for input in [Set::EMPTY, Set::from([0]), Set::from([0, 1])] {
        let (mut one, mut other) = ([0; 2], [0; 2]);
        assert_eq!(
            step(&old, &[0, 0], input, &mut one),
            step(&new, &[0, 0], input, &mut other)
        );
        assert_eq!(one, other);
    }
}

#[test]
fn a_front_is_not_written() {
    let fronted = [&[7; 9][..], &d()].concat();
    assert_eq!(text(&fronted), text(&d()));
}

#[test]
fn refusals() {
    let number = |file: &[u8], room: usize| {
        let mut buffer = vec![0xA5; room];
        let refused = write(file, &mut buffer).unwrap_err();
        assert!(buffer.iter().all(|&byte| byte == 0xA5));
        refused.number()
    };
    assert_eq!(number(&d()[1..], 0), 4);
    assert_eq!(number(&edition_2(hidden(16)), 0), 46);
    assert_eq!(number(&hidden(16), 0), 51);
    assert_eq!(number(&hidden(15), 0), 45);
    assert_eq!(number(&d(), sample("decomposed").len() - 1), 45);
    assert_eq!(text(&hidden(16)).unwrap_err().number(), 51);
    assert!(text(&hidden(15)).unwrap().len() < TEXT_BYTES);
}
