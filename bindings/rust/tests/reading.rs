//! Charts from typed text (RULES 14).

mod charts;

use charts::{d, whole_case};
use mestecur::{check, read, Refusal, RefusedText};

/// The text of a sample.
fn sample(name: &str) -> Vec<u8> {
    let path = format!("{}/../../samples/{name}.text", env!("CARGO_MANIFEST_DIR"));
    std::fs::read(path).expect("a sample")
}

/// The number of a refused text and its place; the buffer is as it was.
fn refused(text: &str) -> (u8, usize) {
    let mut buffer = [0xA5; 300];
    let refused = read(text.as_bytes(), &mut buffer).unwrap_err();
    assert_eq!(buffer, [0xA5; 300]);
    (refused.number(), refused.place)
}

#[test]
fn a_text_is_read_into_its_file() {
    for (name, file) in [("whole-case", whole_case()), ("decomposed", d())] {
        let mut out = vec![0xA5; file.len() + 3];
        assert_eq!(read(&sample(name), &mut out), Ok(file.len()));
        assert_eq!(out, [&file[..], &[0xA5; 3]].concat());
        assert_eq!(check(&out[..file.len()]), Ok(()));
    }
}

#[test]
fn a_text_that_is_not_of_the_notation_has_a_place() {
    assert_eq!(refused(""), (50, 0));
    assert_eq!(refused("(c01,{q0},q0,{},{})"), (50, 3));
    assert_eq!(refused("(c0,{},q0,{},{})"), (50, 5));
    assert_eq!(refused("(c0,{q0},q0,{},{}"), (50, 17));
}

#[test]
fn other_refusals_have_none() {
    let nested = |pairs: usize| {
        format!(
            "{}(c0,{{q0}},q0,{{}},{{}}){}",
            "[".repeat(pairs),
            "]".repeat(pairs)
        )
    };
    assert_eq!(refused(&nested(16)), (51, 0));
    // 24 + 16 · 20 + 12 bytes do not fit
    assert_eq!(refused(&nested(15)), (45, 0));
    assert_eq!(refused("(c16,{q0},q0,{},{})"), (52, 0));
    assert_eq!(refused("(c0,{q0},q0,{s64},{})"), (52, 0));
    assert_eq!(
        refused("Dec (c1,{q0},q0,{},{}) by {(q0,(c0,{q0},q0,{},{}))}"),
        (11, 0)
    );
}

#[test]
fn a_refused_text_prints_why_and_where() {
    let refused = read(b"(c01", &mut []).unwrap_err();
    assert_eq!(
        refused.to_string(),
        "refused 50: the text is not of the notation, from byte 3 on"
    );
    let refused = read(b"(c0,{q0},q0,{},{})", &mut [0; 55]).unwrap_err();
    assert_eq!(
        refused.to_string(),
        "refused 45: the buffer is shorter than the result"
    );
    let refusal: Refusal = refused.into();
    assert_eq!(refusal.number(), 45);
    let boxed: Box<dyn std::error::Error> = Box::new(RefusedText { refusal, place: 0 });
    assert!(boxed.to_string().starts_with("refused 45"));
}
