//! Charts from typed text: the grammar is the one of docs/NOTATION.md, each sample's text means the
//! sample's chart, and every refusal has its place in the order.

use reference::cases::charts::*;
use reference::cases::read::known;
use reference::check::accept;
use reference::generate::{model, shape, Random};
use reference::limits::refusal;
use reference::model::{Chart, Model, Node};
use reference::notation::{file_of, grammar::GRAMMAR};
use reference::read;
use reference::texts::draw::text_and_room;
use reference::texts::typed::{spaced, tokens};
use std::collections::{BTreeMap, BTreeSet};

/// The refusal of a text and its place; 0 and 0 if it is accepted.
fn refused(text: &str) -> (u8, usize) {
    file_of(text.as_bytes()).map_or_else(|refused| refused, |_| (refusal::SUCCESS, 0))
}

/// A chart of one state.
fn small(number: usize) -> String {
    format!("(c{number},{{q0}},q0,{{}},{{}})")
}

/// Charts of one state, composed in this shape: each digit is one of them.
fn shaped(shape: &str) -> String {
    let digit = |c: char| match c.to_digit(10) {
        Some(number) => small(number as usize),
        None => c.to_string(),
    };
    shape
        .chars()
        .map(digit)
        .collect::<String>()
        .replace('|', "|{}|")
}

/// A text within so many pairs of square brackets.
fn hidden_in(pairs: usize, text: &str) -> String {
    format!("{}{text}{}", "[".repeat(pairs), "]".repeat(pairs))
}

/// A chart of one state with so many transitions.
fn busy(number: usize, transitions: usize) -> String {
    let list = vec!["(q0,q0,/{})"; transitions].join(",");
    format!("(c{number},{{q0}},q0,{{}},{{{list}}})")
}

#[test]
fn the_grammar_is_the_page_s() {
    let page = include_str!("../../docs/NOTATION.md");
    assert!(page.contains(GRAMMAR.trim_end_matches('\n')));
}

/// The text of a sample.
fn sample(name: &str) -> Vec<u8> {
    let path = format!("{}/../samples/{name}.text", env!("CARGO_MANIFEST_DIR"));
    std::fs::read(path).expect("a sample")
}

#[test]
fn each_sample_means_its_chart() {
    let charts: [(&str, Model); 11] = [
        ("L1", l1()),
        ("L2", l2()),
        ("L3", l3()),
        ("N1", n1()),
        ("N2", n2()),
        ("P1", p1()),
        ("P2", p2()),
        ("P3", p3()),
        ("P4", p4()),
        ("decomposed", d()),
        ("whole-case", whole_case()),
    ];
    for (name, model) in charts {
        assert_eq!(file_of(&sample(name)), Ok(model.file()), "{name}");
    }
    // the chart stands behind the inputs of the sample
    for name in ["29-february", "decomposed", "whole-case"] {
        let path = format!("{}/../samples/{name}", env!("CARGO_MANIFEST_DIR"));
        let file = file_of(&sample(name)).expect("accepted");
        assert!(std::fs::read(path).unwrap().ends_with(&file), "{name}");
    }
}

#[test]
fn the_place_is_that_of_the_first_wrong_byte() {
    let places = [
        ("", 0),
        (" \n\r", 3),
        ("\t", 0),
        ("x", 0),
        ("D", 1),
        ("Dx", 1),
        ("De c", 2),
        ("Dec", 3),
        ("Dec Dec", 4),
        ("(c01,{q0},q0,{},{})", 3),
        ("(c 0,", 2),
        ("(c0 0", 4),
        ("(c0,{},q0,{},{})", 5),
        ("(c0,{q0},q0,{},{}", 17),
        ("(c0,{q0},q0,{},{},)", 18),
        ("(c0,{q0},q0,{},{},{},", 20),
        ("(c0,{q0},q0,{,},{})", 13),
        ("(c0,{q0},q0,{s0,},{})", 16),
        ("(c0,{q0},q0,{q0},{})", 13),
        ("(c0,{q0},q0,{},{(q0,q0,)})", 23),
        ("(c0,{q0},q0,{},{(q0,q0,s0)})", 25),
        ("(c0,{q0},q0,{},{(q0,q0,--s0/{})})", 24),
        ("(c0,{q0},q0,{},{(q0,q0,s0&/{})})", 26),
        ("(c0,{q0},q0,{},{(q0,q0,/s0)})", 24),
        ("Dec (c0,{q0},q0,{},{}) by {}", 27),
        ("{}(", 2),
        ("{}[]", 3),
        ("()", 1),
    ];
    for (text, place) in places {
        assert_eq!(refused(text), (refusal::NOTATION, place), "{text}");
    }
}

#[test]
fn round_brackets_are_around_parts_that_are_compositions() {
    let place = |shape: &str| {
        let found = refused(&shaped(shape));
        assert_eq!(found.0, refusal::NOTATION, "{shape}");
        found.1
    };
    // the length of the shape up to a byte, each chart and each set being as long as they are
    let up_to = |shape: &str| shaped(shape).len();
    assert_eq!(place("(0|1)"), up_to("(0|1)"));
    assert_eq!(place("0|1|2"), up_to("0|1"));
    assert_eq!(place("((0|1))|2"), up_to("((0|1)"));
    assert_eq!(place("(0)|1"), up_to("(0"));
    assert_eq!(place("0|(1)"), up_to("0|(1"));
    assert_eq!(place("[(0|1)]"), up_to("[(0|1)"));
    for accepted in [
        "(0|1)|2",
        "0|(1|2)",
        "(0|1)|(2|3)",
        "((0|1)|2)|3",
        "[0|1]|2",
        "[(0|1)|2]",
    ] {
        assert_eq!(refused(&shaped(accepted)), (0, 0), "{accepted}");
    }
}

#[test]
fn each_refusal_comes_before_the_next() {
    let deep = |pairs| hidden_in(pairs, &small(0));
    let cases = [
        (deep(15), 0),
        (deep(16), 51),
        (hidden_in(16, &small(9)), 51),
        (hidden_in(15, &small(9)), 52),
        ("(c16,{q0},q0,{},{})".into(), 52),
        ("(c0,{q0,q16},q0,{},{})".into(), 52),
        ("(c0,{q0},q0,{s64},{})".into(), 52),
        ("[(c0,{q0},q0,{},{})]{s99999999999999999999999}".into(), 52),
        (shaped("0|0"), 52),
        ("(c0,{q0,q0},q0,{},{})".into(), 52),
        (small(1), 52),
        ("(c0,{q0,q2},q0,{},{})".into(), 52),
        ("(c0,{q0,q1},q1,{},{})".into(), 52),
        ("(c0,{q0},q0,{},{(q0,q1,/{})})".into(), 52),
        (
            "Dec (c0,{q0},q0,{},{}) by {(q1,(c1,{q0},q0,{},{}))}".into(),
            52,
        ),
        (busy(0, 8), 0),
        (busy(0, 9), 7),
        (busy(0, 64), 7),
        (busy(0, 65), 6),
        (busy(0, 256), 6),
        (busy(0, 1_024), 6),
        (busy(0, 1_025), 3),
        (busy(0, 65_536), 3),
        (busy(1, 65_536), 52),
    ];
    for (text, number) in cases {
        assert_eq!(
            refused(&text),
            (number, 0),
            "{}",
            &text[..text.len().min(60)]
        );
    }
}

#[test]
fn the_numbers_of_slaves_are_tested_last() {
    let dec = |master: usize, state: usize, other: usize| {
        let (slave, last) = (small(3 - master - other), small(other));
        let master = format!("(c{master},{{q0,q1}},q0,{{}},{{}})");
        format!("Dec {master} by {{(q1,{slave}),(q{state},{last})}}")
    };
    assert_eq!(refused(&dec(0, 0, 1)), (0, 0));
    assert_eq!(refused(&dec(0, 1, 1)), (8, 0));
    assert_eq!(refused(&dec(1, 0, 0)), (11, 0));
    assert_eq!(refused(&dec(1, 1, 0)), (8, 0));
}

#[test]
fn slaves_are_laid_down_by_state() {
    let text = "Dec (c0,{q0,q1},q0,{},{}) by {(q1,(c1,{q0},q0,{},{})),(q0,(c2,{q0},q0,{},{}))}";
    let expected = Model {
        charts: vec![
            chart(2, &[], vec![]),
            chart(1, &[], vec![]),
            chart(1, &[], vec![]),
        ],
        slaves: vec![slave(0, 0, 0), slave(0, 1, 1)],
        nodes: vec![leaf(2), leaf(1), leaf(0)],
        ..whole_case()
    };
    assert_eq!(file_of(text.as_bytes()), Ok(expected.file()));
}

#[test]
fn blanks_are_skipped_between_tokens() {
    let tokens = "{ s1 , s1 } [ Dec ( c0 , { q0 , q1 } , q0 , { s2 } , { ( q0 , q1 , - s0 & s3 / { s4 } ) } , { s9 } ) \
        by { ( q1 , ( c1 , { q0 } , q0 , { } , { } ) ) } | { } | ( c2 , { q0 } , q0 , { } , { } ) ] { }";
    let texts = [" ", "", "\n", "\r\n  "]
        .map(|blank| format!("{blank}{}{blank}", tokens.replace(' ', blank)));
    let file = file_of(texts[0].as_bytes());
    assert!(file.is_ok());
    for text in texts {
        assert_eq!(file_of(text.as_bytes()), file, "{text}");
    }
}

#[test]
fn the_buffer_is_tested_last_and_kept_where_refused() {
    let (text, length) = (small(0), 24 + 20 + 12);
    for room in [0, 1, length - 1, length, length + 1] {
        let mut lent = vec![0xA5; room];
        let answer = read(text.as_bytes(), &mut lent);
        if room < length {
            assert_eq!((answer.refusal, answer.length, answer.place), (45, 0, 0));
            assert_eq!(lent, vec![0xA5; room]);
        } else {
            assert_eq!(
                (answer.refusal, answer.length, answer.place),
                (0, length, 0)
            );
            assert!(lent[length..].iter().all(|&byte| byte == 0xA5));
        }
    }
    let nothing = &mut [];
    assert_eq!(read(small(9).as_bytes(), nothing).refusal, 52);
    assert_eq!(read(b"(", nothing).place, 1);
}

/// A million brackets of each kind are no deeper than memory.
#[test]
fn a_million_brackets_are_read() {
    let million = 1_000_000;
    for bracket in ["[", "(", "{}[", "Dec (c0,{q0},q0,{},{})by{(q0,"] {
        let open = bracket.repeat(million / bracket.len());
        assert_eq!(refused(&open), (50, open.len()), "{bracket}");
        assert_eq!(refused(&format!("{open}/")), (50, open.len()), "{bracket}");
    }
    assert_eq!(refused(&hidden_in(million, &small(0))), (51, 0));
    let left = format!(
        "{}{}{}",
        "(".repeat(million),
        small(0),
        ["|{}|", &small(1), ")"].concat().repeat(million)
    );
    assert_eq!(refused(&left), (50, left.len()));
}

/// The answers of the named cases are those written beside them.
#[test]
fn the_named_cases_are_answered_as_written() {
    let mut names = BTreeSet::new();
    for known in known() {
        let mut lent = vec![0xA5; known.room];
        let answer = read(&known.text, &mut lent);
        let name = &known.name;
        assert_eq!(
            (answer.refusal, answer.place),
            (known.refusal, known.place),
            "{name}"
        );
        assert!(
            lent[answer.length..].iter().all(|&byte| byte == 0xA5),
            "{name}"
        );
        assert_eq!(
            answer.length > 0,
            answer.refusal == refusal::SUCCESS,
            "{name}"
        );
        assert!(names.insert(known.name.clone()), "{name}");
    }
}

/// A file's charts, and its nodes as a term, slaves by state.
fn described(model: &Model) -> (&[Chart], String) {
    (&model.charts, term(model, model.whole() as u8))
}

fn term(model: &Model, node: u8) -> String {
    match &model.nodes[usize::from(node)] {
        Node::Chart { chart } => {
            let slaves = model.slaves_of(*chart);
            let slaves = slaves.map(|s| format!("{}:{}", s.state, term(model, s.node)));
            format!("{chart}<{}>", slaves.collect::<Vec<_>>().join(","))
        }
        Node::Composed { a, b, feedback } => {
            format!(
                "({} {} {})",
                term(model, *a),
                feedback.hex(),
                term(model, *b)
            )
        }
        Node::Hidden {
            part,
            filtered,
            hidden,
        } => format!("{}[{}]{}", filtered.hex(), term(model, *part), hidden.hex()),
    }
}

/// Random files, typed in some way, are read back: the same charts and the same tree.
#[test]
fn a_typed_file_is_read_back() {
    let mut random = Random::new(1);
    let mut read_back = 0;
    for _ in 0..2_000 {
        let shape = shape(&mut random, 8);
        let model = model(&mut random, &shape);
        let tokens = tokens(&mut random, &model);
        let text = spaced(&mut random, &tokens);
        let shown = String::from_utf8_lossy(&text);
        match file_of(&text) {
            Ok(file) => {
                let found = accept(&file).expect("a file that passes 1 to 11");
                assert_eq!(described(&found), described(&model), "{shown}");
                read_back += 1;
            }
            Err(refused) => assert_eq!(refused, (refusal::NESTING, 0), "{shown}"),
        }
    }
    assert!(read_back > 1_900, "{read_back}");
}

/// Random texts meet each refusal that a text can meet, and a place of 50 is as the page says: up to
/// it the text breaks off or is whole, and one byte more is wrong at that place.
#[test]
fn random_texts_meet_each_refusal() {
    let mut random = Random::new(2);
    let mut found: BTreeMap<u8, usize> = BTreeMap::new();
    for _ in 0..5_000 {
        let (text, room) = text_and_room(&mut random);
        let answer = read(&text, &mut vec![0; room]);
        *found.entry(answer.refusal).or_default() += 1;
        if answer.refusal == refusal::NOTATION && answer.place < text.len() {
            let place = answer.place;
            if let Err((refusal::NOTATION, broken)) = file_of(&text[..place]) {
                assert_eq!(broken, place);
            }
            assert_eq!(file_of(&text[..=place]), Err((50, place)));
        }
    }
    let numbers: Vec<u8> = found.keys().copied().collect();
    assert_eq!(numbers, [0, 3, 6, 7, 8, 11, 45, 50, 51, 52], "{found:?}");
    assert!(found.values().all(|&count| count >= 10), "{found:?}");
}
