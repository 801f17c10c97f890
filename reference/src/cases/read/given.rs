//! Texts that are read: each form, each inside each other one, guards and sets, and blanks.

use super::*;

/// All of them, and texts with blanks where none can be.
pub fn known() -> Vec<Known> {
    let lists = [
        samples(),
        forms(),
        nestings(),
        guards_and_sets(),
        blanks(),
        not_blanks(),
    ];
    lists.into_iter().flatten().collect()
}

/// The texts of samples/.
fn samples() -> Vec<Known> {
    vec![
        accepted(
            "sample-29-february",
            include_str!("../../../../samples/29-february.text"),
        ),
        accepted("sample-L1", include_str!("../../../../samples/L1.text")),
        accepted("sample-L2", include_str!("../../../../samples/L2.text")),
        accepted("sample-L3", include_str!("../../../../samples/L3.text")),
        accepted("sample-N1", include_str!("../../../../samples/N1.text")),
        accepted("sample-N2", include_str!("../../../../samples/N2.text")),
        accepted("sample-P1", include_str!("../../../../samples/P1.text")),
        accepted("sample-P2", include_str!("../../../../samples/P2.text")),
        accepted("sample-P3", include_str!("../../../../samples/P3.text")),
        accepted("sample-P4", include_str!("../../../../samples/P4.text")),
        accepted(
            "sample-decomposed",
            include_str!("../../../../samples/decomposed.text"),
        ),
        accepted(
            "sample-whole-case",
            include_str!("../../../../samples/whole-case.text"),
        ),
    ]
}

/// Each form, and what may be left out.
fn forms() -> Vec<Known> {
    let (zero, one) = (small(0), small(1));
    vec![
        accepted("smallest", &zero),
        accepted("extra-set", "(c0,{q0},q0,{},{},{s9})"),
        accepted("extra-set-empty", "(c0,{q0},q0,{},{},{})"),
        accepted("feedback", "(c0,{q0},q0,{s0,s63},{})"),
        accepted("initial-state-1", with_states(0, "q1,q0", "q1")),
        accepted("states-in-any-order", with_states(0, "q2,q0,q3,q1", "q2")),
        accepted(
            "sixteen-states",
            with_states(
                0,
                "q15,q14,q13,q12,q11,q10,q9,q8,q7,q6,q5,q4,q3,q2,q1,q0",
                "q15",
            ),
        ),
        accepted("composed", composed(&zero, &one)),
        accepted("composed-feedback", format!("{zero}|{{s1,s62}}|{one}")),
        accepted("composed-higher-first", composed(&one, &zero)),
        accepted("hidden-both-left-out", format!("[{zero}]")),
        accepted("hidden-first-left-out", format!("[{zero}]{{s2}}")),
        accepted("hidden-second-left-out", format!("{{s1}}[{zero}]")),
        accepted("hidden-both", format!("{{s1}}[{zero}]{{s2}}")),
        accepted("hidden-empty", format!("{{}}[{zero}]{{}}")),
        accepted("decomposed", decomposed(0, &one)),
        accepted(
            "transitions-in-order",
            "(c0,{q0,q1},q0,{},{(q1,q0,/{}),(q0,q1,/{s1}),(q1,q1,s0/{}),(q0,q0,/{})})",
        ),
    ]
}

/// Each form inside each other one.
fn nestings() -> Vec<Known> {
    let inner = |first: usize| {
        let (a, b) = (small(first), small(first + 1));
        [
            ("chart", a.clone(), a.clone()),
            ("composed", composed(&a, &b), bracketed(&a, &b)),
            ("hidden", hidden(1, &a), hidden(1, &a)),
            ("decomposed", decomposed(first, &b), decomposed(first, &b)),
        ]
    };
    let mut all = vec![];
    for (word, chart, part) in inner(0) {
        all.push(accepted(&format!("{word}-in-hidden"), hidden(1, &chart)));
        let last = small(if part.contains("c1") { 2 } else { 1 });
        all.push(accepted(
            &format!("{word}-in-composed-left"),
            composed(&part, &last),
        ));
    }
    for (word, chart, part) in inner(1) {
        all.push(accepted(
            &format!("{word}-in-composed-right"),
            composed(&small(0), &part),
        ));
        all.push(accepted(&format!("{word}-in-slave"), decomposed(0, &chart)));
    }
    let (a, b) = (
        bracketed(&small(0), &small(3)),
        bracketed(&small(2), &small(1)),
    );
    all.push(accepted("composed-in-both-parts", composed(&a, &b)));
    all.push(accepted(
        "three-deep-left",
        composed(
            &bracketed(&bracketed(&small(2), &small(1)), &small(0)),
            &small(3),
        ),
    ));
    all.push(accepted(
        "three-deep-right",
        composed(
            &small(3),
            &bracketed(&small(2), &bracketed(&small(1), &small(0))),
        ),
    ));
    all.push(accepted(
        "slave-in-slave",
        decomposed(0, &decomposed(1, &decomposed(2, &small(3)))),
    ));
    let eight = (1..8).rev().fold(small(0), |so_far, number| match number {
        1 => composed(&so_far, &small(number)),
        _ => bracketed(&so_far, &small(number)),
    });
    all.push(accepted("eight-charts", eight));
    all
}

/// Guards, and signals that are typed twice.
fn guards_and_sets() -> Vec<Known> {
    let guards = [
        ("empty", "", ""),
        ("needed", "s0", "s1"),
        ("barred", "-s0", "s1"),
        ("both", "s0&s2&-s3", "s1,s2"),
        ("barred-first", "-s3&s2&-s1&s0", ""),
        ("same-needed-and-barred", "s5&-s5", "s5"),
        ("needed-twice", "s5&s5", ""),
        ("barred-twice", "-s5&-s5", ""),
        ("highest", "s63&-s62", "s63"),
        ("action-twice", "", "s7,s8,s7,s7"),
    ];
    let mut all: Vec<Known> = guards
        .into_iter()
        .map(|(word, guard, action)| {
            accepted(&format!("guard-{word}"), one_transition(guard, action))
        })
        .collect();
    all.push(accepted(
        "feedback-twice",
        "(c0,{q0},q0,{s3,s3},{},{s4,s4})",
    ));
    all.push(accepted(
        "hidden-twice",
        format!("{{s1,s1}}[{}]{{s2,s2}}", small(0)),
    ));
    all.push(accepted(
        "composed-twice",
        format!("{}|{{s1,s1}}|{}", small(0), small(1)),
    ));
    all
}

/// A text of all tokens, as a list; it is accepted.
const TOKENS: &str =
    "{ s1 , s10 } [ Dec ( c0 , { q0 , q1 } , q0 , { s2 } , { ( q0 , q1 , - s0 & s3 / { } ) , \
    ( q1 , q0 , / { s4 } ) } , { } ) by { ( q1 , ( c1 , { q0 } , q0 , { } , { } ) ) } | { } | \
    ( c2 , { q0 } , q0 , { } , { } ) ] { s5 }";

/// The tokens put together.
pub(super) fn all_tokens() -> String {
    TOKENS.replace(' ', "")
}

/// Blanks between any two tokens, before the first and behind the last.
fn blanks() -> Vec<Known> {
    let tokens: Vec<&str> = TOKENS.split(' ').collect();
    let mut all: Vec<Known> = (0..=tokens.len())
        .map(|place| {
            let (before, behind) = tokens.split_at(place);
            let blank = [" ", "\n", "\r"][place % 3];
            let text = [&before.concat(), blank, &behind.concat()].concat();
            accepted(&format!("blank-{place}"), text)
        })
        .collect();
    for (word, blank) in [
        ("none", ""),
        ("spaces", " "),
        ("lines", "\n"),
        ("returns", "\r"),
        ("many", " \r\n \n"),
    ] {
        all.push(accepted(
            &format!("blanks-{word}"),
            [blank, &tokens.join(blank), blank].concat(),
        ));
    }
    all
}

/// No blank is inside a token, and no other byte is a blank.
fn not_blanks() -> Vec<Known> {
    let chart = small(0);
    vec![
        breaks_off("only-blanks", " \n\r "),
        wrong("blank-in-dec", "D", " ec"),
        wrong("blank-in-dec-later", "De", "\nc"),
        wrong("blank-in-by", format!("Dec{chart}b"), " y{"),
        wrong("blank-in-chart-name", "(c", " 0"),
        wrong("blank-in-state-name", "(c0,{q", "\r0"),
        wrong("blank-in-signal-name", "{s", "\n1"),
        wrong("blank-in-number", "{s1 ", "0}"),
        wrong("tab", "", "\t"),
        wrong("tab-behind", &chart, "\t"),
        wrong("byte-0", "", "\0"),
        wrong("byte-0-behind", &chart, "\0"),
        wrong("byte-11", &chart, "\x0b"),
        wrong("byte-12", &chart, "\x0c"),
        wrong("byte-31", &chart, "\x1f"),
        wrong("byte-33", &chart, "!"),
        wrong("byte-160", &chart, b"\xa0"),
        wrong("byte-255", &chart, b"\xff"),
    ]
}
