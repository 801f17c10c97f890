//! Texts of the notation that are refused, beside the nearest ones that are not: 51, 52, 3 to 11, 45.

use super::*;

/// All of them.
pub fn known() -> Vec<Known> {
    let lists = [
        depths(),
        names(),
        states(),
        counts(),
        slaves(),
        orders(),
        rooms(),
    ];
    lists.into_iter().flatten().collect()
}

/// Fifteen operators around a chart are accepted, sixteen are not.
fn depths() -> Vec<Known> {
    let chart = small(0);
    // compositions of chart 0 with others to the left or the right, so many
    let left = |times: usize| {
        let inner = (1..times).fold(chart.clone(), |so_far, number| {
            bracketed(&so_far, &small(number))
        });
        composed(&inner, &small(times))
    };
    let right = |times: usize| {
        let inner = (1..times).fold(chart.clone(), |so_far, number| {
            bracketed(&small(number), &so_far)
        });
        composed(&small(times), &inner)
    };
    let slaves = |times: usize| {
        (0..times)
            .rev()
            .fold(small(times), |so_far, master| decomposed(master, &so_far))
    };
    vec![
        accepted("depth-15", hidden(14, &chart)),
        accepted("depth-16", hidden(15, &chart)),
        answers("depth-17", refusal::NESTING, hidden(16, &chart)),
        answers("depth-18", refusal::NESTING, hidden(17, &chart)),
        answers("depth-101", refusal::NESTING, hidden(100, &chart)),
        answers("depth-257", refusal::NESTING, hidden(256, &chart)),
        answers("depth-258", refusal::NESTING, hidden(257, &chart)),
        answers("depth-5001", refusal::NESTING, hidden(5_000, &chart)),
        accepted(
            "depth-16-hidden-composed",
            hidden(14, &composed(&chart, &small(1))),
        ),
        answers(
            "depth-17-hidden-composed",
            refusal::NESTING,
            hidden(15, &composed(&chart, &small(1))),
        ),
        accepted(
            "depth-16-hidden-in-the-left-part",
            composed(&hidden(14, &chart), &small(1)),
        ),
        answers(
            "depth-17-hidden-in-the-left-part",
            refusal::NESTING,
            composed(&hidden(15, &chart), &small(1)),
        ),
        accepted(
            "depth-16-hidden-in-the-right-part",
            composed(&small(1), &hidden(14, &chart)),
        ),
        answers(
            "depth-17-hidden-in-the-right-part",
            refusal::NESTING,
            composed(&small(1), &hidden(15, &chart)),
        ),
        accepted(
            "depth-16-hidden-in-a-slave",
            decomposed(0, &hidden(14, &small(1))),
        ),
        answers(
            "depth-17-hidden-in-a-slave",
            refusal::NESTING,
            decomposed(0, &hidden(15, &small(1))),
        ),
        accepted("depth-16-seven-compositions", hidden(8, &left(7))),
        answers(
            "depth-17-seven-compositions",
            refusal::NESTING,
            hidden(9, &left(7)),
        ),
        accepted("depth-16-seven-compositions-right", hidden(8, &right(7))),
        answers(
            "depth-17-seven-compositions-right",
            refusal::NESTING,
            hidden(9, &right(7)),
        ),
        accepted("depth-16-seven-masters", hidden(8, &slaves(7))),
        answers(
            "depth-17-seven-masters",
            refusal::NESTING,
            hidden(9, &slaves(7)),
        ),
        accepted("depth-16-compositions", left(15)),
        accepted("depth-16-compositions-right", right(15)),
        answers("depth-17-compositions", refusal::NESTING, left(16)),
        answers("depth-17-compositions-right", refusal::NESTING, right(16)),
        accepted("depth-16-masters", slaves(15)),
        answers("depth-17-masters", refusal::NESTING, slaves(16)),
        accepted("depth-16-in-the-second-slave", second_slave(14)),
        answers(
            "depth-17-in-the-second-slave",
            refusal::NESTING,
            second_slave(15),
        ),
        wrong("depth-17-and-not-the-notation", hidden(16, &chart), "]"),
        breaks_off(
            "depth-17-and-breaks-off",
            format!("[{}", hidden(16, &chart)),
        ),
    ]
}

/// A master of two states, and hidings in the slave that is typed last.
fn second_slave(times: usize) -> String {
    let master = with_states(0, "q0,q1", "q0");
    format!(
        "Dec{master}by{{(q1,{}),(q0,{})}}",
        small(1),
        hidden(times, &small(2))
    )
}

/// So many charts from a number on, a power of two, composed in pairs.
fn balanced(first: usize, count: usize) -> String {
    match count {
        1 => small(first),
        _ => bracketed(
            &balanced(first, count / 2),
            &balanced(first + count / 2, count / 2),
        ),
    }
}

/// 52: a name out of range, wherever one can stand; charts given twice or left out.
fn names() -> Vec<Known> {
    let refused =
        |name: &str, text: String| answers(&format!("names-{name}"), refusal::NAMES, text);
    let (a, b, c) = (small(0), small(1), small(2));
    let mut all = vec![
        accepted(
            "charts-sixteen",
            composed(
                &(1..15).fold(small(0), |s, n| bracketed(&s, &small(n))),
                &small(15),
            ),
        ),
        refused(
            "chart-16",
            composed(
                &(1..15).fold(small(0), |s, n| bracketed(&s, &small(n))),
                &small(16),
            ),
        ),
        refused("chart-8-alone", small(8)),
        refused("chart-15-alone", small(15)),
        refused("chart-16-alone", small(16)),
        refused("chart-256", small(256)),
        refused(
            "chart-huge",
            "(c99999999999999999999999999,{q0},q0,{},{})".into(),
        ),
        // 2 to the power 64: as much as 0 in 64 bits
        refused(
            "chart-wraps",
            "(c18446744073709551616,{q0},q0,{},{})".into(),
        ),
        refused("chart-wraps-32", "(c4294967296,{q0},q0,{},{})".into()),
        refused(
            "state-wraps",
            "(c0,{q18446744073709551616},q0,{},{})".into(),
        ),
        refused("state-256", "(c0,{q256},q256,{},{})".into()),
        refused(
            "signal-wraps",
            "(c0,{q0},q0,{s18446744073709551616},{})".into(),
        ),
        refused("signal-wraps-32", "(c0,{q0},q0,{s4294967296},{})".into()),
        refused("chart-twice", composed(&a, &a)),
        refused("chart-twice-in-three", composed(&bracketed(&a, &b), &a)),
        refused("chart-twice-in-a-slave", decomposed(0, &a)),
        refused("chart-left-out-0", b.clone()),
        refused("chart-left-out-1", composed(&a, &c)),
        refused("chart-left-out-in-a-slave", decomposed(0, &c)),
        // seventeen charts: two rows of eight and one more, so that they are not deep
        refused(
            "charts-seventeen",
            composed(&bracketed(&balanced(0, 8), &balanced(8, 8)), &small(0)),
        ),
    ];
    for signal in ["s64", "s65", "s99999999999"] {
        let set = |name: &str, text: String| refused(&format!("{signal}-{name}"), text);
        all.extend([
            set("feedback", format!("(c0,{{q0}},q0,{{{signal}}},{{}})")),
            set("extra", format!("(c0,{{q0}},q0,{{}},{{}},{{s1,{signal}}})")),
            set("needed", one_transition(&format!("s1&{signal}"), "")),
            set("barred", one_transition(&format!("-{signal}"), "")),
            set("action", one_transition("", &format!("s63,{signal},s0"))),
            set("between", format!("{a}|{{{signal}}}|{b}")),
            set("filtered", format!("{{{signal}}}[{a}]")),
            set("hidden", format!("[{a}]{{{signal}}}")),
            set("in-a-slave", decomposed(0, &format!("[{b}]{{{signal}}}"))),
        ]);
    }
    all
}

/// 52: states.
fn states() -> Vec<Known> {
    let refused =
        |name: &str, text: String| answers(&format!("states-{name}"), refusal::NAMES, text);
    let moving = |from: &str, to: &str| format!("(c0,{{q0,q1}},q0,{{}},{{({from},{to},/{{}})}})");
    let seventeen: Vec<String> = (0..17).map(|state| format!("q{state}")).collect();
    vec![
        refused("16", with_states(0, "q0,q16", "q0")),
        refused("16-alone", with_states(0, "q16", "q16")),
        refused("seventeen", with_states(0, &seventeen.join(","), "q0")),
        refused("huge", with_states(0, "q0,q99999999999", "q0")),
        refused("twice", with_states(0, "q0,q0", "q0")),
        refused("twice-apart", with_states(0, "q0,q1,q0", "q0")),
        refused("left-out-0", with_states(0, "q1", "q1")),
        refused("left-out-1", with_states(0, "q0,q2", "q0")),
        refused("left-out-in-rising-order", with_states(0, "q0,q1,q3", "q0")),
        refused("initial-second", with_states(0, "q0,q1", "q1")),
        refused("initial-last", with_states(0, "q2,q1,q0", "q0")),
        refused("initial-lacking", with_states(0, "q0", "q1")),
        refused("initial-out-of-range", with_states(0, "q0", "q16")),
        refused(
            "in-the-second-chart",
            composed(&small(0), &with_states(1, "q0,q1", "q1")),
        ),
        refused("in-a-slave", decomposed(0, &with_states(1, "q0,q2", "q0"))),
        refused(
            "in-a-master",
            format!(
                "Dec{}by{{(q0,{})}}",
                with_states(0, "q0,q0", "q0"),
                small(1)
            ),
        ),
        accepted("moving", moving("q1", "q0")),
        refused("from-lacking", moving("q2", "q0")),
        refused("to-lacking", moving("q0", "q2")),
        refused("from-out-of-range", moving("q16", "q0")),
        refused("to-out-of-range", moving("q0", "q99999999999")),
        refused(
            "pair-lacking",
            format!("Dec{}by{{(q1,{})}}", small(0), small(1)),
        ),
        refused(
            "pair-out-of-range",
            format!("Dec{}by{{(q16,{})}}", small(0), small(1)),
        ),
        refused(
            "second-pair-lacking",
            format!("Dec{}by{{(q0,{}),(q1,{})}}", small(0), small(1), small(2)),
        ),
        // the state is one of the slave's, not of the master's
        refused(
            "pair-of-the-slave",
            format!(
                "Dec{}by{{(q1,{})}}",
                small(0),
                with_states(1, "q0,q1", "q0")
            ),
        ),
    ]
}

/// Eight charts, each hidden six times, and the whole so many times: 63 nodes and these.
fn nodes(times: usize) -> String {
    let part = |number: usize| hidden(6, &small(number));
    let two = |number: usize| bracketed(&part(number), &part(number + 1));
    let four = |number: usize| bracketed(&two(number), &two(number + 2));
    hidden(times, &composed(&four(0), &four(4)))
}

/// 3, 6 and 7 on the numbers as read, also where they are too large for their bytes.
fn counts() -> Vec<Known> {
    let sixty_four: Vec<String> = (0..64)
        .map(|place| format!("(q{},q0,/{{}})", place / 8))
        .collect();
    let eight = "q0,q1,q2,q3,q4,q5,q6,q7";
    let spread = |more: &str| {
        format!(
            "(c0,{{{eight}}},q0,{{}},{{{}{more}}})",
            sixty_four.join(",")
        )
    };
    vec![
        accepted("nodes-64", nodes(1)),
        answers("nodes-65", refusal::COUNTS, nodes(2)),
        answers("nodes-66", refusal::COUNTS, nodes(3)),
        answers("transitions-1025", refusal::COUNTS, busy(0, 1_025)),
        answers(
            "transitions-1025-in-two",
            refusal::COUNTS,
            composed(&busy(0, 1_000), &busy(1, 25)),
        ),
        answers("transitions-1024", refusal::CHART, busy(0, 1_024)),
        answers("transitions-65", refusal::CHART, busy(0, 65)),
        answers(
            "transitions-65-in-the-second",
            refusal::CHART,
            composed(&small(0), &busy(1, 65)),
        ),
        answers("transitions-256", refusal::CHART, busy(0, 256)),
        answers("transitions-257", refusal::CHART, busy(0, 257)),
        answers(
            "transitions-65-of-many-states",
            refusal::CHART,
            spread(",(q0,q0,/{})"),
        ),
        accepted("transitions-64", spread("")),
        answers(
            "transitions-64-from-one-state",
            refusal::TRANSITION,
            busy(0, 64),
        ),
        accepted("transitions-8-from-one-state", busy(0, 8)),
        answers(
            "transitions-9-from-one-state",
            refusal::TRANSITION,
            busy(0, 9),
        ),
        answers(
            "transitions-9-in-a-slave",
            refusal::TRANSITION,
            decomposed(0, &busy(1, 9)),
        ),
        accepted("transitions-16-in-two", composed(&busy(0, 8), &busy(1, 8))),
    ]
}

/// A master of three states, and slaves of them, each a state and a chart.
fn master(number: usize, slaves: &[(usize, usize)]) -> String {
    let master = with_states(number, "q0,q1,q2", "q0");
    let pairs: Vec<String> = slaves
        .iter()
        .map(|&(state, chart)| format!("(q{state},{})", small(chart)))
        .collect();
    format!("Dec{master}by{{{}}}", pairs.join(","))
}

/// The order of slaves and of their nodes; 8 and 11.
fn slaves() -> Vec<Known> {
    vec![
        accepted("slaves-by-state", master(0, &[(0, 1), (1, 2), (2, 3)])),
        accepted("slaves-falling", master(0, &[(2, 1), (1, 2), (0, 3)])),
        accepted("slaves-mixed", master(0, &[(1, 3), (2, 1), (0, 2)])),
        accepted(
            "slaves-of-two-masters",
            composed(&master(2, &[(1, 4), (0, 3)]), &master(0, &[(2, 5), (0, 1)])),
        ),
        accepted("slaves-inner-typed-first", {
            let inner = master(1, &[(1, 3), (0, 2)]);
            let outer = with_states(0, "q0,q1", "q0");
            format!("Dec{outer}by{{(q1,{inner}),(q0,{})}}", small(4))
        }),
        accepted(
            "slaves-composed",
            decomposed(0, &composed(&small(2), &small(1))),
        ),
        accepted(
            "slaves-hidden-master",
            hidden(1, &master(0, &[(1, 2), (0, 1)])),
        ),
        answers(
            "slaves-one-state-twice",
            refusal::SLAVE,
            master(0, &[(1, 1), (1, 2)]),
        ),
        answers(
            "slaves-one-state-twice-apart",
            refusal::SLAVE,
            master(0, &[(1, 1), (0, 3), (1, 2)]),
        ),
        answers(
            "slaves-lower-than-master",
            refusal::NUMBERING,
            master(1, &[(0, 0)]),
        ),
        answers(
            "slaves-second-lower-than-master",
            refusal::NUMBERING,
            master(1, &[(0, 2), (1, 0)]),
        ),
        answers(
            "slaves-lower-deep-inside",
            refusal::NUMBERING,
            decomposed(1, &hidden(2, &composed(&small(2), &small(0)))),
        ),
        answers(
            "slaves-lower-than-the-outer-master",
            refusal::NUMBERING,
            decomposed(1, &decomposed(2, &small(0))),
        ),
    ]
}

/// Two refusals at once: the first in the order 50, 51, 52, 3, 6, 7, 8, 11, 45 is given.
fn orders() -> Vec<Known> {
    let deep_wrong_name = hidden(16, &small(9));
    vec![
        wrong("order-50-51", &deep_wrong_name, ","),
        wrong("order-50-52", small(9), "]"),
        wrong("order-50-7", busy(0, 9), "]"),
        answers("order-51-52", refusal::NESTING, &deep_wrong_name),
        answers("order-51-3", refusal::NESTING, nodes(7)),
        answers("order-51-7", refusal::NESTING, hidden(16, &busy(0, 9))),
        answers("order-52-6", refusal::NAMES, busy(1, 65)),
        answers("order-52-7", refusal::NAMES, busy(1, 9)),
        answers("order-52-8", refusal::NAMES, master(0, &[(1, 1), (1, 3)])),
        answers("order-52-11", refusal::NAMES, master(2, &[(1, 0)])),
        answers(
            "order-3-6",
            refusal::COUNTS,
            nodes(2).replace(&small(0), &busy(0, 65)),
        ),
        answers(
            "order-6-7",
            refusal::CHART,
            composed(&busy(0, 9), &busy(1, 65)),
        ),
        answers(
            "order-6-8",
            refusal::CHART,
            composed(&master(0, &[(1, 1), (1, 2)]), &busy(3, 65)),
        ),
        answers(
            "order-7-8",
            refusal::TRANSITION,
            composed(&master(0, &[(1, 1), (1, 2)]), &busy(3, 9)),
        ),
        answers(
            "order-7-11",
            refusal::TRANSITION,
            composed(&master(1, &[(1, 0)]), &busy(2, 9)),
        ),
        answers("order-8-11", refusal::SLAVE, master(1, &[(1, 0), (1, 2)])),
        answers("order-11-45", refusal::NUMBERING, master(1, &[(1, 0)])).into_room(0),
        answers("order-8-45", refusal::SLAVE, master(0, &[(1, 1), (1, 2)])).into_room(0),
        answers("order-52-45", refusal::NAMES, small(9)).into_room(0),
        wrong("order-50-45", small(0), ",").into_room(0),
    ]
}

/// The length of the buffer: 45 comes last.
fn rooms() -> Vec<Known> {
    let node = NODE_BYTES;
    let texts = [
        ("chart", small(0), TRAILER_BYTES + CHART_BYTES + node),
        (
            "hidden",
            hidden(1, &small(0)),
            TRAILER_BYTES + CHART_BYTES + 2 * node,
        ),
        (
            "composed",
            composed(&small(0), &small(1)),
            TRAILER_BYTES + 2 * CHART_BYTES + 3 * node,
        ),
        (
            "decomposed",
            decomposed(0, &small(1)),
            TRAILER_BYTES + 2 * CHART_BYTES + SLAVE_BYTES + 2 * node,
        ),
        (
            "transition",
            one_transition("s0", "s1"),
            TRAILER_BYTES + CHART_BYTES + TRANSITION_BYTES + node,
        ),
    ];
    let mut all = vec![];
    for (word, text, length) in texts {
        for (room, refusal) in [
            (0, 45),
            (1, 45),
            (length - 1, 45),
            (length, 0),
            (length + 1, 0),
            (length + 50, 0),
        ] {
            all.push(answers(&format!("room-{word}-{room}"), refusal, &text).into_room(room));
        }
    }
    all
}
