//! Texts that are not of the notation, each at its first wrong byte.

use super::given::all_tokens;
use super::*;

/// All of them.
pub fn known() -> Vec<Known> {
    let lists = [
        cut(),
        ends(),
        numbers(),
        fields(),
        transitions(),
        guards(),
        masters(),
        hidings(),
        compositions(),
        round_brackets(),
    ];
    lists.into_iter().flatten().collect()
}

/// A transition up to its guard.
const INSIDE: &str = "(c0,{q0},q0,{},{(q0,q0,";

/// A text cut at each of its places: it only breaks off, but for the place behind its square brackets,
/// where it could end. No text has a question mark anywhere.
fn cut() -> Vec<Known> {
    let text = all_tokens();
    let mut all: Vec<Known> = (0..text.len())
        .filter(|&place| !text[..place].ends_with(']'))
        .map(|place| breaks_off(&format!("cut-{place}"), &text[..place]))
        .collect();
    all.extend((0..=text.len()).step_by(7).map(|place| {
        wrong(
            &format!("strange-{place}"),
            &text[..place],
            ["?", &text[place..]].concat(),
        )
    }));
    all
}

/// Nothing, and something behind a chart.
fn ends() -> Vec<Known> {
    let chart = &small(0);
    vec![
        breaks_off("nothing", ""),
        wrong("two-charts", chart, chart),
        wrong("closed-twice", chart, ")"),
        wrong("comma-behind", chart, ","),
    ]
}

/// Names that are none.
fn numbers() -> Vec<Known> {
    vec![
        wrong("leading-zero-chart", "(c0", "1,{q0},q0,{},{})"),
        wrong("leading-zero-state", "(c0,{q0", "0},q0,{},{})"),
        wrong("leading-zero-initial", "(c0,{q0},q0", "0,{},{})"),
        wrong("leading-zero-signal", "(c0,{q0},q0,{s0", "7},{})"),
        wrong("no-number", "(c", ",{q0},q0,{},{})"),
        wrong("number-without-letter", "(", "0,{q0},q0,{},{})"),
        wrong("upper-case-letter", "(", "C0,{q0},q0,{},{})"),
        wrong("minus-in-number", "(c", "-1,{q0},q0,{},{})"),
        wrong("state-for-chart", "(", "q0,{q0},q0,{},{})"),
        wrong("signal-for-chart", "(", "s0,{q0},q0,{},{})"),
        wrong("chart-for-state", "(c0,{", "c0},q0,{},{})"),
        wrong("signal-for-state", "(c0,{q0},", "s0,{},{})"),
        wrong("state-for-signal", "(c0,{q0},q0,{", "q0},{})"),
    ]
}

/// The fields of a chart, and sets.
fn fields() -> Vec<Known> {
    vec![
        wrong("no-states", "(c0,{", "},q0,{},{})"),
        wrong("states-without-braces", "(c0,", "q0,q0,{},{})"),
        wrong("no-initial", "(c0,{q0},", "{},{})"),
        wrong("initial-in-braces", "(c0,{q0},", "{q0},{},{})"),
        wrong("four-fields", "(c0,{q0},q0,{}", ")"),
        wrong("seven-fields", "(c0,{q0},q0,{},{},{}", ",{})"),
        wrong("empty-sixth-field", "(c0,{q0},q0,{},{},", ")"),
        wrong("feedback-without-braces", "(c0,{q0},q0,", "s1,{})"),
        wrong("extra-without-braces", "(c0,{q0},q0,{},{},", "s1)"),
        wrong("comma-at-the-end-of-a-set", "(c0,{q0},q0,{s1,", "},{})"),
        wrong(
            "comma-at-the-beginning-of-a-set",
            "(c0,{q0},q0,{",
            ",s1},{})",
        ),
        wrong("no-comma-in-a-set", "(c0,{q0},q0,{s1", "s2},{})"),
        wrong("bar-in-a-set", "(c0,{q0},q0,{s1", "|s2},{})"),
        wrong("barred-in-a-set", "(c0,{q0},q0,{", "-s1},{})"),
    ]
}

/// Transitions.
fn transitions() -> Vec<Known> {
    vec![
        wrong(
            "comma-at-the-end-of-transitions",
            "(c0,{q0},q0,{},{(q0,q0,/{}),",
            "})",
        ),
        wrong(
            "transition-without-brackets",
            "(c0,{q0},q0,{},{",
            "q0,q0,/{}})",
        ),
        wrong("set-for-transitions", "(c0,{q0},q0,{},{", "s0})"),
        wrong(
            "transition-without-comma",
            "(c0,{q0},q0,{},{(q0,q0",
            "/{})})",
        ),
        wrong("transition-without-slash", INSIDE, ")})"),
        wrong("transition-slash-missing", format!("{INSIDE}s0"), ")})"),
        wrong("transition-without-action", format!("{INSIDE}s0/"), ")})"),
        wrong("action-without-braces", format!("{INSIDE}/"), "s1)})"),
        wrong("two-slashes", format!("{INSIDE}/"), "/{})})"),
        wrong(
            "transition-with-fourth-field",
            format!("{INSIDE}/{{}}"),
            ",{})})",
        ),
    ]
}

/// Guards.
fn guards() -> Vec<Known> {
    vec![
        wrong("guard-comma", format!("{INSIDE}s0"), ",s1/{})})"),
        wrong("guard-in-braces", INSIDE, "{s0}/{})})"),
        wrong("guard-two-signals", format!("{INSIDE}s0"), "s1/{})})"),
        wrong("guard-begins-with-and", INSIDE, "&s0/{})})"),
        wrong("guard-ends-with-and", format!("{INSIDE}s0&"), "/{})})"),
        wrong("guard-minus-twice", format!("{INSIDE}-"), "-s0/{})})"),
        wrong("guard-minus-alone", format!("{INSIDE}-"), "/{})})"),
        wrong("guard-barred-behind", format!("{INSIDE}s0"), "-/{})})"),
    ]
}

/// `Dec`, `by` and pairs.
fn masters() -> Vec<Known> {
    let chart = &small(0);
    vec![
        wrong("dec-lower-case", "", format!("dec {chart}")),
        wrong("dec-misspelt", "De", format!("k {chart}")),
        wrong("dec-twice", "Dec", "Dec"),
        wrong("dec-of-hidden", "Dec", format!("[{chart}]by")),
        wrong("dec-of-a-set", "Dec ", "{}"),
        wrong("dec-of-composed", "Dec(", format!("{chart}|")),
        wrong(
            "dec-without-by",
            format!("Dec {chart}"),
            format!("{{(q0,{})}}", small(1)),
        ),
        wrong("by-upper-case", format!("Dec {chart} "), "By {"),
        wrong("by-misspelt", format!("Dec {chart} b"), "i {"),
        wrong("by-without-dec", chart, "by{"),
        wrong(
            "by-without-braces",
            format!("Dec {chart} by "),
            format!("(q0,{})", small(1)),
        ),
        wrong("by-empty", format!("Dec {chart} by {{"), "}"),
        wrong(
            "by-comma-at-the-end",
            format!("{},", decomposed(0, &small(1)).trim_end_matches('}')),
            "}",
        ),
        wrong(
            "pair-without-state",
            format!("Dec {chart} by {{("),
            format!("{})}}", small(1)),
        ),
        wrong("pair-without-chart", format!("Dec {chart} by {{(q0"), ")}"),
        wrong(
            "pair-with-third",
            format!("Dec {chart} by {{(q0,{}", small(1)),
            ",{})}",
        ),
        wrong(
            "pair-without-brackets",
            format!("Dec {chart} by {{"),
            format!("q0,{}}}", small(1)),
        ),
    ]
}

/// Square brackets.
fn hidings() -> Vec<Known> {
    let chart = &small(0);
    vec![
        wrong("hidden-nothing", "[", "]"),
        wrong("hidden-a-set", "[{}", "]"),
        wrong("hidden-round", format!("[{chart}"), ")"),
        wrong("hidden-two-sets-before", "{}", format!("{{}}[{chart}]")),
        wrong("hidden-two-sets-behind", format!("[{chart}]{{}}"), "{}"),
        wrong("set-before-a-chart", "{s1}", chart),
        wrong("set-behind-a-chart", chart, "{s1}"),
        breaks_off("set-alone", "{s1}"),
    ]
}

/// Bars.
fn compositions() -> Vec<Known> {
    let chart = &small(0);
    vec![
        wrong(
            "composed-without-set",
            format!("{chart}|"),
            format!("|{}", small(1)),
        ),
        wrong(
            "composed-without-second-bar",
            format!("{chart}|{{}}"),
            small(1),
        ),
        wrong("composed-without-first-part", "", format!("|{{}}|{chart}")),
        breaks_off("composed-without-second-part", format!("{chart}|{{}}|")),
        wrong(
            "composed-three-bars",
            format!("{chart}|{{}}|"),
            format!("|{}", small(1)),
        ),
        wrong(
            "composed-feedback-without-braces",
            format!("{chart}|"),
            format!("s1|{}", small(1)),
        ),
    ]
}

/// Where round brackets stand around a composition, and where they do not.
fn round_brackets() -> Vec<Known> {
    let (a, b, c, d) = (small(0), small(1), small(2), small(3));
    let (both, pair) = (composed(&a, &b), bracketed(&a, &b));
    vec![
        breaks_off("brackets-around-the-whole", &pair),
        breaks_off("brackets-around-the-whole-and-blanks", format!("{pair} \n")),
        wrong(
            "brackets-around-a-chart",
            format!("({a}"),
            format!(")|{{}}|{b}"),
        ),
        wrong(
            "brackets-around-the-second-chart",
            format!("{a}|{{}}|({b}"),
            ")",
        ),
        wrong(
            "brackets-around-hidden",
            format!("([{a}]"),
            format!(")|{{}}|{b}"),
        ),
        wrong(
            "brackets-around-dec",
            format!("({}", decomposed(0, &b)),
            format!(")|{{}}|{c}"),
        ),
        wrong("brackets-twice", format!("({pair}"), format!(")|{{}}|{c}")),
        wrong("brackets-twice-right", format!("{c}|{{}}|({pair}"), ")"),
        wrong("brackets-in-hidden", format!("[{pair}"), "]"),
        wrong("brackets-in-a-slave", format!("Dec{c}by{{(q0,{pair}"), ")}"),
        wrong("no-brackets-left", &both, format!("|{{}}|{c}")),
        wrong(
            "no-brackets-inside",
            format!("({both}"),
            format!("|{{}}|{c})|{{}}|{d}"),
        ),
        wrong(
            "no-brackets-in-hidden",
            format!("[{both}"),
            format!("|{{}}|{c}]"),
        ),
        wrong("brackets-square", format!("({both}"), format!("]|{{}}|{c}")),
        wrong("brackets-of-a-set", "({}", format!(")|{{}}|{c}")),
        wrong("brackets-empty", "(", ")"),
        breaks_off("brackets-open", "((((("),
        breaks_off("brackets-open-square", "[[[[["),
        breaks_off("brackets-open-mixed", "([{}[(("),
    ]
}
