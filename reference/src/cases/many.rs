//! Named cases of files with nine charts and more, and of the number of open choices (RULES 5.15),
//! whose lines show all that a step answers.

use super::charts::*;
use super::rows::rows;
use super::run::rows_bytes;
use super::step::stairs;
use super::{configuration_rooms, Case};
use crate::command::Command;
use crate::limits::*;
use crate::model::{Chart, Edition, Model, Node};
use crate::set::Set;

/// A step whose line shows all that it answers, from a configuration under an input.
fn step(name: &str, model: &Model, at: &[u8], input: &[u32], number: u8) -> Case {
    let input = Set::of(input);
    let command = Command::step(name, model.file(), at, input, at.len() + 1);
    Case::new(command.whole_line(), number)
}

/// The same from the configuration of zeros under the empty input.
fn from_zeros(name: &str, model: &Model, number: u8) -> Case {
    step(name, model, &vec![0; model.charts.len()], &[], number)
}

const GIVEN: u8 = refusal::SUCCESS;
const NONE: u8 = refusal::NO_STEP;
const MANY: u8 = refusal::MANY_OPEN;

/// Files at the limits, in edition 2, and nests.
pub fn file_cases() -> Vec<Case> {
    let check = |name: &str, model: Model| Case::new(Command::check(name, model.file()), GIVEN);
    let stays = |model: Model| model.under(Edition::Second);
    let mut cases = vec![
        check("edition-2-charts-at-limit", stays(row_of(CHARTS as u8))),
        check("edition-2-slaves-at-limit", stays(master_of(SLAVES as u8))),
        check("edition-2-transitions-at-limit", stays(fullest())),
    ];
    for charts in 9..=CHARTS as u8 {
        let (nested, below) = (nest(charts), format!("nest-of-{charts}"));
        cases.push(check(&below, nested.clone()));
        let name = format!("interface-{below}");
        cases.push(Case::new(Command::interface(&name, nested.file()), GIVEN));
    }
    // a chart inside the innermost slave, numbered below a master around it: at any depth
    let mut turned = nest(CHARTS as u8);
    for node in &mut turned.nodes {
        if let Node::Chart { chart } = node {
            *chart = match *chart {
                14 => 15,
                15 => 14,
                other => other,
            };
        }
    }
    let file = turned.file();
    cases.push(Case::new(
        Command::check("nest-of-16-innermost-turned", file),
        refusal::NAMING,
    ));
    cases
}

/// All named steps of this file.
pub fn step_cases() -> Vec<Case> {
    [
        rows_with_numbers(),
        numbers_of_charts(),
        at_the_limit(),
        by_slaves(),
        second_edition(),
        traps(),
        nests(),
        orders(),
        lengths(),
        rings(),
        transitions(),
    ]
    .into_iter()
    .flatten()
    .collect()
}

/// The thirteen charts of docs/EXAMPLES.md again, in both editions. In edition 2 only L2 is refused,
/// under the empty input: its transition is triggered, and prevented by its own output.
fn rows_with_numbers() -> Vec<Case> {
    let mut cases = Vec::new();
    for row in rows() {
        let (word, name) = ("open-row", row.name);
        let Case { command, refusal } = row.case(&format!("{word}-{name}"), 0);
        cases.push(Case::new(command.whole_line(), refusal));
    }
    for row in rows() {
        let name = format!("edition-2-open-row-{}", row.name);
        let number = if row.name == "L2-none" { NONE } else { GIVEN };
        let (file, at) = (row.model.under(Edition::Second).file(), &row.configuration);
        let command = Command::step(&name, file, at, row.input, at.len());
        cases.push(Case::new(command.whole_line(), number));
    }
    cases
}

/// 9 to 16 charts, each with one transition and with two.
fn numbers_of_charts() -> Vec<Case> {
    let mut cases = Vec::new();
    for count in EARLIER_CHARTS + 1..=CHARTS {
        let (one, two) = (format!("open-{count}-of-1"), format!("open-{count}-of-2"));
        cases.push(from_zeros(&one, &row_of(count as u8), GIVEN));
        cases.push(from_zeros(&two, &free_row(&vec![2; count]), GIVEN));
    }
    cases
}

/// 16,777,216 open choices and more, in one composition.
fn at_the_limit() -> Vec<Case> {
    let eights = |more: &[u32]| free_row(&[&[8; 8], more].concat());
    let unmet = |mut model: Model| {
        for transition in &mut model.charts[0].transitions {
            transition.needed = Set::one(60);
        }
        model
    };
    vec![
        from_zeros("open-8-of-8", &eights(&[]), GIVEN),
        from_zeros("open-8-of-8-and-1", &eights(&[1]), GIVEN),
        from_zeros("open-8-of-8-and-8-of-1", &eights(&[1; 8]), GIVEN),
        from_zeros("open-12-of-4", &free_row(&[4; 12]), GIVEN),
        from_zeros("open-8-of-8-and-2", &eights(&[2]), MANY),
        from_zeros(
            "open-8-of-8-first-1-last-2",
            &{ free_row(&[1, 8, 8, 8, 8, 8, 8, 8, 8, 2]) },
            MANY,
        ),
        // 2^2 * 3^13 * 7 = 44,641,044; 5^10 * 2 = 19,531,250; 3^8 * 5 * 2^9 = 16,796,160
        from_zeros(
            "open-13-of-3-and-28",
            &{ free_row(&[&[3; 13][..], &[4, 7]].concat()) },
            MANY,
        ),
        from_zeros(
            "open-10-of-5-and-2",
            &{ free_row(&[&[5; 10][..], &[2]].concat()) },
            MANY,
        ),
        from_zeros(
            "open-16796160",
            &{ free_row(&[&[3; 8][..], &[5, 8, 8, 8]].concat()) },
            MANY,
        ),
        // 3^7 * 7 * 2^10 = 15,676,416
        from_zeros(
            "open-15676416",
            &{ free_row(&[&[3; 7][..], &[7, 8, 8, 8, 2]].concat()) },
            GIVEN,
        ),
        from_zeros("open-9-of-8", &free_row(&[8; 9]), MANY),
        from_zeros("open-16-of-8", &free_row(&[8; 16]), MANY),
        from_zeros("open-16-of-3", &free_row(&[3; 16]), MANY),
        // too many, and none of them is permitted: 24 is tested before 23
        from_zeros(
            "open-9-of-8-none-permitted",
            &unmet(free_row(&[8; 9])),
            MANY,
        ),
        from_zeros(
            "open-4-of-8-none-permitted",
            &unmet(free_row(&[1, 8, 8, 8, 8])),
            NONE,
        ),
    ]
}

/// One choice more than 16,777,216, or just as many, by what a master activates.
fn by_slaves() -> Vec<Case> {
    let inside = || vec![free(8); 8];
    let sixteen = || vec![free(8); 15];
    let leaving = {
        // a slave of state 1 is active when the master leaves the state
        let mut model = around(inside(), false);
        model.charts[0].transitions = vec![go(1, 0, &[], &[], &[]), go(1, 1, &[], &[], &[])];
        model
    };
    let at = |first: u8, model: &Model| {
        let mut at = vec![0; model.charts.len()];
        at[0] = first;
        at
    };
    vec![
        from_zeros("open-slave-of-8-of-8", &around(inside(), false), GIVEN),
        from_zeros(
            "open-slave-of-8-of-8-and-back",
            &around(inside(), true),
            MANY,
        ),
        from_zeros("open-slave-of-15-of-8", &around(sixteen(), true), MANY),
        step(
            "open-slave-left-or-kept",
            &leaving,
            &at(1, &leaving),
            &[],
            MANY,
        ),
        from_zeros(
            "open-slave-inactive",
            &{
                let mut model = around(sixteen(), true);
                model.charts[0].transitions.remove(0);
                model
            },
            GIVEN,
        ),
        from_zeros("open-master-of-15", &master_of(15), GIVEN),
        from_zeros("open-master-of-8", &master_of(8), GIVEN),
        step("open-D-1-0", &d(), &[1, 0], &[3], NONE),
        step("open-D-0-0-all", &d(), &[0, 0], &[0, 1, 3], GIVEN),
    ]
}

/// Edition 2: staying is one open choice of each active chart.
fn second_edition() -> Vec<Case> {
    let stays = |model: Model| model.under(Edition::Second);
    let all_wait = |mut model: Model| {
        for chart in &mut model.charts {
            for transition in &mut chart.transitions {
                transition.needed = Set::one(60);
            }
        }
        stays(model)
    };
    let eights = free_row(&[8; 8]);
    let sevens = free_row(&[7; 8]);
    let inner = around(vec![free(7); 8], true);
    vec![
        from_zeros("edition-2-open-8-of-7", &stays(sevens.clone()), GIVEN),
        from_zeros(
            "edition-2-open-8-of-7-wait",
            &all_wait(free_row(&[7; 5])),
            GIVEN,
        ),
        from_zeros("edition-2-open-8-of-8", &stays(eights.clone()), MANY),
        from_zeros("edition-2-open-8-of-8-wait", &all_wait(eights), MANY),
        from_zeros(
            "edition-2-open-9-of-7-and-0",
            &{ stays(free_row(&[7, 7, 7, 7, 7, 7, 7, 7, 0])) },
            GIVEN,
        ),
        from_zeros(
            "edition-2-open-9-of-7-and-1",
            &{ stays(free_row(&[7, 7, 7, 7, 7, 7, 7, 7, 1])) },
            MANY,
        ),
        from_zeros("edition-2-open-16-of-8", &stays(free_row(&[8; 16])), MANY),
        from_zeros("edition-2-open-16-of-1", &stays(free_row(&[1; 16])), GIVEN),
        from_zeros("edition-2-open-16-of-2", &stays(free_row(&[2; 16])), MANY),
        from_zeros("edition-2-open-16-of-0", &stays(free_row(&[0; 16])), GIVEN),
        // entering the slave, going back and staying: 8^8 and 2 more
        from_zeros("edition-2-open-slave", &stays(inner.clone()), MANY),
        // a master that stays keeps its state's slave active
        step(
            "edition-2-open-slave-kept",
            &stays(inner),
            &[1, 0, 0, 0, 0, 0, 0, 0, 0],
            &[],
            GIVEN,
        ),
        step("edition-2-open-D-0-1", &stays(d()), &[0, 1], &[0], GIVEN),
        step("edition-2-open-D-1-0", &stays(d()), &[1, 0], &[], GIVEN),
    ]
}

/// Beginnings without an open choice: charts with many transitions, and an active one with none.
fn traps() -> Vec<Case> {
    let trap = |place: usize| {
        let mut counts = [8; CHARTS];
        counts[place] = 0;
        free_row(&counts)
    };
    let mut cases: Vec<Case> = [0, 8, 15]
        .map(|place| from_zeros(&format!("open-none-by-chart-{place}"), &trap(place), NONE))
        .into();
    // the charts inside are many, and one has none: entering them is no way, going back is
    let mut inside = vec![free(8); 14];
    inside.push(free(0));
    cases.push(from_zeros(
        "open-slave-trap",
        &around(inside.clone(), false),
        NONE,
    ));
    cases.push(from_zeros(
        "open-slave-trap-avoided",
        &around(inside.clone(), true),
        GIVEN,
    ));
    let stays = around(inside, true).under(Edition::Second);
    cases.push(from_zeros("edition-2-open-slave-trap", &stays, MANY));
    cases
}

/// Fifteen slaves, each inside the one before.
fn nests() -> Vec<Case> {
    let (nest, all) = (nest(CHARTS as u8), (0..CHARTS as u32).collect::<Vec<u32>>());
    let second = nest.clone().under(Edition::Second);
    let half = [[1; 8], [0; 8]].concat();
    // every chart leaves its state for itself in eight ways, and is active with all around it
    let deep = {
        let mut model = nest.clone();
        for chart in &mut model.charts {
            chart.transitions = vec![go(1, 1, &[], &[], &[]); 8];
        }
        model
    };
    // the last of them can't move: 0 where it would be active
    let dead_end = |back: bool| {
        let mut model = nest.clone();
        for chart in &mut model.charts[..15] {
            chart.transitions = vec![go(0, 1, &[], &[], &[]); 7];
        }
        if back {
            model.charts[14].transitions.push(go(0, 0, &[], &[], &[3]));
        }
        model.charts[15].transitions.clear();
        model
    };
    vec![
        step("nest-of-16-from-zeros", &nest, &[0; 16], &[], GIVEN),
        step("nest-of-16-entered", &nest, &[0; 16], &all, GIVEN),
        step("nest-of-16-kept", &nest, &[1; 16], &[], GIVEN),
        step("nest-of-16-left", &nest, &[1; 16], &all, GIVEN),
        step("nest-of-16-half", &nest, &half, &all[8..], GIVEN),
        step("edition-2-nest-of-16", &second, &[1; 16], &[3, 9], MANY),
        step("edition-2-nest-of-16-zeros", &second, &[0; 16], &all, GIVEN),
        step("nest-of-16-by-8", &deep, &[1; 16], &[], MANY),
        step("nest-of-16-dead-end", &dead_end(false), &[0; 16], &[], NONE),
        step(
            "nest-of-16-dead-end-avoided",
            &dead_end(true),
            &[0; 16],
            &[],
            MANY,
        ),
    ]
}

/// 20, 21 and 22 before 24.
fn orders() -> Vec<Case> {
    let file = || free_row(&[8; 9]).file();
    let with = |name: &str, at: &[u8], room: usize, number: u8| {
        let command = Command::step(name, file(), at, Set::EMPTY, room);
        Case::new(command.whole_line(), number)
    };
    vec![
        with(
            "open-20-before-24",
            &[0; 8],
            9,
            refusal::CONFIGURATION_LENGTH,
        ),
        with(
            "open-21-before-24",
            &[0, 0, 0, 0, 0, 0, 0, 0, 1],
            9,
            refusal::CONFIGURATION_STATE,
        ),
        with("open-22-before-24", &[0; 9], 8, refusal::CONFIGURATION_ROOM),
        with("open-24", &[0; 9], 9, MANY),
        with("open-24-longer-buffer", &[0; 9], 40, MANY),
    ]
}

/// 20, 21 and 22 of sixteen charts.
fn lengths() -> Vec<Case> {
    let mut cases = Vec::new();
    let mut add = |name: &str, model: &Model, at: &[u8], room: usize, number: u8| {
        let command = Command::step(name, model.file(), at, Set::EMPTY, room);
        cases.push(Case::new(command.whole_line(), number));
    };
    let wrong = refusal::CONFIGURATION_LENGTH;
    let row = row_of(16);
    for (length, number) in [
        (8, wrong),
        (15, wrong),
        (16, GIVEN),
        (17, wrong),
        (272, wrong),
    ] {
        let name = format!("length-{length}-for-16-charts");
        add(&name, &row, &vec![0; length], 20, number);
    }
    for (word, room, number) in configuration_rooms(16, 40) {
        let name = format!("buffer-{word}-for-16-charts");
        add(&name, &row, &[0; 16], room, number);
    }
    let stairs = stairs(16);
    let highest: Vec<u8> = (0..16).collect();
    add("states-of-16-all-highest", &stairs, &highest, 16, GIVEN);
    for chart in 8..16 {
        let mut at = highest.clone();
        at[usize::from(chart)] = chart + 1;
        let name = format!("state-of-chart-{chart}-at-its-states");
        add(&name, &stairs, &at, 16, refusal::CONFIGURATION_STATE);
    }
    cases
}

/// Sixteen charts, each needing what the next one outputs.
fn rings() -> Vec<Case> {
    let all: Vec<u32> = (0..CHARTS as u32).collect();
    let one = |n: u32| chart(2, &[], vec![go(0, 1, &[(n + 1) % 16], &[], &[n])]);
    let mut ring = row_of_charts(all.iter().map(|&n| one(n)).collect());
    if let Some(Node::Composed { feedback, .. }) = ring.nodes.last_mut() {
        *feedback = Set::of(&all);
    }
    let mut broken = ring.clone();
    broken.charts[15].transitions[0].action = Set::EMPTY;
    vec![
        from_zeros("ring-of-sixteen", &ring, GIVEN),
        from_zeros("ring-of-sixteen-broken", &broken, NONE),
        step(
            "ring-of-sixteen-broken-and-fed",
            &broken,
            &[0; 16],
            &[15],
            GIVEN,
        ),
        from_zeros(
            "edition-2-ring-of-sixteen",
            &ring.under(Edition::Second),
            GIVEN,
        ),
        from_zeros(
            "edition-2-ring-of-sixteen-broken",
            &{ broken.under(Edition::Second) },
            GIVEN,
        ),
    ]
}

/// Sixteen charts of 64 transitions, all at different places of their lists.
fn transitions() -> Vec<Case> {
    let mut model = fullest();
    for (number, chart) in model.charts.iter_mut().enumerate() {
        only(chart, 4 * number + 3);
    }
    let at: Vec<u8> = (0..16)
        .map(|number| ((4 * number + 3) % 16) as u8)
        .collect();
    let mut nine = full_charts(9);
    nine.charts[8] = spread(1, 1);
    vec![
        step("places-of-sixteen", &model, &at, &[], MANY),
        step(
            "places-of-sixteen-of-one",
            &{
                let mut model = model.clone();
                for (chart, &state) in model.charts.iter_mut().zip(&at) {
                    keep_first(chart, state);
                }
                model
            },
            &at,
            &[],
            GIVEN,
        ),
        step("transitions-513", &nine, &[0; 9], &[], GIVEN),
    ]
}

/// Lets a chart's transitions, but for the one at a place, need a signal that is never offered.
fn only(chart: &mut Chart, place: usize) {
    for (other, transition) in chart.transitions.iter_mut().enumerate() {
        if other != place {
            transition.needed = Set::one(60);
        }
    }
}

/// Lets the transitions from a state that are not met leave another state, so that one is left.
fn keep_first(chart: &mut Chart, state: u8) {
    for transition in &mut chart.transitions {
        if transition.from == state && transition.needed != Set::EMPTY {
            transition.from = (state + 1) % STATES as u8;
        }
    }
}

/// Runs: 24 in their rows, with something carried; and rows of sixteen charts.
pub fn run_cases() -> Vec<Case> {
    let run = |name: &str, model: &Model, at: &[u8], carried: &[u32], inputs: &[&[u32]]| {
        let inputs: Vec<Set> = inputs.iter().map(|signals| Set::of(signals)).collect();
        let room = rows_bytes(inputs.len(), at.len()) + 1;
        let command = Command::run(name, model.file(), at, &inputs, room);
        Case::new(command.carrying(Set::of(carried)), GIVEN)
    };
    // state 0 waits for 30 and goes to 1, where each of nine charts has eight transitions
    let crowded = {
        let mut one = free(8);
        one.states = 2;
        for transition in &mut one.transitions {
            (transition.from, transition.to) = (1, 1);
        }
        one.transitions.push(go(0, 1, &[30], &[], &[31]));
        row_of_charts(vec![one; 9])
    };
    let second = crowded.clone().under(Edition::Second);
    let nest = nest(CHARTS as u8);
    let to_all: Vec<u32> = (0..16).collect();
    vec![
        run("run-24-in-the-middle", &crowded, &[0; 9], &[7], &{
            [&[1][..], &[2, 30], &[3], &[], &[4, 63], &[30]]
        }),
        run(
            "run-24-throughout",
            &crowded,
            &[1; 9],
            &[40],
            &[&[1], &[2], &[]],
        ),
        run("run-24-first-then-no-input", &crowded, &[1; 9], &[9], &[]),
        run("run-23-and-24-in-one", &crowded, &[0; 9], &[], &{
            [&[5][..], &[6], &[30], &[5], &[6]]
        }),
        run("edition-2-run-24-in-the-middle", &second, &[0; 9], &[7], &{
            [&[1][..], &[2, 30], &[3], &[4]]
        }),
        run("run-nest-of-16", &nest, &[0; 16], &[], &{
            [
                &to_all[..4],
                &to_all[2..9],
                &to_all,
                &[],
                &to_all[..1],
                &to_all,
            ]
        }),
        run(
            "run-16-charts-two-each",
            &free_row(&[2; 16]),
            &[0; 16],
            &[],
            &{ [&[1][..], &[]] },
        ),
    ]
}

/// Rewritings of files with more than seven slaves, and with as many transitions as there can be.
pub fn rewrite_cases() -> Vec<Case> {
    let rewrite = |name: &str, model: &Model, number: u8| {
        let room = match number {
            GIVEN => super::rewrite::rewritten_bytes(model) + 1,
            _ => 40,
        };
        Case::new(Command::rewrite(name, model.file(), room), number)
    };
    let full = {
        let mut model = master_of(SLAVES as u8);
        model.charts[0] = spread(STATES as u8, CHART_TRANSITIONS);
        for chart in &mut model.charts[1..] {
            *chart = spread(STATES as u8, CHART_TRANSITIONS - STATES);
        }
        model
    };
    let few_signals = |free: u32| {
        let mut model = nest(CHARTS as u8);
        let used: Vec<u32> = (0..SIGNALS - free).collect();
        model.charts[3].extra = Set::of(&used);
        model
    };
    let many_nodes = |hides: usize| {
        let mut model = nest(CHARTS as u8);
        for _ in 0..hides {
            model = wrapped(model, &[], &[]);
        }
        model
    };
    vec![
        rewrite("rewrite-nest-of-16", &nest(16), GIVEN),
        rewrite("rewrite-master-of-8", &master_of(8), GIVEN),
        rewrite("rewrite-master-of-15", &master_of(15), GIVEN),
        rewrite("rewrite-row-of-16", &row_of(16), GIVEN),
        rewrite("rewrite-1024-in-all", &full, GIVEN),
        rewrite(
            "rewrite-1024-in-all-and-one",
            &{
                let mut model = full.clone();
                model.charts[15] = spread(STATES as u8, CHART_TRANSITIONS - STATES + 1);
                model
            },
            refusal::REWRITING_CHART,
        ),
        rewrite("rewrite-15-slaves-15-free", &few_signals(15), GIVEN),
        rewrite(
            "rewrite-15-slaves-14-free",
            &few_signals(14),
            refusal::REWRITING_SIGNALS,
        ),
        rewrite("rewrite-nest-of-16-64-nodes", &many_nodes(18), GIVEN),
        rewrite(
            "rewrite-nest-of-16-65-nodes",
            &many_nodes(19),
            refusal::REWRITING_NODES,
        ),
        rewrite(
            "rewrite-edition-2-nest-of-16",
            &{ nest(16).under(Edition::Second) },
            refusal::REWRITING_EDITION,
        ),
    ]
}

/// Whether files of sixteen charts are plain.
pub fn plain_cases() -> Vec<Case> {
    let plain = |name: &str, model: Model| Case::new(Command::plain(name, model.file()), GIVEN);
    vec![
        plain("plain-nest-of-16", nest(16)),
        plain("plain-row-of-16", row_of(16)),
        plain("plain-nest-of-16-fed-back-in-the-last", {
            let mut model = nest(16);
            model.charts[15].feedback = Set::one(15);
            model
        }),
        plain("plain-pair-in-the-last-of-16", {
            let mut model = row_of(16);
            model.charts[15] = free(2);
            model
        }),
        plain(
            "edition-2-plain-nest-of-16",
            nest(16).under(Edition::Second),
        ),
    ]
}

/// Clearings of sixteen charts.
pub fn clear_cases() -> Vec<Case> {
    let clear = |name: &str, model: &Model| {
        let room = crate::clearing::clear_model(model).file().len();
        Case::new(Command::clear(name, model.file(), room), GIVEN)
    };
    let dead = {
        let mut chart = spread(STATES as u8, CHART_TRANSITIONS);
        for transition in &mut chart.transitions {
            (transition.needed, transition.barred) = (Set::one(20), Set::one(20));
        }
        chart
    };
    let last_lives = {
        let mut model = row_of_charts(vec![dead.clone(); CHARTS]);
        model.charts[15] = free(3);
        model
    };
    vec![
        clear(
            "clear-1024-of-16-charts",
            &row_of_charts(vec![dead; CHARTS]),
        ),
        clear("clear-15-of-16-charts", &last_lives),
        clear("clear-none-of-nest-of-16", &nest(16)),
    ]
}

/// A file that is refused with 24 from a configuration, and not when it is cleared.
pub fn crowded_by_dead() -> Model {
    let mut one = free(8);
    for transition in &mut one.transitions[1..] {
        (transition.needed, transition.barred) = (Set::one(40), Set::one(40));
    }
    row_of_charts(vec![one; 9])
}
