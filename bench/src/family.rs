//! The files that are measured, the same each time.

use reference::cases::charts::{chart, go, row_of_charts, wrapped};
use reference::generate::{choices, configuration, model, Random, Shape};
use reference::limits::{CHARTS, EARLIER_CHARTS, NODES, STATE_TRANSITIONS};
use reference::model::{Chart, Edition, Model, Node, Slave, Transition};
use reference::open::by_parts;
use reference::Set;
use std::ops::Range;

/// A file, a configuration of it and an input to step with.
pub struct Subject {
    pub model: Model,
    pub file: Vec<u8>,
    pub config: Vec<u8>,
    pub input: u64,
}

impl Subject {
    /// A model at a configuration with an input.
    pub fn new(model: Model, config: Vec<u8>, input: Set) -> Subject {
        Subject {
            file: model.file(),
            model,
            config,
            input: input.0,
        }
    }

    /// The same under edition 2.
    fn staying(self) -> Subject {
        let model = self.model.under(Edition::Second);
        Subject::new(model, self.config, Set(self.input))
    }

    /// How many choices of its step are open.
    pub fn open(&self) -> u64 {
        by_parts(&self.model, &self.config)
    }

    /// How many choices plain enumeration tries in a step.
    pub fn choices(&self) -> u64 {
        let command = reference::command::Command::step(
            "",
            self.file.clone(),
            &self.config,
            Set(self.input),
            self.config.len(),
        );
        choices(&command)
    }

    /// Whether its step is permitted; by plain enumeration, so only for few choices.
    fn is_permitted(&self) -> bool {
        let mut next = vec![0; self.config.len()];
        let stepped = reference::step(&self.file, &self.config, Set(self.input), &mut next);
        stepped.refusal == 0
    }
}

/// The files of everyday use: 1 to 4 charts, a few states, most of them total; each step is permitted.
pub fn everyday() -> Vec<Subject> {
    (0..24)
        .map(|number| everyday_of(number, 1 + number as usize % 4, 40))
        .collect()
}

/// The files of everyday use that have slaves, and can be rewritten.
pub fn everyday_with_slaves() -> Vec<Subject> {
    (0..24)
        .map(|number| everyday_of(1_000 + number, 2 + number as usize % 3, 100))
        .collect()
}

/// One of them: so many charts, with this chance of slaves.
fn everyday_of(seed: u64, charts: usize, decompose: usize) -> Subject {
    let mut random = Random::new(seed);
    let shape = Shape {
        charts,
        states: 3,
        out: 2,
        signals: (0..6).collect(),
        guard: 25,
        action: 20,
        feedback: 30,
        decompose,
        hide: 10,
        complete: 100,
    };
    loop {
        let model = model(&mut random, &shape);
        let config = configuration(&mut random, &model);
        let subject = Subject::new(model, config, random.subset(&shape.signals, 50));
        let can_be_rewritten = rewrites(&subject.file);
        if subject.is_permitted() && can_be_rewritten {
            return subject;
        }
    }
}

/// Whether a file can be rewritten.
fn rewrites(file: &[u8]) -> bool {
    reference::rewrite(file, &mut vec![0; 65_536]).refusal == 0
}

/// Inputs for a run: so many random sets of the few signals.
pub fn inputs(seed: u64, count: usize) -> Vec<u64> {
    let mut random = Random::new(seed);
    (0..count).map(|_| random.bits() & 0x3f).collect()
}

/// The hard family: 8 charts, 8 transitions from each state, few signals, feedback everywhere.
pub fn hard() -> Vec<Subject> {
    (0..9)
        .map(|seed| random_row(seed, EARLIER_CHARTS, STATE_TRANSITIONS))
        .collect()
}

/// So many charts in a row, so many transitions from each state, full feedback.
pub fn random_row(seed: u64, charts: usize, out: usize) -> Subject {
    random_row_of(seed, &vec![out; charts])
}

/// Charts in a row with so many transitions from each state of each, full feedback.
pub fn random_row_of(seed: u64, outs: &[usize]) -> Subject {
    let mut random = Random::new(0x6861_7264 + seed);
    let signals: Vec<u32> = (0..4 + seed as u32 % 5).collect();
    let charts = outs
        .iter()
        .map(|&out| random_chart(&mut random, &signals, out))
        .collect();
    let mut model = row_of_charts(charts);
    feed_back(&mut model, Set::of(&signals));
    let config = configuration(&mut random, &model);
    let input = random.subset(&signals, 25);
    Subject::new(model, config, input)
}

/// A chart of 2 states with so many transitions from each.
fn random_chart(random: &mut Random, signals: &[u32], out: usize) -> Chart {
    let from = (0..2).flat_map(|state| vec![state; out]);
    let transitions = from
        .map(|from| random_transition(random, signals, from))
        .collect();
    chart(2, signals, transitions)
}

/// A transition with about two signals in its guard and one in its action.
fn random_transition(random: &mut Random, signals: &[u32], from: u8) -> Transition {
    let count = signals.len();
    let guard = random.subset(signals, 200 / count);
    let split = random.subset(signals, 50);
    Transition {
        from,
        to: random.below(2) as u8,
        needed: guard.cut(split),
        barred: guard.less(split),
        action: random.subset(signals, 100 / count),
    }
}

/// Lets every composed node feed a set back.
fn feed_back(model: &mut Model, set: Set) {
    for node in &mut model.nodes {
        if let Node::Composed { feedback, .. } = node {
            *feedback = set;
        }
    }
}

/// The special ones, each with 8^8 choices.
pub fn special() -> Vec<(&'static str, Subject)> {
    vec![
        (
            "a last chart that needs what no chart outputs",
            last_needs(),
        ),
        ("all charts waiting for the last", all_wait()),
        ("8^8 permitted choices that all agree", all_agree()),
        ("a last chart that bars what all others output", last_bars()),
    ]
}

/// Eight charts of one state and 8 transitions; the sets of a transition by its chart and its place.
fn eight(sets: impl Fn(u32, u32) -> [Vec<u32>; 3]) -> Subject {
    let all: Vec<u32> = (0..64).collect();
    let one = |number: u32| {
        let moves = (0..8).map(|place| {
            let [needed, barred, action] = sets(number, place);
            go(0, 0, &needed, &barred, &action)
        });
        chart(1, &all, moves.collect())
    };
    let mut model = row_of_charts((0..8).map(one).collect());
    feed_back(&mut model, Set::FULL);
    Subject::new(model, vec![0; 8], Set::EMPTY)
}

/// The last chart needs a signal that no chart outputs; the others may do anything.
fn last_needs() -> Subject {
    eight(|number, place| match number {
        7 => [vec![60], vec![], vec![place]],
        _ => [vec![], vec![], vec![place]],
    })
}

/// Seven charts need a signal that only the last transition of the last chart outputs.
fn all_wait() -> Subject {
    eight(|number, place| match (number, place) {
        (7, 7) => [vec![], vec![], vec![60]],
        (7, _) => [vec![], vec![], vec![place]],
        _ => [vec![60], vec![], vec![place]],
    })
}

/// Every choice is permitted and does the same.
fn all_agree() -> Subject {
    eight(|_, _| [vec![], vec![], vec![1]])
}

/// Whatever is chosen, the last chart finds a signal that it bars.
fn last_bars() -> Subject {
    eight(|number, place| match number {
        7 => [vec![], vec![60], vec![place]],
        _ => [vec![], vec![], vec![place, 60]],
    })
}

/// The families of more than eight charts with feedback everywhere, by a label; each has at most
/// 16,777,216 open choices.
pub fn many() -> Vec<(&'static str, Vec<Subject>)> {
    let family = |outs: &[usize]| (0..9).map(|seed| random_row_of(seed, outs)).collect();
    let mixed = [3, 3, 3, 3, 3, 3, 3, 3, 3, 3, 3, 3, 3, 2, 2, 2];
    vec![
        (
            "16 charts with 2 transitions, feedback everywhere",
            family(&[2; 16]),
        ),
        ("13 charts with 3 transitions and 3 with 2", family(&mixed)),
        ("12 charts with 4 transitions", family(&[4; 12])),
    ]
}

/// Steps that are answered by their number of open choices: none by the last of sixteen charts, and
/// too many; by a label.
pub fn counted() -> Vec<(&'static str, Subject)> {
    let mut trap = [STATE_TRANSITIONS; CHARTS];
    trap[CHARTS - 1] = 0;
    let many = |outs: &[usize]| random_row_of(0, outs);
    vec![
        (
            "15 charts with 8 transitions, and one with none: 23",
            many(&trap),
        ),
        ("9 charts with 8 transitions: 24", many(&[8; 9])),
        ("16 charts with 8 transitions: 24", many(&[8; 16])),
        (
            "edition 2, 16 charts with 2 transitions: 24",
            many(&[2; 16]).staying(),
        ),
    ]
}

/// Sixteen charts with 8^8 open choices that take long to be told apart: eight charts of eight
/// transitions, then eight of one, nothing comes out. By a label.
pub fn bad() -> Vec<(&'static str, Subject)> {
    vec![
        ("nothing that a chart outputs is read", nothing_read()),
        ("a dead end that only the last chart shows", dead_end()),
        ("two charts read", two_read()),
        (
            "charts with one candidate in a slave that is nearly always active",
            busy_slave(),
        ),
    ]
}

/// The first signal that charts of one transition output, after those of charts of eight.
const LATER: u32 = 16;

/// Sixteen charts, so many of eight transitions and then the others of one. Transition v of the first ones
/// outputs signal v, so that no two of a chart are equal; each of the others has a signal of its own.
fn eights_and_ones(eights: usize) -> Vec<Chart> {
    let all: Vec<u32> = (0..64).collect();
    let moves = (0..8).map(|signal| go(0, 0, &[], &[], &[signal])).collect();
    let first = chart(1, &all, moves);
    let one = |number: usize| chart(1, &all, vec![go(0, 0, &[], &[], &[LATER + number as u32])]);
    [vec![first; eights], (0..CHARTS - eights).map(one).collect()].concat()
}

/// Eight of either kind.
fn eight_and_eight() -> Vec<Chart> {
    eights_and_ones(8)
}

/// Charts composed in a row, everything fed back and nothing put out.
fn silent(charts: Vec<Chart>) -> Subject {
    let all: Vec<u32> = (0..64).collect();
    let count = charts.len();
    let mut model = row_of_charts(charts);
    feed_back(&mut model, Set::FULL);
    Subject::new(wrapped(model, &[], &all), vec![0; count], Set::EMPTY)
}

/// No guard asks for anything.
fn nothing_read() -> Subject {
    silent(eight_and_eight())
}

/// A dead end that the last chart shows.
fn dead_end() -> Subject {
    silent(in_dead_end(eight_and_eight()))
}

/// The last chart needs two signals, of which the first chart outputs one or the other.
fn in_dead_end(mut charts: Vec<Chart>) -> Vec<Chart> {
    for (place, transition) in charts[0].transitions.iter_mut().enumerate() {
        transition.action = Set::one(40 + place as u32 % 2).joined(transition.action);
    }
    charts[CHARTS - 1].transitions[0].needed = Set::of(&[40, 41]);
    charts
}

/// Two of the last charts look at what the first eight output: one needs a signal, one bars another.
fn two_read() -> Subject {
    let mut charts = eight_and_eight();
    charts[CHARTS - 2].transitions[0].needed = Set::one(0);
    charts[CHARTS - 1].transitions[0].barred = Set::one(7);
    silent(charts)
}

/// The charts of one transition are inside a slave that seven of the first chart's eight transitions
/// activate.
fn busy_slave() -> Subject {
    let all: Vec<u32> = (0..64).collect();
    let mut charts = eight_and_eight();
    charts[0].states = 3;
    for (place, transition) in charts[0].transitions.iter_mut().enumerate() {
        transition.to = if place < 7 { 1 } else { 2 };
    }
    let mut model = row_with_slave(charts, 8, 1);
    feed_back(&mut model, Set::FULL);
    Subject::new(wrapped(model, &[], &all), vec![0; CHARTS], Set::EMPTY)
}

/// Charts in a row, of which those from one on are in a row inside a slave of chart 0's state.
pub fn row_with_slave(charts: Vec<Chart>, from: usize, state: u8) -> Model {
    let mut nodes = vec![];
    let inside = lay_row(&mut nodes, from..charts.len());
    lay_row(&mut nodes, 0..from);
    let slave = Slave {
        chart: 0,
        state,
        node: inside,
    };
    Model {
        edition: Edition::First,
        charts,
        slaves: vec![slave],
        nodes,
    }
}

/// Lays down the nodes of some charts in a row; the number of the last, which is the whole of it.
fn lay_row(nodes: &mut Vec<Node>, charts: Range<usize>) -> u8 {
    let leaves = nodes.len()..nodes.len() + charts.len();
    nodes.extend(charts.map(|chart| Node::Chart { chart: chart as u8 }));
    leaves.reduce(|a, b| {
        nodes.push(Node::Composed {
            a: a as u8,
            b: b as u8,
            feedback: Set::EMPTY,
        });
        nodes.len() - 1
    });
    (nodes.len() - 1) as u8
}

/// The worst steps that are known, by a label: sixteen charts, so many of eight moves before the others of
/// one, and nothing is left out before the last charts.
pub fn worst(eights: usize) -> [(&'static str, Subject); 3] {
    [
        (
            "a dead end that the last chart shows, after eight states of each",
            late_dead_end(eights),
        ),
        (
            "all choices are permitted and agree, by what the last chart outputs",
            late_agreement(eights),
        ),
        (
            "edition 2: all choices are permitted and agree, staying included",
            late_staying(eights),
        ),
    ]
}

/// The charts of eight transitions go to eight states each, and nobody looks.
fn late_dead_end(eights: usize) -> Subject {
    let mut charts = in_dead_end(eights_and_ones(eights));
    for chart in &mut charts[..eights] {
        chart.states = 8;
        for (place, transition) in chart.transitions.iter_mut().enumerate() {
            transition.to = place as u8;
        }
    }
    silent(charts)
}

/// What the charts of eight transitions output comes out of the whole; but so it does whatever they do, since
/// the last chart outputs all of it.
fn late_agreement(eights: usize) -> Subject {
    let mut charts = eights_and_ones(eights);
    charts[CHARTS - 1].transitions[0].action = Set(0xff);
    Subject::new(row_of_charts(charts), vec![0; CHARTS], Set::EMPTY)
}

/// The first charts have seven transitions, each of which needs what it outputs itself, so that the chart may
/// stay instead; the others can only stay.
fn late_staying(eights: usize) -> Subject {
    let all: Vec<u32> = (0..64).collect();
    let own = |signal: u32| go(0, 0, &[signal], &[], &[signal]);
    let mut charts = vec![chart(1, &all, (0..7).map(own).collect()); eights];
    charts.resize(CHARTS, chart(1, &all, vec![]));
    let model = wrapped(row_of_charts(charts), &[], &all);
    Subject::new(model, vec![0; CHARTS], Set::EMPTY).staying()
}

/// The everyday files under edition 2: what they did they do, and some lose the mark.
pub fn everyday_staying() -> Vec<Subject> {
    everyday().into_iter().map(Subject::staying).collect()
}

/// The hard family under edition 2, with so many transitions from each state; with eight it would be
/// refused with 24.
pub fn hard_staying(out: usize) -> Vec<Subject> {
    (0..9)
        .map(|seed| random_row(seed, EARLIER_CHARTS, out).staying())
        .collect()
}

/// The longest chain of nodes that a file can have, whose step is permitted.
pub fn chain() -> Subject {
    let all = (0..).map(|seed| nodes(seed, NODES));
    let mut permitted = all.filter(Subject::is_permitted);
    permitted.next().expect("one of them")
}

/// Four charts in a row, hidden again and again until there are so many nodes.
pub fn nodes(seed: u64, count: usize) -> Subject {
    let subject = random_row(seed, 4, 2);
    let mut model = subject.model;
    while model.nodes.len() < count {
        model = wrapped(model, &[], &[]);
    }
    Subject::new(model, subject.config, Set(subject.input))
}
