//! The search for the files whose steps take longest: many are drawn, and the worst of them is changed again
//! and again, as long as its step gets no easier; and so are the worst that are known. What is compared is how
//! many guards the search looks at, by hand: the same on every machine.

use crate::family::{self, row_with_slave, Subject};
use crate::hand;
use reference::cases::charts::{chart, row_of_charts, wrapped};
use reference::generate::Random;
use reference::limits::{CHARTS, EARLIER_CHARTS, STATE_TRANSITIONS};
use reference::model::{Chart, Edition, Node, Transition};
use reference::Set;
use std::fmt::{self, Display, Formatter};

/// The most guards that are counted of one step: some five seconds of a search.
const MOST_GUARDS: u64 = 2_000_000_000;

/// Where is looked: the edition, and the most open choices of a step.
#[derive(Clone, Copy)]
pub struct Field {
    pub edition: Edition,
    pub open: u64,
}

/// A file that was climbed from: what it is, how many guards the search of its step looks at, and what it
/// became by changes.
pub struct Climbed {
    pub from: String,
    pub before: u64,
    pub subject: Subject,
    pub guards: u64,
}

impl Display for Climbed {
    fn fmt(&self, out: &mut Formatter) -> fmt::Result {
        let open = self.subject.open();
        let each = self.guards as f64 / open as f64;
        write!(
            out,
            "{}: {} guards, then {} for {open} open choices, {each:.1} for each",
            self.from, self.before, self.guards
        )
    }
}

/// What is climbed to in so many changes: from the worst of so many files that are drawn, and from the worst
/// that are known.
pub fn climbs(field: Field, files: u64, changes: u64) -> Vec<Climbed> {
    let all = (0..files).map(|seed| (guards(&drawn(field, seed)), seed));
    let (_, seed) = all.max().unwrap_or((0, 0));
    let first = (format!("seed {seed} of {files}"), drawn(field, seed));
    let eights = field.open.ilog(STATE_TRANSITIONS as u64) as usize;
    let known = family::worst(eights).map(|(label, subject)| (label.to_string(), subject));
    let known = known
        .into_iter()
        .filter(|(_, subject)| subject.model.edition == field.edition);
    let starts = [first].into_iter().chain(known);
    starts
        .map(|(from, subject)| climbed(field, from, subject, changes))
        .collect()
}

/// A file changed so many times; a change that makes its step easier is taken back.
pub fn climbed(field: Field, from: String, start: Subject, changes: u64) -> Climbed {
    let mut random = Random::new(changes);
    let before = guards(&start);
    let (mut subject, mut most) = (start, before);
    for _ in 0..changes {
        let other = changed(&mut random, &subject);
        if field.allows(&other) {
            let guards = guards(&other);
            if guards >= most {
                (subject, most) = (other, guards);
            }
        }
    }
    Climbed {
        from,
        before,
        subject,
        guards: most,
    }
}

/// How many guards the search of a file's step looks at.
pub fn guards(subject: &Subject) -> u64 {
    let (file, config) = (&subject.file, &subject.config);
    hand::guards(file, config, subject.input, MOST_GUARDS).expect("a file in order")
}

impl Field {
    /// Whether a file is accepted, and has no more open choices than are allowed.
    fn allows(&self, subject: &Subject) -> bool {
        reference::check(&subject.file) == 0 && (1..=self.open).contains(&subject.open())
    }

    /// How many moves each of so many charts has, so that there are no more open choices than are allowed.
    fn moves(&self, random: &mut Random, charts: usize) -> Vec<usize> {
        let most = self.stays() + STATE_TRANSITIONS;
        let mut left = self.open as usize;
        let mut all = vec![];
        for _ in 0..charts {
            let here = random.pick(&[1, 2, 3, most, most]).min(left);
            all.push(here);
            left /= here;
        }
        if random.chance(30) {
            random.shuffle(&mut all);
        }
        all
    }

    /// How many of a chart's moves are no transitions.
    fn stays(&self) -> usize {
        match self.edition {
            Edition::First => 0,
            Edition::Second => 1,
        }
    }
}

/// A file to begin with: nine to sixteen charts in a row, in state 0 of one or more, some of them in a slave
/// now and then; how many signals there are, and how many of them are in guards, actions, feedback and input,
/// is drawn too.
pub fn drawn(field: Field, seed: u64) -> Subject {
    let mut random = Random::new(0x776f_7273 + (seed << 8));
    let signals: Vec<u32> = (0..random.between(2, 16) as u32).collect();
    let [guard, action] = [(); 2].map(|_| random.pick(&[0, 2, 5, 10, 20, 30, 50]));
    let feedback = random.pick(&[50, 100, 100]);
    let states = random.pick(&[1, 2, STATE_TRANSITIONS as u8]);
    let count = random.between(EARLIER_CHARTS + 1, CHARTS);
    let charts = field.moves(&mut random, count).into_iter().map(|moves| {
        let moves = (field.stays()..moves)
            .map(|place| Transition {
                to: place as u8 % states,
                ..drawn_transition(&mut random, &signals, guard, action)
            })
            .collect();
        Chart {
            feedback: random.subset(&signals, feedback),
            ..chart(states, &[], moves)
        }
    });
    let charts: Vec<Chart> = charts.collect();
    let made = match random.chance(25) {
        true => row_with_slave(
            charts,
            random.between(1, count - 1),
            random.below(usize::from(states)) as u8,
        ),
        false => row_of_charts(charts),
    };
    let mut model = made.under(field.edition);
    let hidden = random.pick(&[0, 50, 100]);
    for node in &mut model.nodes {
        if let Node::Composed { feedback: set, .. } = node {
            *set = random.subset(&signals, feedback);
        }
    }
    let hidden: Vec<u32> = random.subset(&signals, hidden).signals().collect();
    let percent = random.pick(&[0, 0, 10, 30]);
    let input = random.subset(&signals, percent);
    Subject::new(wrapped(model, &[], &hidden), vec![0; count], input)
}

/// A transition of state 0; each signal is in its guard and in its action with a chance.
fn drawn_transition(
    random: &mut Random,
    signals: &[u32],
    guard: usize,
    action: usize,
) -> Transition {
    let guard = random.subset(signals, guard);
    let split = random.subset(signals, 50);
    Transition {
        from: 0,
        to: 0,
        needed: guard.cut(split),
        barred: guard.less(split),
        action: random.subset(signals, action),
    }
}

/// The same with a small change; it may be none, or one that no file can have.
fn changed(random: &mut Random, subject: &Subject) -> Subject {
    let (mut model, mut input) = (subject.model.clone(), Set(subject.input));
    let signal = Set::one(random.below(16) as u32);
    let [one, other] = [(); 2].map(|_| random.below(model.charts.len()));
    match random.below(8) {
        0 => toggle(&mut input, signal),
        1 => toggle(&mut model.charts[one].feedback, signal),
        2 => {
            let node = random.below(model.nodes.len());
            match &mut model.nodes[node] {
                Node::Composed { feedback, .. } => toggle(feedback, signal),
                Node::Hidden { hidden, .. } => toggle(hidden, signal),
                Node::Chart { .. } => {}
            }
        }
        // the charts are settled in another order
        3 => model.charts.swap(one, other),
        // a transition moves to another chart
        4 => {
            if let Some(moved) = model.charts[one].transitions.pop() {
                model.charts[other].transitions.push(moved);
            }
        }
        _ => {
            let Chart {
                states,
                transitions,
                ..
            } = &mut model.charts[one];
            if !transitions.is_empty() {
                let place = random.below(transitions.len());
                change(random, &mut transitions[place], *states, signal);
            }
        }
    }
    Subject::new(model, subject.config.clone(), input)
}

/// A signal more or less in one of a transition's sets, or another state after it.
fn change(random: &mut Random, transition: &mut Transition, states: u8, signal: Set) {
    match random.below(4) {
        0 => toggle(&mut transition.needed, signal),
        1 => toggle(&mut transition.barred, signal),
        2 => toggle(&mut transition.action, signal),
        _ => transition.to = random.below(usize::from(states)) as u8,
    }
}

/// A signal is put into a set, or taken out.
fn toggle(set: &mut Set, signal: Set) {
    set.0 ^= signal.0;
}
