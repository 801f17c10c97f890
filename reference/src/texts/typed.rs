//! A file of edition 1 as typed text. Whatever the notation leaves open is drawn: the order of sets,
//! guards, states and slaves, signals that are typed twice, empty sets that can be left out, blanks.

use crate::generate::Random;
use crate::model::{Model, Node, Slave, Transition};
use crate::notation::grammar::BLANKS;
use crate::set::Set;

/// The tokens of a file.
pub fn tokens(random: &mut Random, model: &Model) -> Vec<String> {
    let whole = model.whole() as u8;
    let mut typist = Typist {
        random,
        model,
        tokens: vec![],
    };
    typist.node(whole, false);
    typist.tokens
}

/// A text of a file.
pub fn right_text(random: &mut Random, model: &Model) -> Vec<u8> {
    let tokens = tokens(random, model);
    spaced(random, &tokens)
}

/// Tokens with blanks between them: none, some or many.
pub fn spaced(random: &mut Random, tokens: &[String]) -> Vec<u8> {
    let percent = random.pick(&[0, 0, 5, 30, 100]);
    let mut text = vec![];
    blanks(random, percent, &mut text);
    for token in tokens {
        text.extend(token.bytes());
        blanks(random, percent, &mut text);
    }
    text
}

/// Adds blanks, with this chance of each.
fn blanks(random: &mut Random, percent: usize, text: &mut Vec<u8>) {
    let most = random.pick(&[1, 1, 1, 3]);
    for _ in 0..most {
        if random.chance(percent) {
            text.push(random.pick(&BLANKS));
        }
    }
}

/// What types the tokens of a file.
struct Typist<'a> {
    random: &'a mut Random,
    model: &'a Model,
    tokens: Vec<String>,
}

impl Typist<'_> {
    fn push(&mut self, token: &str) {
        self.tokens.push(token.to_string());
    }

    fn name(&mut self, letter: char, number: impl std::fmt::Display) {
        self.tokens.push(format!("{letter}{number}"));
    }

    /// A list in braces, each member typed by this.
    fn list<T: Clone>(&mut self, members: &[T], typing: impl Fn(&mut Self, &T)) {
        self.push("{");
        for (place, member) in members.iter().enumerate() {
            if place > 0 {
                self.push(",");
            }
            typing(self, member);
        }
        self.push("}");
    }

    /// The members in any order, seldom one of them twice.
    fn mixed<T: Clone>(&mut self, mut members: Vec<T>) -> Vec<T> {
        if !members.is_empty() && self.random.chance(10) {
            let again = self.random.pick(&members);
            members.push(again);
        }
        self.random.shuffle(&mut members);
        members
    }

    fn set(&mut self, set: Set) {
        let signals = self.mixed(set.signals().collect());
        self.list(&signals, |typist, signal| typist.name('s', signal));
    }

    /// A set that can be left out if it is empty; whether it was typed.
    fn is_typed(&mut self, set: Set) -> bool {
        set != Set::EMPTY || self.random.chance(30)
    }

    /// A node; a composition that is a part of one has round brackets.
    fn node(&mut self, number: u8, is_part: bool) {
        match self.model.nodes[usize::from(number)].clone() {
            Node::Chart { chart } if self.model.is_master(chart) => self.decomposed(chart),
            Node::Chart { chart } => self.sequential(chart),
            Node::Composed { a, b, feedback } => {
                self.tokens.extend(is_part.then(|| "(".to_string()));
                self.node(a, true);
                self.push("|");
                self.set(feedback);
                self.push("|");
                self.node(b, true);
                self.tokens.extend(is_part.then(|| ")".to_string()));
            }
            Node::Hidden {
                part,
                filtered,
                hidden,
            } => {
                if self.is_typed(filtered) {
                    self.set(filtered);
                }
                self.push("[");
                self.node(part, false);
                self.push("]");
                if self.is_typed(hidden) {
                    self.set(hidden);
                }
            }
        }
    }

    fn decomposed(&mut self, master: u8) {
        self.push("Dec");
        self.sequential(master);
        self.push("by");
        let mut slaves: Vec<Slave> = self.model.slaves_of(master).cloned().collect();
        self.random.shuffle(&mut slaves);
        self.list(&slaves, |typist, slave| {
            typist.push("(");
            typist.name('q', slave.state);
            typist.push(",");
            typist.node(slave.node, false);
            typist.push(")");
        });
    }

    fn sequential(&mut self, number: u8) {
        let chart = self.model.charts[usize::from(number)].clone();
        let mut states: Vec<u8> = (0..chart.states).filter(|&s| s != chart.initial).collect();
        self.random.shuffle(&mut states);
        states.insert(0, chart.initial);
        self.push("(");
        self.name('c', number);
        self.push(",");
        self.list(&states, |typist, state| typist.name('q', state));
        self.push(",");
        self.name('q', chart.initial);
        self.push(",");
        self.set(chart.feedback);
        self.push(",");
        self.list(&chart.transitions, Self::transition);
        if self.is_typed(chart.extra) {
            self.push(",");
            self.set(chart.extra);
        }
        self.push(")");
    }

    fn transition(&mut self, transition: &Transition) {
        self.push("(");
        self.name('q', transition.from);
        self.push(",");
        self.name('q', transition.to);
        self.push(",");
        let needed = transition.needed.signals().map(|signal| (false, signal));
        let barred = transition.barred.signals().map(|signal| (true, signal));
        let guard = self.mixed(needed.chain(barred).collect());
        for (place, &(is_barred, signal)) in guard.iter().enumerate() {
            self.tokens.extend((place > 0).then(|| "&".to_string()));
            self.tokens.extend(is_barred.then(|| "-".to_string()));
            self.name('s', signal);
        }
        self.push("/");
        self.set(transition.action);
        self.push(")");
    }
}
