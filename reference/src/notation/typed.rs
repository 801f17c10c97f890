//! What is typed, in a tree: numbers, sets, charts in round brackets, compositions, slaves; how deep
//! it is (refusal 51), and whether its names are right (refusal 52).

use super::grammar::Kind;
use super::tree::{At, Tree};
use crate::limits::{NAMED_CHARTS, NAMED_SIGNALS, NAMED_STATES};

/// A number as typed; one with very many digits is the highest that there is.
pub type Number = usize;

/// A chart in round brackets, as typed.
pub struct Sequential {
    pub name: Number,
    pub states: Vec<Number>,
    pub initial: Number,
    pub feedback: At,
    pub transitions: Vec<At>,
    pub extra: Option<At>,
}

/// What a chart is, under the round brackets of a part.
pub enum Form {
    Sequential(At),
    /// The master, and its slaves as typed.
    Decomposed(At, Vec<At>),
    /// The set before the square brackets, the chart, the set behind them.
    Hidden(Option<At>, At, Option<At>),
    Composed(At, At, At),
}

impl Tree<'_> {
    /// The number of a name, a state or a signal.
    pub fn number(&self, at: At) -> Number {
        let number = self.parts(at)[0];
        self.bytes(number).iter().fold(0, |sum: Number, digit| {
            let digit = Number::from(digit - b'0');
            sum.saturating_mul(10).saturating_add(digit)
        })
    }

    fn numbers_of(&self, at: At, kind: Kind) -> Vec<Number> {
        let parts = self.parts_of(at, kind);
        parts.map(|part| self.number(part)).collect()
    }

    /// The signals of a set, as typed.
    pub fn signals(&self, set: At) -> Vec<Number> {
        self.numbers_of(set, Kind::Signal)
    }

    /// A chart in round brackets. The last of its states is the initial one, the others are its list.
    pub fn sequential(&self, at: At) -> Sequential {
        let mut states = self.numbers_of(at, Kind::State);
        let mut sets = self.parts_of(at, Kind::Set);
        Sequential {
            name: self.number(self.parts(at)[0]),
            initial: states.pop().expect("an initial state"),
            states,
            feedback: sets.next().expect("a feedback set"),
            extra: sets.next(),
            transitions: self.parts_of(at, Kind::Transition).collect(),
        }
    }

    /// All charts in round brackets.
    pub fn sequentials(&self) -> Vec<Sequential> {
        let all = self.all_of(Kind::Sequential);
        all.map(|at| self.sequential(at)).collect()
    }

    /// What a chart or a part is.
    pub fn form(&self, at: At) -> Form {
        let parts = self.parts(at);
        let kinds: Vec<Kind> = parts.iter().map(|&part| self.kind(part)).collect();
        match kinds[..] {
            [Kind::Single] => self.form(parts[0]),
            [Kind::Part, Kind::Set, Kind::Part] => Form::Composed(parts[0], parts[1], parts[2]),
            [Kind::Sequential] => Form::Sequential(parts[0]),
            [Kind::Sequential, ..] => Form::Decomposed(parts[0], parts[1..].to_vec()),
            [Kind::Chart] => Form::Hidden(None, parts[0], None),
            [Kind::Set, Kind::Chart] => Form::Hidden(Some(parts[0]), parts[1], None),
            [Kind::Chart, Kind::Set] => Form::Hidden(None, parts[0], Some(parts[1])),
            _ => Form::Hidden(Some(parts[0]), parts[1], Some(parts[2])),
        }
    }

    /// Whether a node is an operator: a composition, `Dec` or square brackets. What has one part that
    /// is no chart of its own passes on what that part is.
    fn is_operator(&self, at: At) -> bool {
        match self.kind(at) {
            Kind::Chart | Kind::Part => self.parts(at).len() > 1,
            Kind::Single => {
                self.kind(self.parts(at)[0]) != Kind::Sequential || self.parts(at).len() > 1
            }
            _ => false,
        }
    }

    /// How many nodes the file has: one for each chart in round brackets, each composition and each
    /// pair of square brackets. `Dec` has that of its master.
    pub fn count_nodes(&self) -> usize {
        let has_node = |at: &At| match self.kind(*at) {
            Kind::Sequential => true,
            Kind::Single => self.parts_of(*at, Kind::Sequential).next().is_none(),
            _ => self.is_operator(*at),
        };
        self.all().filter(has_node).count()
    }

    /// How deep the whole is: a chart in round brackets is one deep, and each operator adds one to the
    /// deepest chart in it.
    pub fn depth(&self) -> usize {
        let mut depths: Vec<usize> = vec![];
        for at in self.all() {
            let deepest = self.parts(at).iter().map(|&part| depths[part]).max();
            let own = self.kind(at) == Kind::Sequential || self.is_operator(at);
            depths.push(deepest.unwrap_or(0) + usize::from(own));
        }
        depths[self.whole()]
    }

    /// 52: a name out of range; a chart, or a state in its list, that is given twice, or left out below
    /// the highest; an initial state that is not the first; a state that its chart lacks.
    pub fn names_wrong(&self) -> bool {
        let charts = self.sequentials();
        let mut names: Vec<Number> = charts.iter().map(|chart| chart.name).collect();
        self.out_of_range()
            || !are_all_up_to_some(&mut names)
            || charts.iter().any(|chart| self.states_wrong(chart))
            || self.all_of(Kind::Single).any(|at| self.slaves_wrong(at))
    }

    fn out_of_range(&self) -> bool {
        self.all().any(|at| match self.kind(at) {
            Kind::Name => self.number(at) >= NAMED_CHARTS,
            Kind::State => self.number(at) >= NAMED_STATES,
            Kind::Signal => self.number(at) >= NAMED_SIGNALS,
            _ => false,
        })
    }

    /// The list of a chart, its initial state, and the states of its transitions.
    fn states_wrong(&self, chart: &Sequential) -> bool {
        let used = chart.transitions.iter();
        let mut used = used.flat_map(|&at| self.numbers_of(at, Kind::State));
        !are_all_up_to_some(&mut chart.states.clone())
            || chart.initial != chart.states[0]
            || used.any(|state| !chart.states.contains(&state))
    }

    /// The states of the pairs behind `by`.
    fn slaves_wrong(&self, single: At) -> bool {
        let Form::Decomposed(master, slaves) = self.form(single) else {
            return false;
        };
        let states = self.sequential(master).states;
        let state = |slave: At| self.number(self.parts(slave)[0]);
        slaves.iter().any(|&slave| !states.contains(&state(slave)))
    }
}

/// Whether numbers are 0, 1 and so on up to some number, each once, in any order.
fn are_all_up_to_some(numbers: &mut [Number]) -> bool {
    numbers.sort_unstable();
    numbers.iter().copied().eq(0..numbers.len())
}
