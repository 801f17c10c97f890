//! A step (RULES 5): every choice is made in order and tested as a whole against all the rules.
//! Nothing is computed in rounds.

use crate::check::{accept, refuse_if};
use crate::interface::{chart_input, node_input};
use crate::limits::{refusal, CHARTS, NO_PLACE, OPEN_CHOICES, STAYED};
use crate::model::{Chart, Edition, Model, Node, Transition};
use crate::open::{open_choices, ways, ways_of_slaves};
use crate::set::Set;
use std::ops::ControlFlow;

/// The answer of [`step`].
#[derive(Clone, PartialEq, Eq, Debug)]
pub struct Stepped {
    pub refusal: u8,
    pub output: Set,
    pub mark: bool,
    pub places: Places,
    /// The number of open choices, as the answer has it (RULES 5.15).
    pub open: u64,
}

/// The places of a step, by chart (RULES 5.11).
pub type Places = [u8; CHARTS];

/// The places of a refused step (RULES 5.11).
pub const NO_PLACES: Places = [NO_PLACE; CHARTS];

/// A chart's move in a choice (RULES 5.2). Rust's order is that of RULES 5.8: none, the transitions
/// by place, staying.
#[derive(Clone, Copy, PartialEq, Eq, PartialOrd, Ord, Debug)]
pub enum Place {
    None,
    Transition(usize),
    Stay,
}

impl Place {
    /// What a step's places have for it.
    fn number(self) -> u8 {
        match self {
            Place::None => NO_PLACE,
            Place::Transition(place) => place as u8,
            Place::Stay => STAYED,
        }
    }
}

/// What a permitted choice leads to, as far as the mark compares it (RULES 5.10): its places are
/// not in it.
#[derive(Clone, PartialEq, Eq, Debug)]
pub struct Outcome {
    pub output: Set,
    pub next: Vec<u8>,
}

/// What all permitted choices together lead to: the first one, its outcome, and the mark
/// (RULES 5.9); and how many choices are open.
#[derive(Clone, PartialEq, Eq, Debug)]
pub struct Verdict {
    pub choice: Vec<Place>,
    pub outcome: Outcome,
    pub mark: bool,
    pub open: u64,
}

/// The refusal of a step, and the number of open choices that is answered with it: 0 in a refusal
/// below 24, the true number in 24 (RULES 5.15).
#[derive(Clone, Copy, PartialEq, Eq, Debug)]
pub struct Refused {
    pub number: u8,
    pub open: u64,
}

/// A refusal below 24.
impl From<u8> for Refused {
    fn from(number: u8) -> Refused {
        Refused { number, open: 0 }
    }
}

/// The call `step`, with the tests 1 to 11, 20 to 22, 24 and 23, in this order (RULES 3.6). It
/// writes the next configuration to the front of the buffer. The other bytes are unchanged, and if
/// it is refused all of them (RULES 1.4).
pub fn step(file: &[u8], configuration: &[u8], input: Set, next: &mut [u8]) -> Stepped {
    step_by(step_model, file, configuration, input, next)
}

/// The same step by plain enumeration, with which bench/ compares speed.
pub fn step_plainly(file: &[u8], configuration: &[u8], input: Set, next: &mut [u8]) -> Stepped {
    step_by(enumerate, file, configuration, input, next)
}

/// How a step of a file is made from a configuration that have passed the tests before 24.
pub type StepModel = fn(&Model, &[u8], Set) -> Result<Verdict, Refused>;

/// The step as it is made in one of the two ways.
fn step_by(
    made: StepModel,
    file: &[u8],
    configuration: &[u8],
    input: Set,
    next: &mut [u8],
) -> Stepped {
    match try_step(made, file, configuration, input, next.len()) {
        Ok(verdict) => {
            let written = &verdict.outcome.next;
            next[..written.len()].copy_from_slice(written);
            Stepped {
                refusal: refusal::SUCCESS,
                output: verdict.outcome.output,
                mark: verdict.mark,
                places: places(&verdict.choice),
                open: verdict.open,
            }
        }
        Err(Refused { number, open }) => Stepped {
            refusal: number,
            output: Set::EMPTY,
            mark: false,
            places: NO_PLACES,
            open,
        },
    }
}

/// A choice as a step's answer has it.
fn places(choice: &[Place]) -> Places {
    let mut places = NO_PLACES;
    for (entry, place) in places.iter_mut().zip(choice) {
        *entry = place.number();
    }
    places
}

/// The verdict of a step, or the refusal.
fn try_step(
    made: StepModel,
    file: &[u8],
    configuration: &[u8],
    input: Set,
    room: usize,
) -> Result<Verdict, Refused> {
    let model = accept(file)?;
    accept_configuration(&model, configuration)?;
    refuse_if(room < model.charts.len(), refusal::CONFIGURATION_ROOM)?;
    made(&model, configuration, input)
}

/// 20 and 21 (RULES 3.3): one byte for each chart, each a state of its chart.
pub fn accept_configuration(model: &Model, configuration: &[u8]) -> Result<(), u8> {
    let wrong_length = configuration.len() != model.charts.len();
    refuse_if(wrong_length, refusal::CONFIGURATION_LENGTH)?;
    let wrong_state = configuration
        .iter()
        .zip(&model.charts)
        .any(|(&state, chart)| state >= chart.states);
    refuse_if(wrong_state, refusal::CONFIGURATION_STATE)
}

/// The step of a file from a configuration that have passed the tests before 24: 24 if there are
/// too many open choices, 23 if none of them is permitted (RULES 5.9).
pub fn step_model(model: &Model, configuration: &[u8], input: Set) -> Result<Verdict, Refused> {
    let open = open_choices(model, configuration);
    refuse_many(open)?;
    let situation = Situation::new(model, configuration, input);
    let mut permitted = Permitted(None);
    situation.while_open(&mut |choice| permitted.join(&situation, choice));
    permitted.verdict(open)
}

/// The same by plain enumeration: every open choice is tried, and counted on the way.
pub fn enumerate(model: &Model, configuration: &[u8], input: Set) -> Result<Verdict, Refused> {
    let situation = Situation::new(model, configuration, input);
    refuse_many(situation.ways[model.whole()])?;
    let (mut permitted, mut open) = (Permitted(None), 0);
    situation.each_open_choice(&mut |choice| {
        open += 1;
        let _ = permitted.join(&situation, choice);
    });
    permitted.verdict(open)
}

/// 24 (RULES 3.3): too many choices are open.
fn refuse_many(open: u64) -> Result<(), Refused> {
    let number = refusal::MANY_OPEN;
    match open > OPEN_CHOICES {
        true => Err(Refused { number, open }),
        false => Ok(()),
    }
}

/// The first permitted choice so far, its outcome, and whether all permitted ones agree with it.
struct Permitted(Option<(Vec<Place>, Outcome, bool)>);

impl Permitted {
    /// The step of so many open choices, or 23.
    fn verdict(self, open: u64) -> Result<Verdict, Refused> {
        let (choice, outcome, mark) = self.0.ok_or(refusal::NO_STEP)?;
        Ok(Verdict {
            choice,
            outcome,
            mark,
            open,
        })
    }

    /// Joins the next open choice. Once two disagree, the ones after them make no difference.
    fn join(&mut self, situation: &Situation, choice: &[Place]) -> ControlFlow<()> {
        let Some(outcome) = situation.permitted(choice) else {
            return ControlFlow::Continue(());
        };
        match &mut self.0 {
            None => self.0 = Some((choice.to_vec(), outcome, true)),
            Some((_, first, mark)) if *first != outcome => {
                *mark = false;
                return ControlFlow::Break(());
            }
            Some(_) => {}
        }
        ControlFlow::Continue(())
    }
}

/// A file at a configuration under an input, and what is looked up often: the input interface of
/// each node and of each chart alone, each chart's nearest slave, and how many open choices there
/// are in each node.
pub struct Situation<'a> {
    model: &'a Model,
    configuration: &'a [u8],
    input: Set,
    node_inputs: Vec<Set>,
    chart_inputs: Vec<Set>,
    nearest_slaves: Vec<Option<usize>>,
    ways: Vec<u64>,
}

impl<'a> Situation<'a> {
    /// The configuration has passed 20 and 21.
    pub fn new(model: &'a Model, configuration: &'a [u8], input: Set) -> Situation<'a> {
        let nodes = 0..model.nodes.len() as u8;
        let charts = 0..model.charts.len() as u8;
        Situation {
            model,
            configuration,
            input,
            node_inputs: nodes.map(|node| node_input(model, node)).collect(),
            chart_inputs: model.charts.iter().map(chart_input).collect(),
            nearest_slaves: charts.map(|chart| model.nearest_slave(chart)).collect(),
            ways: ways(model, configuration),
        }
    }

    /// A chart.
    fn chart(&self, chart: u8) -> &'a Chart {
        &self.model.charts[usize::from(chart)]
    }

    /// The transition that a choice gives a chart, if it gives it one.
    fn taken(&self, chart: u8, choice: &[Place]) -> Option<&'a Transition> {
        match choice[usize::from(chart)] {
            Place::Transition(place) => Some(&self.chart(chart).transitions[place]),
            Place::None | Place::Stay => None,
        }
    }

    /// A chart's present state.
    fn before(&self, chart: u8) -> u8 {
        self.configuration[usize::from(chart)]
    }

    /// A chart's state after the step (RULES 5.2).
    fn after(&self, chart: u8, choice: &[Place]) -> u8 {
        match self.taken(chart, choice) {
            None => self.before(chart),
            Some(transition) => transition.to,
        }
    }

    /// A chart's own output: the action of its transition, empty if it takes none (RULES 5.2).
    fn own_output(&self, chart: u8, choice: &[Place]) -> Set {
        match self.taken(chart, choice) {
            None => Set::EMPTY,
            Some(transition) => transition.action,
        }
    }

    /// What a choice leads to, if it is permitted (RULES 5.7). The whole is active (RULES 5.3), and
    /// is offered what its input interface has of the input (RULES 5.5).
    pub fn permitted(&self, choice: &[Place]) -> Option<Outcome> {
        let whole = self.model.whole();
        let outputs = self.outputs(choice);
        let offered = self.input.cut(self.node_inputs[whole]);
        let charts = 0..self.model.charts.len() as u8;
        if self.node_meets(whole as u8, true, offered, choice, &outputs) {
            Some(Outcome {
                output: outputs[whole],
                next: charts.map(|chart| self.after(chart, choice)).collect(),
            })
        } else {
            None
        }
    }

    /// The output of each node (RULES 5.4). All nodes that it is made of are lower (tests 9 and
    /// 10).
    fn outputs(&self, choice: &[Place]) -> Vec<Set> {
        let mut outputs: Vec<Set> = Vec::with_capacity(self.model.nodes.len());
        for node in &self.model.nodes {
            let of = |part: u8| outputs[usize::from(part)];
            let output = match *node {
                // a chart alone, or a master with its slaves
                Node::Chart { chart } => {
                    let slaves = self.model.slaves_of(chart).map(|slave| of(slave.node));
                    self.own_output(chart, choice).joined(Set::union(slaves))
                }
                // both parts
                Node::Composed { a, b, .. } => of(a).joined(of(b)),
                // without y
                Node::Hidden { part, hidden, .. } => of(part).less(hidden),
            };
            outputs.push(output);
        }
        outputs
    }

    /// Whether a choice satisfies the rules in a node and in everything inside it: RULES 5.3 for
    /// what is active, RULES 5.5 for what is offered.
    fn node_meets(
        &self,
        node: u8,
        active: bool,
        offered: Set,
        choice: &[Place],
        outputs: &[Set],
    ) -> bool {
        let output = outputs[usize::from(node)];
        let meets = |part: u8, active: bool, offered: Set| {
            self.node_meets(part, active, offered, choice, outputs)
        };
        let cut_to = |set: Set, part: u8| set.cut(self.node_inputs[usize::from(part)]);
        match self.model.nodes[usize::from(node)] {
            // decomposed: the master's feedback set feeds the whole node's output back to master
            // and slaves
            Node::Chart { chart } if self.model.is_master(chart) => {
                let feedback = self.chart(chart).feedback;
                let fed = offered.joined(output.cut(feedback));
                let to_master = fed.cut(self.chart_inputs[usize::from(chart)]);
                self.chart_meets(chart, active, to_master, choice)
                    && self.model.slaves_of(chart).all(|slave| {
                        let slave_active = self.slave_active(active, chart, slave.state, choice);
                        meets(slave.node, slave_active, cut_to(fed, slave.node))
                    })
            }
            Node::Chart { chart } => self.chart_meets(chart, active, offered, choice),
            // composed: x feeds the node's output back to both parts, which are active if the node
            // is
            Node::Composed { a, b, feedback } => {
                let fed = offered.joined(output.cut(feedback));
                meets(a, active, cut_to(fed, a)) && meets(b, active, cut_to(fed, b))
            }
            // hidden: x is removed from what the part is offered
            Node::Hidden { part, filtered, .. } => meets(part, active, offered.less(filtered)),
        }
    }

    /// Whether a slave is active: its master is, and has the slave's state before the step or after
    /// it (RULES 5.3).
    fn slave_active(&self, master_active: bool, master: u8, state: u8, choice: &[Place]) -> bool {
        master_active && (self.before(master) == state || self.after(master, choice) == state)
    }

    /// Whether a chart's move is permitted (RULES 5.7).
    fn chart_meets(&self, chart: u8, active: bool, offered: Set, choice: &[Place]) -> bool {
        match choice[usize::from(chart)] {
            Place::None => !active,
            Place::Transition(place) => {
                let transition = &self.chart(chart).transitions[place];
                active
                    && transition.from == self.before(chart)
                    && guard_holds(self.chart(chart), transition, offered)
            }
            Place::Stay => active && self.may_stay() && self.is_untriggered(chart, offered),
        }
    }

    /// Whether the file's charts may stay at all.
    fn may_stay(&self) -> bool {
        self.model.edition == Edition::Second
    }

    /// Whether what a chart is offered meets the guard of no transition from its present state
    /// (RULES 5.7). A chart that stays outputs nothing, so nothing of its own is joined to that
    /// set, and a transition that its own output would prevent counts as well.
    fn is_untriggered(&self, chart: u8, offered: Set) -> bool {
        let state = self.before(chart);
        let mut out = self.chart(chart).transitions.iter();
        !out.any(|transition| transition.from == state && guard_met(transition, offered))
    }

    /// Whether a choice is open (RULES 5.15): every chart keeps RULES 5.7, guards aside.
    pub fn is_open(&self, choice: &[Place]) -> bool {
        let mut charts = 0..self.model.charts.len() as u8;
        charts.all(|chart| {
            let active = self.chart_active(chart, choice);
            match choice[usize::from(chart)] {
                Place::None => !active,
                Place::Transition(place) => {
                    active && self.chart(chart).transitions[place].from == self.before(chart)
                }
                Place::Stay => active && self.may_stay(),
            }
        })
    }

    /// Every open choice, in order (RULES 5.8). The others are not permitted whatever is offered.
    pub fn each_open_choice(&self, visit: &mut dyn FnMut(&[Place])) {
        self.while_open(&mut |choice| {
            visit(choice);
            ControlFlow::Continue(())
        });
    }

    /// The open choices, in order, until one of them ends it. If there are none, no chart's moves
    /// are looked at.
    fn while_open(&self, visit: &mut dyn FnMut(&[Place]) -> ControlFlow<()>) {
        if self.ways[self.model.whole()] > 0 {
            let _ = self.settle(&mut Vec::new(), visit);
        }
    }

    /// Gives the next chart each of its moves in turn, and the charts after it theirs.
    fn settle(
        &self,
        chosen: &mut Vec<Place>,
        visit: &mut dyn FnMut(&[Place]) -> ControlFlow<()>,
    ) -> ControlFlow<()> {
        let chart = chosen.len();
        if chart == self.model.charts.len() {
            return visit(chosen);
        }
        for place in self.open_places(chart as u8, chosen) {
            chosen.push(place);
            let goes_on = self.settle(chosen, visit);
            chosen.pop();
            goes_on?;
        }
        ControlFlow::Continue(())
    }

    /// The moves of a chart, in order, once all lower charts have theirs: none if it is inactive;
    /// if it is active the transitions from its present state, and in edition 2 staying. A move
    /// that activates a slave without an open choice is left out.
    fn open_places(&self, chart: u8, chosen: &[Place]) -> Vec<Place> {
        if !self.chart_active(chart, chosen) {
            return vec![Place::None];
        }
        let transitions = &self.chart(chart).transitions;
        let taken = (0..transitions.len())
            .filter(|&place| transitions[place].from == self.before(chart))
            .map(Place::Transition);
        let stay = self.may_stay().then_some(Place::Stay);
        let places = taken.chain(stay);
        places.filter(|&place| self.goes_on(chart, place)).collect()
    }

    /// Whether every slave that a chart's move activates has an open choice.
    fn goes_on(&self, chart: u8, place: Place) -> bool {
        let after = match place {
            Place::Transition(place) => self.chart(chart).transitions[place].to,
            Place::None | Place::Stay => self.before(chart),
        };
        ways_of_slaves(self.model, self.configuration, chart, after, &self.ways) > 0
    }

    /// Whether a chart is active (RULES 5.3): its nearest slave is, or there is none. The slave's
    /// master has a lower number than the chart (test 11), so its move is chosen already.
    fn chart_active(&self, chart: u8, chosen: &[Place]) -> bool {
        match self.nearest_slaves[usize::from(chart)] {
            None => true,
            Some(place) => {
                let slave = &self.model.slaves[place];
                let master_active = self.chart_active(slave.chart, chosen);
                self.slave_active(master_active, slave.chart, slave.state, chosen)
            }
        }
    }
}

/// Whether the guard of a transition is met when its chart takes it: what the chart is offered
/// counts, and what it feeds back of this transition's action (RULES 5.6).
fn guard_holds(chart: &Chart, transition: &Transition, offered: Set) -> bool {
    guard_met(
        transition,
        offered.joined(transition.action.cut(chart.feedback)),
    )
}

/// Whether a set has all signals that a transition needs, and none that it bars (RULES 5.6).
fn guard_met(transition: &Transition, set: Set) -> bool {
    set.holds_all(transition.needed) && set.holds_none(transition.barred)
}
