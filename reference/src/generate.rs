//! Random calls, the same for the same seed: files of all shapes, right and damaged, with right and
//! wrong configurations, buffers and fronts.

use crate::cases::rewrite::rewritten_bytes;
use crate::cases::run::rows_bytes;
use crate::check::accept;
use crate::clearing::clear_model;
use crate::command::{Command, Op};
use crate::file::Records;
use crate::interface::chart_input;
use crate::limits::*;
use crate::model::{Chart, Edition, Model, Node, Slave, Transition};
use crate::notation::write::{depth, written};
use crate::open::by_parts;
use crate::plain::{feedback_sets, pairs_from_one_state};
use crate::run::run_model;
use crate::set::Set;
use crate::step::accept_configuration;
use crate::texts::draw::text_and_room;

/// A deterministic source of numbers (splitmix64).
pub struct Random {
    state: u64,
}

impl Random {
    /// The source of a seed.
    pub fn new(seed: u64) -> Random {
        Random { state: seed }
    }

    /// The next 64 bits.
    pub fn bits(&mut self) -> u64 {
        self.state = self.state.wrapping_add(0x9e37_79b9_7f4a_7c15);
        let mut mixed = self.state;
        mixed = (mixed ^ (mixed >> 30)).wrapping_mul(0xbf58_476d_1ce4_e5b9);
        mixed = (mixed ^ (mixed >> 27)).wrapping_mul(0x94d0_49bb_1331_11eb);
        mixed ^ (mixed >> 31)
    }

    /// A number below a bound.
    pub fn below(&mut self, bound: usize) -> usize {
        (self.bits() % bound as u64) as usize
    }

    /// A number from one to another, both included.
    pub fn between(&mut self, low: usize, high: usize) -> usize {
        low + self.below(high - low + 1)
    }

    /// Yes in this many of a hundred cases.
    pub fn chance(&mut self, percent: usize) -> bool {
        self.below(100) < percent
    }

    /// One of a list.
    pub fn pick<T: Clone>(&mut self, list: &[T]) -> T {
        list[self.below(list.len())].clone()
    }

    /// The list in another order.
    pub fn shuffle<T>(&mut self, list: &mut [T]) {
        for place in (1..list.len()).rev() {
            list.swap(place, self.below(place + 1));
        }
    }

    /// Each of the signals with this chance.
    pub fn subset(&mut self, signals: &[u32], percent: usize) -> Set {
        let mut set = Set::EMPTY;
        for &signal in signals {
            if self.chance(percent) {
                set = set.joined(Set::one(signal));
            }
        }
        set
    }
}

/// What a random file is to be like. Chances are percents.
#[derive(Clone, Debug)]
pub struct Shape {
    /// The number of charts.
    pub charts: usize,
    /// The most states of a chart.
    pub states: usize,
    /// The most transitions drawn from one state.
    pub out: usize,
    /// The signals that all sets are taken from.
    pub signals: Vec<u32>,
    /// The chance of each signal in a guard, half needed and half barred.
    pub guard: usize,
    /// The chance of each signal in an action.
    pub action: usize,
    /// The chance of each signal in a feedback set.
    pub feedback: usize,
    /// The chance that a group of charts is decomposed rather than composed.
    pub decompose: usize,
    /// The chance that a node is hidden, and hidden again.
    pub hide: usize,
    /// The chance that a state has a transition for each case of a signal.
    pub complete: usize,
}

/// A shape for files of at most so many charts: few signals or many, sparse or dense.
pub fn shape(random: &mut Random, most_charts: usize) -> Shape {
    let few = random.chance(80);
    let count = if few {
        random.between(1, 4)
    } else {
        random.between(5, 10)
    };
    let mut signals: Vec<u32> = (0..SIGNALS).collect();
    random.shuffle(&mut signals);
    signals.truncate(count);
    Shape {
        charts: random.between(1, most_charts),
        states: random.pick(&[1, 2, 2, 3, 3, 4]),
        out: random.pick(&[1, 1, 2, 3, 4]),
        guard: if few {
            random.pick(&[10, 25, 40, 60])
        } else {
            random.pick(&[3, 8, 15])
        },
        action: random.pick(&[5, 20, 40, 60]),
        feedback: random.pick(&[0, 30, 60, 100]),
        decompose: random.pick(&[0, 40, 70, 100]),
        hide: random.pick(&[0, 10, 30]),
        complete: random.pick(&[0, 40, 80, 100]),
        signals,
    }
}

/// A shape for files of more charts than there could be earlier. A step has few enough choices to be
/// tried, since few transitions leave a state, or so many that it is refused with 24.
pub fn large_shape(random: &mut Random) -> Shape {
    let mut shape = shape(random, CHARTS);
    shape.charts = random.between(EARLIER_CHARTS + 1, CHARTS);
    if random.chance(12) {
        (shape.states, shape.out, shape.complete) = (1, STATE_TRANSITIONS, 100);
        shape.decompose = random.pick(&[0, 0, 40]);
    } else {
        shape.out = random.pick(&[0, 0, 1, 1, 2]);
        shape.complete = random.pick(&[0, 40, 80, 100]);
    }
    shape
}

/// A random file of a shape, of edition 1; it passes 1 to 11.
pub fn model(random: &mut Random, shape: &Shape) -> Model {
    let charts: Vec<Chart> = (0..shape.charts).map(|_| chart(random, shape)).collect();
    let mut tree = Tree {
        random,
        shape,
        states: charts.iter().map(|chart| chart.states).collect(),
        slaves: vec![],
        nodes: vec![],
    };
    tree.grow((0..shape.charts as u8).collect());
    let (mut slaves, nodes) = (tree.slaves, tree.nodes);
    slaves.sort_by_key(|slave| (slave.chart, slave.state));
    let mut made = Model {
        edition: Edition::First,
        charts,
        slaves,
        nodes,
    };
    reorder_nodes(random, &mut made);
    made
}

/// A random chart of a shape.
fn chart(random: &mut Random, shape: &Shape) -> Chart {
    let states = match random.below(3) {
        0 => random.between(1, shape.states) as u8,
        _ => shape.states as u8,
    };
    let mut transitions = Vec::new();
    for from in 0..states {
        let mut out = transitions_from(random, shape, from, states);
        out.truncate(STATE_TRANSITIONS);
        transitions.extend(out);
    }
    random.shuffle(&mut transitions);
    transitions.truncate(CHART_TRANSITIONS);
    Chart {
        states,
        initial: random.below(usize::from(states)) as u8,
        feedback: random.subset(&shape.signals, shape.feedback),
        extra: random.subset(&shape.signals, 10),
        transitions,
    }
}

/// The transitions from one state: some at random, and some that leave no case of a signal out.
fn transitions_from(random: &mut Random, shape: &Shape, from: u8, states: u8) -> Vec<Transition> {
    let mut out = Vec::new();
    for _ in 0..random.below(shape.out + 1) {
        out.push(transition(random, shape, from, states));
    }
    if random.chance(shape.complete) {
        let signal = Set::one(random.pick(&shape.signals));
        let mut present = transition(random, shape, from, states);
        (present.needed, present.barred) = (signal, Set::EMPTY);
        let mut absent = transition(random, shape, from, states);
        (absent.needed, absent.barred) = (Set::EMPTY, signal);
        out.extend([present, absent]);
    }
    out
}

/// A random transition from a state; seldom a signal is both needed and barred.
fn transition(random: &mut Random, shape: &Shape, from: u8, states: u8) -> Transition {
    let guard = random.subset(&shape.signals, shape.guard);
    let split = random.subset(&shape.signals, 50);
    let twice = if random.chance(3) { guard } else { Set::EMPTY };
    Transition {
        from,
        to: random.below(usize::from(states)) as u8,
        needed: guard.cut(split),
        barred: guard.less(split).joined(twice),
        action: random.subset(&shape.signals, shape.action),
    }
}

/// The nodes and slaves of a file while they grow, parts before wholes.
struct Tree<'a> {
    random: &'a mut Random,
    shape: &'a Shape,
    states: Vec<u8>,
    slaves: Vec<Slave>,
    nodes: Vec<Node>,
}

impl Tree<'_> {
    /// A node with all these charts inside; their numbers rise. It may be hidden.
    fn grow(&mut self, charts: Vec<u8>) -> u8 {
        let mut made = self.grow_unhidden(charts);
        while self.random.chance(self.shape.hide) && self.nodes.len() < self.most_before_hidden() {
            let node = Node::Hidden {
                part: made,
                filtered: self.random.subset(&self.shape.signals, 25),
                hidden: self.random.subset(&self.shape.signals, 25),
            };
            made = self.push(node);
        }
        made
    }

    /// The nodes from which on none is hidden, so that the others have room.
    fn most_before_hidden(&self) -> usize {
        match self.shape.charts {
            0..=EARLIER_CHARTS => NODES - 2 * EARLIER_CHARTS,
            _ => NODES - 2 * CHARTS,
        }
    }

    /// A node with all these charts inside: a chart, decomposed or composed.
    fn grow_unhidden(&mut self, charts: Vec<u8>) -> u8 {
        if charts.len() == 1 {
            return self.push(Node::Chart { chart: charts[0] });
        }
        if self.random.chance(self.shape.decompose) {
            return self.grow_decomposed(charts[0], &charts[1..]);
        }
        let groups = self.split(&charts, 2);
        let a = self.grow(groups[0].clone());
        let b = self.grow(groups[1].clone());
        let feedback = self.random.subset(&self.shape.signals, self.shape.feedback);
        self.push(Node::Composed { a, b, feedback })
    }

    /// The lowest chart as master, the others in slaves of some of its states.
    fn grow_decomposed(&mut self, master: u8, others: &[u8]) -> u8 {
        let mut states: Vec<u8> = (0..self.states[usize::from(master)]).collect();
        self.random.shuffle(&mut states);
        let most = states.len().min(others.len());
        let count = self
            .random
            .between(1, most)
            .max(self.random.between(1, most));
        for (group, &state) in self.split(others, count).into_iter().zip(&states) {
            let node = self.grow(group);
            let chart = master;
            self.slaves.push(Slave { chart, state, node });
        }
        self.push(Node::Chart { chart: master })
    }

    /// The charts in this many groups, none of them empty, the numbers in each rising.
    fn split(&mut self, charts: &[u8], count: usize) -> Vec<Vec<u8>> {
        let mut order = charts.to_vec();
        self.random.shuffle(&mut order);
        let mut groups: Vec<Vec<u8>> = vec![vec![]; count];
        for (place, chart) in order.into_iter().enumerate() {
            let group = if place < count {
                place
            } else {
                self.random.below(count)
            };
            groups[group].push(chart);
        }
        groups.iter_mut().for_each(|group| group.sort());
        groups
    }

    /// The number of a node added last.
    fn push(&mut self, node: Node) -> u8 {
        self.nodes.push(node);
        (self.nodes.len() - 1) as u8
    }
}

/// The nodes that must stand before a node: those it names, and its chart's slaves.
fn parts(model: &Model, node: &Node) -> Vec<u8> {
    let slaves = |chart: u8| model.slaves_of(chart).map(|slave| slave.node).collect();
    match node {
        Node::Chart { chart } => slaves(*chart),
        other => other.names(),
    }
}

/// The nodes in another order that still has each part before its whole.
fn reorder_nodes(random: &mut Random, model: &mut Model) {
    let mut order: Vec<u8> = Vec::new();
    while order.len() < model.nodes.len() {
        let ready: Vec<u8> = (0..model.nodes.len() as u8)
            .filter(|node| !order.contains(node))
            .filter(|&node| {
                let before = parts(model, &model.nodes[usize::from(node)]);
                before.iter().all(|part| order.contains(part))
            })
            .collect();
        order.push(random.pick(&ready));
    }
    let new = |old: u8| order.iter().position(|&node| node == old).unwrap() as u8;
    let renamed = |old: &u8| model.nodes[usize::from(*old)].renamed(new);
    let nodes = order.iter().map(renamed).collect();
    for slave in &mut model.slaves {
        slave.node = new(slave.node);
    }
    model.nodes = nodes;
}

/// A configuration that passes 20 and 21.
pub fn configuration(random: &mut Random, model: &Model) -> Vec<u8> {
    let state = |chart: &Chart| random.below(usize::from(chart.states)) as u8;
    model.charts.iter().map(state).collect()
}

/// A configuration of another length, or with a state too high.
pub fn wrong_configuration(random: &mut Random, model: &Model) -> Vec<u8> {
    let mut right = configuration(random, model);
    match random.below(4) {
        0 => right.push(0),
        1 => right.truncate(right.len() - 1),
        2 => right = vec![0; random.below(model.charts.len().max(8) + 2)],
        _ => {
            let chart = random.below(right.len());
            let states = model.charts[chart].states;
            right[chart] = random.pick(&[states, states + 1, 255]);
        }
    }
    right
}

/// An input: some of the shape's signals, seldom others too.
pub fn input(random: &mut Random, shape: &Shape) -> Set {
    let percent = random.pick(&[0, 20, 50, 80, 100]);
    let noise = match random.below(8) {
        0 => Set(random.bits()),
        1 => Set(random.bits() & random.bits() & random.bits()),
        _ => Set::EMPTY,
    };
    random.subset(&shape.signals, percent).joined(noise)
}

/// Front bytes of any content, mostly none.
pub fn front(random: &mut Random) -> Vec<u8> {
    let length = random.pick(&[0, 0, 0, 1, 8, 13, 32]);
    (0..length).map(|_| random.bits() as u8).collect()
}

/// A file that was right, with something done to it; it may still be right.
pub fn damaged(random: &mut Random, model: &Model) -> Vec<u8> {
    let mut file = model.file();
    let trailer = file.len() - TRAILER_BYTES;
    match random.below(10) {
        // a bit anywhere, or some
        0 => (0..random.between(1, 3)).for_each(|_| flip(random, &mut file)),
        // bytes missing in front, or behind
        1 => {
            let missing = random.pick(&[1, file.len() / 2, trailer, trailer + 1, file.len()]);
            file.drain(..missing);
        }
        2 => {
            let missing = random.pick(&[1, 4, 11, 12, 20]);
            file.truncate(file.len().saturating_sub(missing));
        }
        // a count one off, or of any value, with bytes in front
        3 => {
            let place = trailer + random.between(4, 9);
            let value = file[place];
            file[place] = random.pick(&[
                value.wrapping_add(1),
                value.wrapping_sub(1),
                random.state as u8,
            ]);
            file = [vec![0; 64], file].concat();
        }
        // the distance one off
        4 => file[trailer] = random.pick(&[file[trailer] ^ 1, file[trailer].wrapping_add(4)]),
        // two charts with each other's numbers
        5 | 6 => file = renumbered(random, model),
        // a field of a record
        _ => {
            let mut records = model.records();
            damage_record(random, &mut records);
            file = records.encode();
        }
    }
    file
}

/// Flips one bit.
fn flip(random: &mut Random, file: &mut [u8]) {
    let place = random.below(file.len());
    file[place] ^= 1 << random.below(8);
}

/// Sets one field of one record to a value that is often wrong.
fn damage_record(random: &mut Random, records: &mut Records) {
    let small = random.below(9) as u8;
    let chart = random.below(records.charts.len());
    let node = random.below(records.nodes.len());
    let states = records.charts[chart].states;
    match random.below(13) {
        0 => records.charts[chart].states = random.pick(&[0, 1, 17, 200]),
        1 => records.charts[chart].initial = random.pick(&[states, states.wrapping_sub(1), 16]),
        2 => records.charts[chart].transitions = random.pick(&[small, 64, 65, 255]),
        3 => records.charts[chart].zeros[random.below(5)] = 1,
        4 => records.nodes[node].zero = small,
        5 => records.nodes[node].kind = random.pick(&[0, 1, 2, 3]),
        6 => records.nodes[node].a = small,
        7 => records.nodes[node].b = small,
        8 => records.nodes[node].x = Set(1),
        9 => records.nodes[node].y = Set(1),
        10 | 11 => damage_slave(random, records),
        _ => damage_transition(random, records),
    }
}

/// The file of the model with the numbers of two charts exchanged everywhere; a chart inside a slave
/// may then be numbered below the slave's master.
fn renumbered(random: &mut Random, model: &Model) -> Vec<u8> {
    let mut model = model.clone();
    let count = model.charts.len();
    let (one, other) = (random.below(count), random.below(count));
    let new = |chart: u8| match usize::from(chart) {
        number if number == one => other as u8,
        number if number == other => one as u8,
        _ => chart,
    };
    model.charts.swap(one, other);
    for slave in &mut model.slaves {
        slave.chart = new(slave.chart);
    }
    model.slaves.sort_by_key(|slave| (slave.chart, slave.state));
    for node in &mut model.nodes {
        if let Node::Chart { chart } = node {
            *chart = new(*chart);
        }
    }
    model.file()
}

/// Sets one field of a slave, or lets two slaves change places.
fn damage_slave(random: &mut Random, records: &mut Records) {
    if records.slaves.is_empty() {
        return;
    }
    let small = random.below(9) as u8;
    let (one, other) = (
        random.below(records.slaves.len()),
        random.below(records.slaves.len()),
    );
    match random.below(5) {
        0 => records.slaves[one].chart = small,
        1 => records.slaves[one].state = small,
        2 => records.slaves[one].node = small,
        3 => records.slaves[one].zero = small,
        _ => records.slaves.swap(one, other),
    }
}

/// Sets one field of a transition.
fn damage_transition(random: &mut Random, records: &mut Records) {
    if records.transitions.is_empty() {
        return;
    }
    let small = random.below(9) as u8;
    let place = random.below(records.transitions.len());
    let transition = &mut records.transitions[place];
    match random.below(3) {
        0 => transition.from = small,
        1 => transition.to = small,
        _ => transition.zeros[random.below(2)] = small,
    }
}

/// How many choices there are at most from a configuration.
pub fn most_choices(model: &Model, configuration: &[u8]) -> usize {
    let charts = model.charts.iter().zip(configuration);
    charts
        .map(|(chart, &state)| most_places(model.edition, chart, state))
        .product()
}

/// How many places there are for a chart in a state: its transitions from there, and under edition 2
/// staying. Where there are none it may still be inactive.
pub fn most_places(edition: Edition, chart: &Chart, state: u8) -> usize {
    let out = chart.transitions.iter().filter(|t| t.from == state).count();
    match edition {
        Edition::First => out.max(1),
        Edition::Second => out + 1,
    }
}

/// The most choices of a random step, so that a recording is soon made.
const CHOICES: usize = 20_000;

/// Which files are drawn.
#[derive(Clone, Copy)]
pub struct Files {
    pub edition: Edition,
    pub size: Size,
}

/// How many charts they have.
#[derive(Clone, Copy, PartialEq, Eq, Debug)]
pub enum Size {
    /// As many as there could be earlier, or fewer.
    Small,
    /// More than that.
    Large,
}

impl Size {
    /// A shape, and a file of it, of edition 1.
    pub fn any(self, random: &mut Random) -> (Shape, Model) {
        match self {
            Size::Small => any(random, EARLIER_CHARTS),
            Size::Large => {
                let shape = large_shape(random);
                let model = model(random, &shape);
                (shape, model)
            }
        }
    }

    /// The most bytes of a file, given those of a small one.
    fn bytes(self, small: usize) -> usize {
        match self {
            Size::Small => small,
            Size::Large => 3 * small,
        }
    }

    /// Whether a step from a configuration has few enough choices.
    fn few(self, model: &Model, at: &[u8], most: usize) -> bool {
        match self {
            Size::Small => most_choices(model, at) <= most,
            Size::Large => tried(model, at) <= most as u64,
        }
    }
}

/// How many choices a step from a configuration tries: the open ones, and none if it is refused with
/// 24.
pub fn tried(model: &Model, configuration: &[u8]) -> u64 {
    match by_parts(model, configuration) {
        many if many > OPEN_CHOICES => 0,
        few => few,
    }
}

/// How many choices the steps of a run try. The run ends where one of them tries more than so many.
pub fn tried_in_run(model: &Model, at: &[u8], carried: Set, inputs: &[Set], most: u64) -> u64 {
    let (mut present, mut carried, mut sum) = (at.to_vec(), carried, 0);
    for &input in inputs {
        sum += tried(model, &present);
        if sum > most {
            break;
        }
        let (rows, left) = run_model(model, &present, carried, &[input]);
        (present, carried) = (rows[0].configuration.clone(), left);
    }
    sum
}

/// A shape for files of at most so many charts, and a file of it, of edition 1.
pub fn any(random: &mut Random, most_charts: usize) -> (Shape, Model) {
    let shape = shape(random, most_charts);
    let model = model(random, &shape);
    (shape, model)
}

/// A shape and a file of it that is not longer than asked; a large one may be three times as long.
pub fn bounded(random: &mut Random, files: Files, bytes: usize) -> (Shape, Model) {
    loop {
        let (shape, model) = files.size.any(random);
        if model.file().len() <= files.size.bytes(bytes) {
            return (shape, model.under(files.edition));
        }
    }
}

/// The model's file behind some front bytes; once in so many times damaged.
pub fn seldom_damaged(random: &mut Random, model: &Model, times: usize) -> Vec<u8> {
    match random.below(times) {
        0 => damaged(random, model),
        _ => [front(random), model.file()].concat(),
    }
}

/// Mostly this buffer length, seldom a shorter or longer one.
pub fn room(random: &mut Random, needed: usize) -> usize {
    match random.below(40) {
        0 => 0,
        1 => needed.saturating_sub(1),
        2 => random.below(needed + 1),
        3 => needed + random.below(9),
        _ => needed + random.below(2),
    }
}

/// What draws one random command with such a file, under a name.
type Source = fn(&mut Random, Files, &str) -> Command;

/// What is drawn for a recording: under which name, from which seed, how many, and with which files.
#[derive(Clone, Copy)]
pub struct Drawing {
    pub name: &'static str,
    pub seed: u64,
    pub count: usize,
    pub files: Files,
}

impl Drawing {
    /// The name of a random command.
    fn name(&self, number: usize) -> String {
        let name = self.name;
        match self.files.edition {
            Edition::First => format!("{name}-{number}"),
            Edition::Second => format!("edition-2-{name}-{number}"),
        }
    }

    /// So many commands.
    fn commands(&self, draw: Source) -> Vec<Command> {
        let mut random = Random::new(self.seed);
        (0..self.count)
            .map(|number| draw(&mut random, self.files, &self.name(number)))
            .collect()
    }

    /// So many commands, of which all whose answer depends on feedback are kept, of the others a part,
    /// and a small one of the steps that are refused with 23.
    fn telling(&self, draw: Source) -> Vec<Command> {
        let mut random = Random::new(self.seed);
        let mut commands = Vec::new();
        while commands.len() < self.count {
            let command = draw(&mut random, self.files, &self.name(commands.len()));
            let answer = command.answer();
            let chance = match answer.refusal {
                refusal::NO_STEP => 5,
                _ => 30,
            };
            if answer != without_feedback(&command).answer() || random.chance(chance) {
                commands.push(command);
            }
        }
        commands
    }
}

/// Random checks, first configurations and interfaces.
pub fn file_commands(drawing: Drawing) -> Vec<Command> {
    drawing.commands(file_command)
}

/// One random check, first configuration or interface; most of the files are damaged.
pub fn file_command(random: &mut Random, files: Files, name: &str) -> Command {
    let (_, model) = bounded(random, files, 1_500);
    let file = if random.chance(75) {
        damaged(random, &model)
    } else {
        [front(random), model.file()].concat()
    };
    match random.below(4) {
        0 => Command::first(name, file, random.below(model.charts.len() + 3)),
        1 => Command::interface(name, file),
        _ => Command::check(name, file),
    }
}

/// The call with every feedback set of its file emptied; the call itself if its file is refused.
fn without_feedback(command: &Command) -> Command {
    let Ok(mut model) = accept(&command.file) else {
        return command.clone();
    };
    for chart in &mut model.charts {
        chart.feedback = Set::EMPTY;
    }
    for node in &mut model.nodes {
        if let Node::Composed { feedback, .. } = node {
            *feedback = Set::EMPTY;
        }
    }
    Command {
        file: model.file(),
        ..command.clone()
    }
}

/// Random steps.
pub fn step_commands(drawing: Drawing) -> Vec<Command> {
    drawing.telling(step_command)
}

/// One random step.
pub fn step_command(random: &mut Random, files: Files, name: &str) -> Command {
    let bytes = random.pick(&[300, 400, 600, 800, 1_000, 1_300]);
    loop {
        let (shape, model) = bounded(random, files, bytes);
        let right = configuration(random, &model);
        if !files.size.few(&model, &right, CHOICES) {
            continue;
        }
        let file = seldom_damaged(random, &model, 30);
        let configuration = match random.below(20) {
            0 => wrong_configuration(random, &model),
            _ => right,
        };
        let room = room(random, model.charts.len());
        return Command::step(name, file, &configuration, input(random, &shape), room);
    }
}

/// Random runs.
pub fn run_commands(drawing: Drawing) -> Vec<Command> {
    drawing.telling(run_command)
}

/// One random run.
pub fn run_command(random: &mut Random, files: Files, name: &str) -> Command {
    loop {
        let bytes = random.pick(&[300, 500, 700, 1_200]);
        let (shape, model) = bounded(random, files, bytes);
        if files.size == Size::Small && has_many_choices(&model) {
            continue;
        }
        let file = seldom_damaged(random, &model, 20);
        let at = match random.below(20) {
            0 => wrong_configuration(random, &model),
            _ => configuration(random, &model),
        };
        let count = random.pick(&[0, 1, 2, 5, 10, 20]);
        let inputs: Vec<Set> = (0..count).map(|_| input(random, &shape)).collect();
        let room = room(random, rows_bytes(count, model.charts.len()));
        let carried = match random.below(2) {
            0 => Set::EMPTY,
            _ => input(random, &shape),
        };
        let command = Command::run(name, file, &at, &inputs, room).carrying(carried);
        if files.size == Size::Small || choices(&command) <= CHOICES as u64 {
            return command;
        }
    }
}

/// Whether a file has many choices where all its charts are in states of one number.
fn has_many_choices(model: &Model) -> bool {
    let mut states = 0..STATES as u8;
    states.any(|state| most_choices(model, &[state; CHARTS]) > CHOICES / 10)
}

/// How many choices a call tries; those of a run up to the step with which there are too many.
pub fn choices(command: &Command) -> u64 {
    let Ok(model) = accept(&command.file) else {
        return 0;
    };
    let (at, inputs) = (&command.configuration, &command.inputs);
    match command.op {
        _ if accept_configuration(&model, at).is_err() => 0,
        Op::Step | Op::Open => tried(&model, at),
        Op::Run => tried_in_run(&model, at, command.carried, inputs, CHOICES as u64),
        _ => 0,
    }
}

/// Random rewritings of files with slaves.
pub fn rewrite_commands(drawing: Drawing) -> Vec<Command> {
    drawing.commands(rewrite_command)
}

/// One random rewriting.
pub fn rewrite_command(random: &mut Random, files: Files, name: &str) -> Command {
    let bytes = random.pick(&[300, 400, 600, 900, 1_300]);
    let (_, mut model) = loop {
        let (shape, model) = bounded(random, files, bytes);
        if !model.slaves.is_empty() {
            break (shape, model);
        }
    };
    crowd(random, &mut model);
    let file = seldom_damaged(random, &model, 20);
    let room = room(random, rewritten_bytes(&model));
    let command = Command::rewrite(name, file, room);
    match command.answer().refusal {
        refusal::SUCCESS => command,
        _ => Command {
            room: room.min(40),
            ..command
        },
    }
}

/// Seldom leaves few signals free, or fills a state of a chart.
pub fn crowd(random: &mut Random, model: &mut Model) {
    let place = random.below(model.charts.len());
    let chart = &mut model.charts[place];
    match random.below(12) {
        0 => chart.extra = Set(!(random.bits() & random.bits() & random.bits() & random.bits())),
        1 => {
            let full = transitions_of_one_state(chart);
            chart.transitions = full;
        }
        _ => {}
    }
}

/// Eight transitions from the initial state, alike but for their actions.
fn transitions_of_one_state(chart: &Chart) -> Vec<Transition> {
    let from = chart.initial;
    let one = |number: u32| Transition {
        from,
        to: from,
        needed: Set::EMPTY,
        barred: Set::EMPTY,
        action: Set::one(number),
    };
    (0..STATE_TRANSITIONS as u32).map(one).collect()
}

/// A random file in which the transitions from each state are told apart by signals of no feedback
/// set, and its shape with these signals. Some of the guards are empty but for that.
pub fn divided(random: &mut Random, most_charts: usize) -> (Shape, Model) {
    let drawn = any(random, most_charts);
    tell_apart(random, drawn)
}

/// The same of a file that is drawn.
fn tell_apart(random: &mut Random, (mut shape, mut model): (Shape, Model)) -> (Shape, Model) {
    let own = Set::of(&shape.signals);
    let mut others: Vec<u32> = Set::FULL.less(own).signals().collect();
    random.shuffle(&mut others);
    // three that nothing feeds back: enough to divide eight transitions
    shape.signals.extend(&others[..3]);
    let fed_back = Set::union(feedback_sets(&model).into_iter());
    let free: Vec<u32> = Set::of(&shape.signals).less(fed_back).signals().collect();
    let kept = random.pick(&[0, 20, 60]);
    for chart in &mut model.charts {
        lose_guards(random, chart, kept);
        for state in 0..chart.states {
            let from = chart.transitions.iter_mut().filter(|t| t.from == state);
            divide(random, &mut from.collect::<Vec<&mut Transition>>(), &free);
        }
    }
    (shape, model)
}

/// Empties the guards of a chart; each is kept with this chance.
fn lose_guards(random: &mut Random, chart: &mut Chart, kept: usize) {
    for transition in &mut chart.transitions {
        if !random.chance(kept) {
            (transition.needed, transition.barred) = (Set::EMPTY, Set::EMPTY);
        }
    }
}

/// Lets one half of the transitions need a signal that the other half bars, and divides each half by
/// other signals.
fn divide(random: &mut Random, out: &mut [&mut Transition], free: &[u32]) {
    if out.len() < 2 {
        return;
    }
    random.shuffle(out);
    let signal = random.pick(free);
    let left: Vec<u32> = free.iter().copied().filter(|&s| s != signal).collect();
    let (needing, barring) = out.split_at_mut(out.len() / 2);
    for transition in needing.iter_mut() {
        transition.needed = transition.needed.joined(Set::one(signal));
    }
    for transition in barring.iter_mut() {
        transition.barred = transition.barred.joined(Set::one(signal));
    }
    divide(random, needing, &left);
    divide(random, barring, &left);
}

/// Random questions whether a file is plain.
pub fn plain_commands(drawing: Drawing) -> Vec<Command> {
    drawing.commands(plain_command)
}

/// One random question whether a file is plain. The file has two transitions from one state, and is
/// mostly plain or nearly so, its edition aside.
pub fn plain_command(random: &mut Random, files: Files, name: &str) -> Command {
    let bytes = random.pick(&[300, 500, 800, 1_300]);
    let (shape, mut model) = loop {
        let drawn = match random.below(5) {
            0 => files.size.any(random),
            _ => {
                let drawn = files.size.any(random);
                tell_apart(random, drawn)
            }
        };
        if drawn.1.file().len() <= files.size.bytes(bytes) && has_pair(&drawn.1) {
            break drawn;
        }
    };
    for _ in 0..random.pick(&[0, 1, 1, 2, 4]) {
        disturb(random, &shape, &mut model);
    }
    let model = model.under(files.edition);
    Command::plain(name, seldom_damaged(random, &model, 6))
}

/// Whether some two transitions leave one state.
fn has_pair(model: &Model) -> bool {
    let mut charts = model.charts.iter();
    charts.any(|chart| !pairs_from_one_state(chart).is_empty())
}

/// Changes one thing that a file's being plain may depend on, or seems to.
fn disturb(random: &mut Random, shape: &Shape, model: &mut Model) {
    let place = random.below(model.charts.len());
    let chart = &mut model.charts[place];
    let mut signals: Vec<u32> = chart_input(chart).signals().collect();
    signals.push(random.pick(&shape.signals));
    let signal = Set::one(random.pick(&signals));
    match random.below(6) {
        0 => chart.feedback = chart.feedback.joined(signal),
        1 => chart.extra = chart.extra.joined(signal),
        2 | 3 => disturb_node(random, signal, model),
        _ => disturb_transition(random, signal, chart),
    }
}

/// Joins a signal to a node's x: a composed node feeds it back, a hidden one does not.
fn disturb_node(random: &mut Random, signal: Set, model: &mut Model) {
    let place = random.below(model.nodes.len());
    match &mut model.nodes[place] {
        Node::Chart { .. } => {}
        Node::Composed { feedback: x, .. } | Node::Hidden { filtered: x, .. } => {
            *x = x.joined(signal);
        }
    }
}

/// Takes a signal from a guard, adds it to one, or lets a transition stand where another stood.
fn disturb_transition(random: &mut Random, signal: Set, chart: &mut Chart) {
    if chart.transitions.is_empty() {
        return;
    }
    let count = chart.transitions.len();
    let (one, other) = (random.below(count), random.below(count));
    let transition = &mut chart.transitions[one];
    match random.below(4) {
        0 => transition.needed = transition.needed.less(signal),
        1 => transition.barred = transition.barred.less(signal),
        2 => transition.needed = transition.needed.joined(signal),
        _ if chart.transitions[one].from == chart.transitions[other].from => {
            chart.transitions[one] = chart.transitions[other].clone();
        }
        _ => {}
    }
}

/// Random clearings.
pub fn clear_commands(drawing: Drawing) -> Vec<Command> {
    drawing.commands(clear_command)
}

/// One random clearing; its buffer is often just long enough for the cleared file, or a byte short.
pub fn clear_command(random: &mut Random, files: Files, name: &str) -> Command {
    let bytes = random.pick(&[300, 500, 800, 1_300]);
    let (shape, mut model) = bounded(random, files, bytes);
    deaden(random, &shape, &mut model);
    let needed = clear_model(&model).file().len();
    let file = seldom_damaged(random, &model, 15);
    Command::clear(name, file, room(random, needed))
}

/// Lets some of the transitions bar what they need or what they output. Those that bar an output are
/// dead if their own chart feeds it back, and look so if only a node does, or another chart.
pub fn deaden(random: &mut Random, shape: &Shape, model: &mut Model) {
    let percent = random.pick(&[0, 10, 25, 25, 60, 100]);
    for chart in &mut model.charts {
        for transition in &mut chart.transitions {
            if random.chance(percent) {
                let signal = Set::one(random.pick(&shape.signals));
                transition.barred = transition.barred.joined(signal);
                match random.below(3) {
                    0 => transition.needed = transition.needed.joined(signal),
                    1 => transition.action = transition.action.joined(signal),
                    _ => chart.feedback = chart.feedback.joined(transition.action),
                }
            }
        }
    }
}

/// Random questions what a transition lacks.
pub fn lacking_commands(drawing: Drawing) -> Vec<Command> {
    drawing.commands(lacking_command)
}

/// One random question. The chart and the place are mostly there, and the offered set mostly differs
/// little from what the guard asks for.
pub fn lacking_command(random: &mut Random, files: Files, name: &str) -> Command {
    let bytes = random.pick(&[300, 500, 800, 1_300]);
    let (shape, model) = bounded(random, files, bytes);
    let chart = number_near(random, model.charts.len());
    let list = usize::try_from(chart)
        .ok()
        .and_then(|chart| model.charts.get(chart));
    let place = number_near(random, list.map_or(3, |chart| chart.transitions.len()));
    let asked = list.and_then(|chart| chart.transitions.get(usize::try_from(place).ok()?));
    let offered = match asked {
        Some(transition) if random.chance(80) => {
            nearly(random, transition.needed, transition.barred)
        }
        _ => input(random, &shape),
    };
    let file = seldom_damaged(random, &model, 12);
    Command::lacking(name, file, chart, place, offered)
}

/// A number below this one, and now and then one that is not.
fn number_near(random: &mut Random, bound: usize) -> u64 {
    match random.below(12) {
        0 => bound as u64,
        1 => random.pick(&[bound as u64 + 1, 255, 256, 1 << 32, u64::MAX]),
        _ => random.below(bound.max(1)) as u64,
    }
}

/// What a guard asks for, and a little less or more.
fn nearly(random: &mut Random, needed: Set, barred: Set) -> Set {
    let (most, many) = (random.pick(&[100, 100, 60]), random.pick(&[0, 30, 100]));
    let (wanted, unwanted): (Vec<u32>, Vec<u32>) =
        (needed.signals().collect(), barred.signals().collect());
    let there = random.subset(&wanted, most);
    there.joined(random.subset(&unwanted, many))
}

/// The longest text that is recorded of those drawn at random.
const RECORDED_TEXT: usize = 700;

/// Random texts that are not long.
pub fn read_commands(drawing: Drawing) -> Vec<Command> {
    drawing.commands(|random, files, name| loop {
        let command = read_command(random, files, name);
        if command.file.len() <= RECORDED_TEXT {
            return command;
        }
    })
}

/// One random text; its buffer is often just long enough for the file, or a byte short.
pub fn read_command(random: &mut Random, _: Files, name: &str) -> Command {
    let (text, room) = text_and_room(random);
    Command::read(name, text, room)
}

/// Random writings.
pub fn write_commands(drawing: Drawing) -> Vec<Command> {
    drawing.commands(write_command)
}

/// One random writing; its buffer is often just long enough for the text, or a byte short. Some of the
/// files are hidden about as deep as they may be.
pub fn write_command(random: &mut Random, files: Files, name: &str) -> Command {
    let bytes = random.pick(&[200, 300, 500, 800]);
    let (shape, mut model) = bounded(random, files, bytes);
    deaden(random, &shape, &mut model);
    if random.chance(25) {
        hide_again(random, &shape, &mut model);
    }
    let needed = written(&model).len();
    let file = seldom_damaged(random, &model, 12);
    let command = Command::write(name, file, room(random, needed));
    match command.answer().refusal {
        refusal::SUCCESS => command,
        _ => Command {
            room: command.room.min(40),
            ..command
        },
    }
}

/// Hides the whole again and again, until it is about as deep as it may be.
pub fn hide_again(random: &mut Random, shape: &Shape, model: &mut Model) {
    let deep = random.pick(&[NESTING - 1, NESTING, NESTING, NESTING + 1, NESTING + 2]);
    while depth(model) < deep && model.nodes.len() < NODES {
        let part = model.whole() as u8;
        let filtered = random.subset(&shape.signals, 10);
        let hidden = random.subset(&shape.signals, 10);
        model.nodes.push(Node::Hidden {
            part,
            filtered,
            hidden,
        });
    }
}
