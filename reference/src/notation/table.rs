//! What to do at each byte, worked out from the grammar alone: a table for reading from left to
//! right with a stack, by the textbook's construction of LALR(1) tables.
//!
//! Such a table never takes a byte that no text could have there: what stands on the stack always
//! begins some text, since each of its states was made from productions that can be finished. So the
//! first byte for which the table has nothing to do is the place of refusal 50.

use super::grammar::{grammar, Grammar, Kind, Symbol};
use std::collections::{BTreeMap, BTreeSet};
use std::sync::OnceLock;

/// What is looked at: a byte, or the end of the text.
const END: usize = 256;

/// What to do.
#[derive(Clone, Copy, PartialEq, Eq, Debug)]
pub enum Action {
    /// No text has this byte here.
    Wrong,
    /// Take the byte and go on in a state.
    Take(usize),
    /// A production is complete.
    Make(usize),
    /// The text is complete.
    Done,
}

/// The table: for each state, what to do at each byte and at the end, and the state after each thing
/// that is made; and of each production what it makes, of how many symbols.
pub struct Table {
    actions: Vec<Vec<Action>>,
    after: Vec<BTreeMap<usize, usize>>,
    made: Vec<Made>,
}

/// What a production makes.
#[derive(Clone, Copy, Debug)]
pub struct Made {
    pub number: usize,
    pub kind: Option<Kind>,
    pub symbols: usize,
}

/// A production and how many of its symbols have been read.
type Item = (usize, usize);
/// What can follow, a bit for each byte of the grammar and one for the end.
type Follow = u64;
/// Items, each with what can follow it.
type Items = BTreeMap<Item, Follow>;

/// The table of the notation, made once.
pub fn table() -> &'static Table {
    static TABLE: OnceLock<Table> = OnceLock::new();
    TABLE.get_or_init(|| Maker::new(grammar()).table())
}

impl Table {
    /// What to do in a state at a byte, or at the end.
    pub fn action(&self, state: usize, next: Option<u8>) -> Action {
        self.actions[state][next.map_or(END, usize::from)]
    }

    /// The state after something is made.
    pub fn after(&self, state: usize, number: usize) -> usize {
        self.after[state][&number]
    }

    /// What a production makes.
    pub fn made(&self, production: usize) -> Made {
        self.made[production]
    }
}

/// The grammar with what its table is made from.
struct Maker {
    grammar: Grammar,
    /// The bytes that occur; the place of each is its bit, and the bit behind them is the end's.
    bytes: Vec<u8>,
    /// Of each number: what it can begin with, and whether it can be empty.
    begins: Vec<(Follow, bool)>,
}

impl Maker {
    fn new(grammar: Grammar) -> Maker {
        let symbols = grammar.productions.iter().flat_map(|one| &one.of);
        let bytes: BTreeSet<u8> = symbols
            .filter_map(|symbol| match symbol {
                Symbol::Byte(byte) => Some(*byte),
                Symbol::Made(_) => None,
            })
            .collect();
        assert!(bytes.len() < 64, "the bytes and the end have a bit each");
        let mut maker = Maker {
            begins: vec![(0, false); grammar.kinds.len()],
            bytes: bytes.into_iter().collect(),
            grammar,
        };
        while maker.begin() {}
        maker
    }

    /// One round over all productions; whether it found anything new.
    fn begin(&mut self) -> bool {
        let mut new = false;
        for place in 0..self.grammar.productions.len() {
            let production = &self.grammar.productions[place];
            let (first, empty) = self.first(&production.of);
            let known = &mut self.begins[production.makes];
            let joined = (known.0 | first, known.1 || empty);
            new |= *known != joined;
            *known = joined;
        }
        new
    }

    /// What a row of symbols can begin with, and whether it can be empty.
    fn first(&self, symbols: &[Symbol]) -> (Follow, bool) {
        let mut all = 0;
        for symbol in symbols {
            let (first, empty) = match *symbol {
                Symbol::Byte(byte) => (self.bit(byte), false),
                Symbol::Made(number) => self.begins[number],
            };
            all |= first;
            if !empty {
                return (all, false);
            }
        }
        (all, true)
    }

    fn bit(&self, byte: u8) -> Follow {
        1 << self.bytes.binary_search(&byte).expect("a known byte")
    }

    fn end(&self) -> Follow {
        1 << self.bytes.len()
    }

    /// What is looked at for each bit.
    fn looked_at(&self, follow: Follow) -> impl Iterator<Item = usize> + '_ {
        let places = (0..=self.bytes.len()).filter(move |place| follow >> place & 1 == 1);
        places.map(|place| self.bytes.get(place).map_or(END, |&byte| usize::from(byte)))
    }

    /// The symbol that an item has next, if it is not complete.
    fn next(&self, (production, read): Item) -> Option<Symbol> {
        self.grammar.productions[production].of.get(read).copied()
    }

    /// The items with those that can begin where they are.
    fn closed(&self, items: &Items) -> Items {
        let mut all = items.clone();
        let mut open: Vec<Item> = all.keys().copied().collect();
        while let Some(item) = open.pop() {
            let Some(Symbol::Made(number)) = self.next(item) else {
                continue;
            };
            let rest = &self.grammar.productions[item.0].of[item.1 + 1..];
            let (first, empty) = self.first(rest);
            let follow = if empty { first | all[&item] } else { first };
            for (place, production) in self.grammar.productions.iter().enumerate() {
                if production.makes == number && join(&mut all, (place, 0), follow) {
                    open.push((place, 0));
                }
            }
        }
        all
    }

    /// The items after each symbol that can come next.
    fn onward(&self, closed: &Items) -> BTreeMap<Symbol, Items> {
        let mut onward: BTreeMap<Symbol, Items> = BTreeMap::new();
        for (&item, &follow) in closed {
            if let Some(symbol) = self.next(item) {
                let items = onward.entry(symbol).or_default();
                items.insert((item.0, item.1 + 1), follow);
            }
        }
        onward
    }

    /// All states: those with the same items are one, and what can follow is joined.
    fn states(&self) -> (Vec<Items>, BTreeMap<Vec<Item>, usize>) {
        let start = Items::from([((0, 0), self.end())]);
        let mut numbers = BTreeMap::from([(core(&start), 0)]);
        let mut states = vec![start];
        let mut open = vec![0];
        while let Some(state) = open.pop() {
            for items in self.onward(&self.closed(&states[state])).into_values() {
                let number = *numbers.entry(core(&items)).or_insert(states.len());
                if number == states.len() {
                    states.push(items);
                    open.push(number);
                    continue;
                }
                let known = &mut states[number];
                let new = items
                    .iter()
                    .filter(|(&item, &follow)| join(known, item, follow));
                if new.count() > 0 {
                    open.push(number);
                }
            }
        }
        (states, numbers)
    }

    fn table(&self) -> Table {
        let (states, numbers) = self.states();
        let mut table = Table {
            actions: vec![vec![Action::Wrong; END + 1]; states.len()],
            after: vec![BTreeMap::new(); states.len()],
            made: self
                .grammar
                .productions
                .iter()
                .map(|one| self.made(one.makes, one.of.len()))
                .collect(),
        };
        for (state, items) in states.iter().enumerate() {
            let closed = self.closed(items);
            for (symbol, onward) in self.onward(&closed) {
                let next = numbers[&core(&onward)];
                match symbol {
                    Symbol::Byte(byte) => table.set(state, usize::from(byte), Action::Take(next)),
                    Symbol::Made(number) => {
                        table.after[state].insert(number, next);
                    }
                }
            }
            for (&item, &follow) in closed.iter().filter(|(&item, _)| self.next(item).is_none()) {
                let action = if item.0 == 0 {
                    Action::Done
                } else {
                    Action::Make(item.0)
                };
                self.looked_at(follow)
                    .for_each(|at| table.set(state, at, action));
            }
        }
        table
    }

    fn made(&self, number: usize, symbols: usize) -> Made {
        let kind = self.grammar.kinds[number];
        Made {
            number,
            kind,
            symbols,
        }
    }
}

impl Table {
    /// Says what to do; a grammar that would leave a choice has no such table.
    fn set(&mut self, state: usize, at: usize, action: Action) {
        let known = &mut self.actions[state][at];
        assert_eq!(
            *known,
            Action::Wrong,
            "one thing to do in state {state} at {at}, not also {action:?}"
        );
        *known = action;
    }
}

/// The items alone.
fn core(items: &Items) -> Vec<Item> {
    items.keys().copied().collect()
}

/// Joins what can follow an item; whether it was not known.
fn join(items: &mut Items, item: Item, follow: Follow) -> bool {
    let new = !items.contains_key(&item);
    let known = items.entry(item).or_insert(0);
    let grown = *known | follow != *known;
    *known |= follow;
    new || grown
}
