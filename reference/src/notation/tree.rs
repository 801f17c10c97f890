//! A text as a tree of what the grammar's rules describe, or the place of its first wrong byte. The
//! tree stands in lists, parts before wholes, so that no depth of nesting is too much for it.

use super::grammar::Kind;
use super::table::{table, Action, Made};

/// A node of the tree, by its place in the list.
pub type At = usize;

/// What one rule describes: its kind, its bytes from one to before another, and where its parts are.
struct Node {
    kind: Kind,
    bytes: (usize, usize),
    parts: (usize, usize),
}

/// A text that is of the notation.
pub struct Tree<'a> {
    text: &'a [u8],
    nodes: Vec<Node>,
    parts: Vec<At>,
}

/// A symbol on the stack: the state after it, the byte that it begins with, and how many parts
/// waited for their whole before it.
struct Read {
    state: usize,
    begins: usize,
    waited: usize,
}

/// The tree of a text, or the place of the first byte that no text could have there: the text's
/// length if it only breaks off.
pub fn parse(text: &[u8]) -> Result<Tree<'_>, usize> {
    let tree = Tree {
        text,
        nodes: vec![],
        parts: vec![],
    };
    let start = Read {
        state: 0,
        begins: 0,
        waited: 0,
    };
    let mut reader = Reader {
        tree,
        stack: vec![start],
        waiting: vec![],
        at: 0,
    };
    loop {
        let next = text.get(reader.at).copied();
        match table().action(reader.state(), next) {
            Action::Wrong => return Err(reader.at),
            Action::Done => return Ok(reader.tree),
            Action::Take(state) => reader.take(state),
            Action::Make(production) => reader.make(table().made(production)),
        }
    }
}

/// A text that has been read up to a byte.
struct Reader<'a> {
    tree: Tree<'a>,
    stack: Vec<Read>,
    waiting: Vec<At>,
    at: usize,
}

impl Reader<'_> {
    fn state(&self) -> usize {
        self.stack.last().expect("the first state stays").state
    }

    /// Takes a byte.
    fn take(&mut self, state: usize) {
        self.stack.push(Read {
            state,
            begins: self.at,
            waited: self.waiting.len(),
        });
        self.at += 1;
    }

    /// Replaces the symbols of a production by what it makes. Something of a kind becomes a node, and
    /// the parts that wait since its first symbol are its own.
    fn make(&mut self, made: Made) {
        let first = self.stack.len() - made.symbols;
        let (begins, waited) = match self.stack.get(first) {
            Some(read) => (read.begins, read.waited),
            None => (self.at, self.waiting.len()),
        };
        self.stack.truncate(first);
        if let Some(kind) = made.kind {
            let parts = self.waiting.drain(waited..);
            let node = self.tree.add(kind, (begins, self.at), parts);
            self.waiting.push(node);
        }
        let state = table().after(self.state(), made.number);
        self.stack.push(Read {
            state,
            begins,
            waited,
        });
    }
}

impl Tree<'_> {
    fn add(&mut self, kind: Kind, bytes: (usize, usize), parts: impl Iterator<Item = At>) -> At {
        let first = self.parts.len();
        self.parts.extend(parts);
        let parts = (first, self.parts.len());
        self.nodes.push(Node { kind, bytes, parts });
        self.nodes.len() - 1
    }

    /// All nodes, parts before wholes, left before right.
    pub fn all(&self) -> impl Iterator<Item = At> {
        0..self.nodes.len()
    }

    /// All nodes of a kind.
    pub fn all_of(&self, kind: Kind) -> impl Iterator<Item = At> + '_ {
        self.all().filter(move |&at| self.kind(at) == kind)
    }

    /// The whole.
    pub fn whole(&self) -> At {
        self.nodes.len() - 1
    }

    pub fn kind(&self, at: At) -> Kind {
        self.nodes[at].kind
    }

    /// The parts of a node, from left to right.
    pub fn parts(&self, at: At) -> &[At] {
        let (first, end) = self.nodes[at].parts;
        &self.parts[first..end]
    }

    /// The parts of a kind.
    pub fn parts_of(&self, at: At, kind: Kind) -> impl Iterator<Item = At> + '_ {
        let parts = self.parts(at).iter().copied();
        parts.filter(move |&part| self.kind(part) == kind)
    }

    /// The bytes of a node.
    pub fn bytes(&self, at: At) -> &[u8] {
        let (first, end) = self.nodes[at].bytes;
        &self.text[first..end]
    }
}
