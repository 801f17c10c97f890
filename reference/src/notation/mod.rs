//! Charts from typed text, and text out of files (RULES 14 and 15, docs/NOTATION.md).
//!
//! The grammar is that page's, word for word, and the table by which texts are read is worked out
//! from it ([`grammar`], [`table`]). A text gives a tree or the place of refusal 50 ([`tree`]). From
//! the tree are read its depth and names ([`typed`]), and the file that it means ([`meant`]). The text of
//! a file is put together from its records ([`write`]), and can be laid out ([`laid_out`]).

pub mod grammar;
pub mod laid_out;
pub mod meant;
pub mod table;
pub mod tree;
pub mod typed;
pub mod write;

use crate::check::{accept, refuse_if};
use crate::limits::*;
use crate::model::Model;
use tree::{parse, Tree};

/// The answer of [`read`].
#[derive(Clone, Copy, PartialEq, Eq, Debug)]
pub struct ReadText {
    pub refusal: u8,
    pub length: usize,
    pub place: usize,
}

/// The call `read`. It tests 50, 51, 52, 1 to 11, 45, in this order (RULES 3.6). Writes the file that the text
/// means to the front of the buffer. The place is that of the first wrong byte with 50, and 0 in all
/// other answers; the length of a refused text is 0.
pub fn read(text: &[u8], room: &mut [u8]) -> ReadText {
    match file_of(text) {
        Ok(file) if file.len() > room.len() => ReadText::refused(refusal::REWRITING_ROOM, 0),
        Ok(file) => {
            room[..file.len()].copy_from_slice(&file);
            ReadText {
                refusal: refusal::SUCCESS,
                length: file.len(),
                place: 0,
            }
        }
        Err((number, place)) => ReadText::refused(number, place),
    }
}

impl ReadText {
    fn refused(refusal: u8, place: usize) -> ReadText {
        ReadText {
            refusal,
            length: 0,
            place,
        }
    }
}

/// The file that a text means, or its refusal and the place.
pub fn file_of(text: &[u8]) -> Result<Vec<u8>, (u8, usize)> {
    let tree = parse(text).map_err(|place| (refusal::NOTATION, place))?;
    let model = accept_tree(&tree).map_err(|number| (number, 0))?;
    Ok(model.file())
}

/// 51, 52, 1 to 11. Numbers that could be too large for their bytes are tested as they are read: 3 on
/// the counts, and 6 on the transitions of a chart. Nothing of the file can fail 1, 2, 4 and 5.
fn accept_tree(tree: &Tree) -> Result<Model, u8> {
    refuse_if(tree.depth() > NESTING, refusal::NESTING)?;
    refuse_if(tree.names_wrong(), refusal::NAMES)?;
    refuse_if(counts_out_of_range(tree), refusal::COUNTS)?;
    let lists = tree.sequentials().into_iter();
    let mut longer = lists.filter(|chart| chart.transitions.len() > CHART_TRANSITIONS);
    refuse_if(longer.next().is_some(), refusal::CHART)?;
    accept(&meant::model(tree).file())
}

/// 3: charts, slaves, nodes or transitions as read.
fn counts_out_of_range(tree: &Tree) -> bool {
    use grammar::Kind;
    let count = |kind| tree.all_of(kind).count();
    count(Kind::Sequential) > CHARTS
        || count(Kind::Slave) > SLAVES
        || tree.count_nodes() > NODES
        || count(Kind::Transition) > TRANSITIONS
}
