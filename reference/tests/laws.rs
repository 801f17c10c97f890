//! The two laws of composed nodes (RULES 5.13, 5.14): on random files, and that a failure is seen.

use reference::cases::charts::{d, p1, p3};
use reference::command::{Command, Numbers};
use reference::laws::{composed_nodes, exchanged, hold, REFERENCE};
use reference::limits::*;
use reference::model::{Model, Node};

#[test]
fn both_laws_hold_on_random_files() {
    let tried = hold(11, 120, &[REFERENCE]).unwrap();
    assert_eq!(tried.files, 120);
}

#[test]
fn an_exchange_moves_two_bytes() {
    let old = p3().file();
    assert_eq!(composed_nodes(&old), [2]);
    let new = exchanged(&old, 2);
    let changed: Vec<usize> = (0..old.len()).filter(|&at| old[at] != new[at]).collect();
    let record = old.len() - TRAILER_BYTES - 2 * NODE_BYTES;
    assert_eq!(changed, [record + 1, record + 2]);
    assert_eq!(exchanged(&new, 2), old);
    let mut model: Model = p3();
    if let Node::Composed { a, b, .. } = &mut model.nodes[2] {
        std::mem::swap(a, b);
    }
    assert_eq!(new, model.file());
}

#[test]
fn composed_nodes_are_found_in_any_bytes() {
    assert_eq!(composed_nodes(&[]), []);
    assert_eq!(composed_nodes(&d().file()), []);
    let file = p1().file();
    // more nodes than there are bytes for
    let short = &file[file.len() - TRAILER_BYTES - NODE_BYTES..];
    assert_eq!(composed_nodes(short), []);
    let fronted = [&[1; 7][..], &file].concat();
    assert_eq!(composed_nodes(&fronted), [2]);
}

/// An engine whose answer depends on which part is named first.
fn names_a_first(command: &Command, _: &mut [u8]) -> (u8, Numbers) {
    let sum = command.file.iter().enumerate();
    let sum = sum.map(|(place, &byte)| place as u64 * u64::from(byte));
    (refusal::SUCCESS, Numbers::two(sum.sum(), 0))
}

#[test]
fn an_engine_that_tells_the_parts_apart_is_caught() {
    let told = hold(11, 120, &[REFERENCE, ("other", names_a_first)]);
    assert!(told.unwrap_err().contains("other: parts of node"));
}
