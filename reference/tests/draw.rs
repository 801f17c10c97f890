//! The calls of the long comparison: what they reach, and that they are the same each time.

use reference::check::accept;
use reference::command::{Command, Op, OPS};
use reference::draw::Draw;
use reference::generate::choices;
use reference::limits::{refusal, CHARTS, EARLIER_CHARTS};
use reference::model::{Edition, Model};
use std::collections::BTreeSet;

/// So many calls of a seed.
fn drawn(seed: u64, count: usize) -> Vec<Command> {
    let mut draw = Draw::new(seed);
    (0..count)
        .map(|place| draw.command(&place.to_string()))
        .collect()
}

/// The calls that take a file.
fn of_files() -> impl Iterator<Item = Op> {
    OPS.into_iter().filter(|&op| op != Op::Read)
}

/// The refusals of a call beside 1 to 11 (RULES 3.6).
fn own_refusals(op: Op) -> &'static [u8] {
    match op {
        Op::Check | Op::Interface | Op::Plain => &[],
        Op::First => &[22],
        Op::Step | Op::Open => &[20, 21, 22, 23, 24],
        Op::Run => &[20, 21, 27],
        Op::Rewrite => &[40, 41, 42, 44, 45, 46],
        Op::Clear => &[45, 46],
        Op::Lacking => &[25, 26],
        Op::Read => &[45, 50, 51, 52],
        Op::Write => &[45, 46, 51],
    }
}

#[test]
fn every_call_meets_each_of_its_refusals() {
    let commands = drawn(1, 25_000);
    for op in OPS {
        let calls = commands.iter().filter(|command| command.op == op);
        let found: BTreeSet<u8> = calls.map(|command| command.answer().refusal).collect();
        let mut expected = BTreeSet::from([refusal::SUCCESS]);
        match op {
            // the others of 1 to 11 are met by no text
            Op::Read => expected.extend([3, 6, 7, 8, 11]),
            _ => expected.extend(refusal::TOO_SHORT..=refusal::NUMBERING),
        }
        expected.extend(own_refusals(op));
        assert_eq!(found, expected, "{op:?}");
    }
}

#[test]
fn some_steps_are_hard_and_few_are() {
    let commands = drawn(2, 5_000);
    let hard = commands.iter().filter(|c| choices(c) >= 2_000).count();
    assert!((20..=500).contains(&hard), "{hard}");
}

/// Of nine charts and more, in every call.
#[test]
fn many_files_are_large() {
    let commands = drawn(7, 9_000);
    for op in of_files() {
        let calls = commands.iter().filter(|command| command.op == op);
        let accepted: Vec<Model> = calls.filter_map(|c| accept(&c.file).ok()).collect();
        let large = accepted.iter().filter(|m| m.charts.len() > EARLIER_CHARTS);
        let (count, all) = (large.count(), accepted.len());
        assert!(5 * count > all, "{op:?}: {count} of {all}");
    }
    let full = |m: &Model| m.charts.len() == CHARTS;
    let sixteen = commands.iter().filter_map(|c| accept(&c.file).ok());
    assert!(sixteen.filter(full).count() > 200);
}

/// About a third of the accepted files, in every call.
#[test]
fn a_third_of_the_files_are_edition_2() {
    let commands = drawn(6, 12_000);
    for op in of_files() {
        let calls = commands.iter().filter(|command| command.op == op);
        let accepted: Vec<Model> = calls.filter_map(|c| accept(&c.file).ok()).collect();
        let second = accepted.iter().filter(|m| m.edition == Edition::Second);
        let (count, all) = (second.count(), accepted.len());
        assert!(
            (27 * all..40 * all).contains(&(100 * count)),
            "{op:?}: {count} of {all}"
        );
    }
}

#[test]
fn calls_are_the_same_for_the_same_seed() {
    assert_eq!(drawn(3, 300), drawn(3, 300));
    assert_ne!(drawn(3, 300), drawn(4, 300));
}

#[test]
fn calls_can_be_recorded() {
    // a front may be longer than a record holds
    let mut commands = drawn(5, 3_000);
    commands.retain(Command::can_be_recorded);
    assert!(commands.len() > 2_900);
    for command in commands {
        let read = reference::command::decode_all(&command.encode());
        assert_eq!(read, Ok(vec![command]));
    }
}

/// As many postings as a comparison of 25,000 calls makes.
#[test]
fn postings_meet_each_of_their_refusals() {
    let mut draw = Draw::new(1);
    let refusals = (0..2_500).map(|_| draw.post("").posted().refusal);
    let found: BTreeSet<u8> = refusals.collect();
    let expected = (0..=11).chain([20, 21]).chain(60..=63);
    assert_eq!(found, expected.collect());
}
