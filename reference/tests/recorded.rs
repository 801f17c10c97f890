//! The generator, the recorded form, and what the recorded calls reach.

use reference::check::accept;
use reference::command::{decode_all, Answer, Command, Op, FILL};
use reference::limits::refusal;
use reference::model::{Model, Node, Slave};
use reference::open::by_parts;
use reference::record::{commands, encode, named, Kind, KINDS};
use reference::walk::{has_several, hides_inside, is_nested};
use reference::Set;
use std::collections::{BTreeSet, HashSet};
use std::sync::OnceLock;

/// A recorded call and its answer.
struct Recorded {
    command: Command,
    answer: Answer,
    is_random: bool,
}

/// The recording of a kind, made once for all tests.
fn recording(kind: Kind) -> &'static [Recorded] {
    static RECORDINGS: OnceLock<Vec<Vec<Recorded>>> = OnceLock::new();
    let all = RECORDINGS.get_or_init(|| KINDS.iter().map(|&kind| make(kind)).collect());
    &all[KINDS.iter().position(|&other| other == kind).unwrap()]
}

/// The recording of a kind.
fn make(kind: Kind) -> Vec<Recorded> {
    let named = named(kind).len();
    let all = commands(kind).into_iter().enumerate();
    all.map(|(place, command)| Recorded {
        answer: command.answer(),
        command,
        is_random: place >= named,
    })
    .collect()
}

/// Holds that some calls of a kind give success and exactly 1 to 11 and the refusals listed.
fn reach_exactly(kind: Kind, which: &dyn Fn(&Recorded) -> bool, others: &[u8]) {
    let some = recording(kind).iter().filter(|&recorded| which(recorded));
    let found: BTreeSet<u8> = some.map(|recorded| recorded.answer.refusal).collect();
    let mut expected = BTreeSet::from([refusal::SUCCESS]);
    expected.extend(refusal::TOO_SHORT..=refusal::NUMBERING);
    expected.extend(others);
    assert_eq!(found, expected, "{kind:?}");
}

/// Holds that some calls of a kind give each of the refusals listed.
fn reach(kind: Kind, which: &dyn Fn(&Recorded) -> bool, numbers: &[u8]) {
    for &number in numbers {
        let reaches = |r: &Recorded| which(r) && r.answer.refusal == number;
        assert!(recording(kind).iter().any(reaches), "{kind:?} {number}");
    }
}

/// What each call tests (RULES 3.6). There is no 43.
#[test]
fn every_refusal_of_every_call_is_reached() {
    reach_exactly(Kind::File, &|r| r.command.op == Op::Check, &[]);
    reach_exactly(Kind::File, &|r| r.command.op == Op::First, &[22]);
    reach_exactly(Kind::File, &|r| r.command.op == Op::Interface, &[]);
    reach_exactly(Kind::Step, &|_| true, &[20, 21, 22, 23, 24]);
    let shows_all = |r: &Recorded| r.command.op == Op::Open;
    reach(Kind::Step, &shows_all, &[20, 21, 22, 23, 24]);
    reach_exactly(Kind::Run, &|_| true, &[20, 21, 27]);
    reach_exactly(Kind::Rewrite, &|_| true, &[40, 41, 42, 44, 45, 46]);
    reach_exactly(Kind::Plain, &|_| true, &[]);
    reach_exactly(Kind::Clear, &|_| true, &[45, 46]);
    reach(Kind::Read, &|_| true, &[0, 3, 6, 7, 8, 11, 45, 50, 51, 52]);
    reach_exactly(Kind::Write, &|_| true, &[45, 46, 51]);
}

#[test]
fn random_calls_alone_reach_most_refusals() {
    reach_exactly(Kind::File, &|r| r.is_random, &[22]);
    for (kind, numbers) in [
        (Kind::Step, vec![20, 21, 22, 23, 24]),
        (Kind::Run, vec![20, 21, 27]),
        (Kind::Rewrite, vec![40, 41, 45, 46]),
        (Kind::Clear, vec![45, 46]),
        (Kind::Read, vec![0, 7, 8, 45, 50, 51, 52]),
        (Kind::Write, vec![0, 4, 5, 45, 46, 51]),
    ] {
        reach(kind, &|r| r.is_random, &numbers);
    }
}

#[test]
fn recordings_are_the_same_each_time() {
    for kind in KINDS {
        let again = commands(kind);
        let recorded = recording(kind).iter().map(|r| &r.command);
        assert!(recorded.eq(again.iter()), "{kind:?}");
    }
}

#[test]
fn recorded_calls_are_read_back() {
    for kind in KINDS {
        let commands: Vec<Command> = recording(kind).iter().map(|r| r.command.clone()).collect();
        assert_eq!(decode_all(&encode(&commands)), Ok(commands));
    }
}

#[test]
fn names_are_unique_in_a_recording() {
    for kind in KINDS {
        let mut seen = HashSet::new();
        for Recorded { command, .. } in recording(kind) {
            assert!(seen.insert(&command.name), "{}", command.name);
        }
    }
}

#[test]
fn recordings_are_of_moderate_size() {
    for kind in KINDS {
        let all = recording(kind).iter();
        let calls: usize = all.clone().map(|r| r.command.encode().len()).sum();
        let lines: usize = all.map(|r| r.answer.line.len()).sum();
        assert!(calls < 1_700_000 && lines < 800_000, "{kind:?}");
    }
}

/// A refused call leaves the buffer unchanged, and its other results are those of RULES 1.4: sets
/// are empty, the mark is no, the length is 0 and places are 255. The number of open choices is 0 but
/// in 24.
#[test]
fn a_refusal_leaves_all_lent_bytes_and_gives_empty_answers() {
    for kind in KINDS {
        for Recorded {
            command, answer, ..
        } in recording(kind)
        {
            if answer.refusal == refusal::SUCCESS {
                continue;
            }
            let untouched = match command.room {
                0 => "-".to_string(),
                room => format!("{FILL:02x}").repeat(room),
            };
            let (zeros, none) = ("0".repeat(16), "f".repeat(16));
            let (name, number) = (&command.name, answer.refusal);
            let open = match number {
                refusal::MANY_OPEN => open_of(command),
                _ => 0,
            };
            let expected = match command.op {
                Op::Check => format!("{name} check {number}\n"),
                Op::First => format!("{name} first {number} {untouched}\n"),
                Op::Interface => format!("{name} interface {number} {zeros} {zeros}\n"),
                Op::Step => format!("{name} step {number} {zeros} n {none} {untouched}\n"),
                Op::Run => format!("{name} run {number} {zeros} {untouched}\n"),
                Op::Rewrite => format!("{name} rewrite {number} 0 {untouched}\n"),
                Op::Plain => format!("{name} plain {number} 0\n"),
                Op::Clear => format!("{name} clear {number} 0 {untouched}\n"),
                Op::Write => format!("{name} write {number} 0 {untouched}\n"),
                Op::Lacking => format!("{name} lacking {number} 0 0\n"),
                Op::Read => {
                    let place = reference::read(&command.file, &mut []).place;
                    format!("{name} read {number} 0 {place} {untouched}\n")
                }
                Op::Open => {
                    format!("{name} open {number} {zeros} n {none}{none} {open} {untouched}\n")
                }
            };
            assert_eq!(answer.line, expected);
        }
    }
}

/// The number of open choices of a step, part by part.
fn open_of(command: &Command) -> u64 {
    let model = accept(&command.file).unwrap();
    by_parts(&model, &command.configuration)
}

#[test]
fn there_are_enough_of_each_kind() {
    let count = |kind, is_random| {
        let all = recording(kind).iter();
        all.filter(|r| r.is_random == is_random).count()
    };
    assert!(count(Kind::File, false) > 250 && count(Kind::File, true) >= 200);
    assert!(count(Kind::Step, false) > 150 && count(Kind::Step, true) >= 1_000);
    assert!(count(Kind::Run, false) > 50 && count(Kind::Run, true) >= 300);
    assert!(count(Kind::Rewrite, false) > 50 && count(Kind::Rewrite, true) >= 250);
    assert!(count(Kind::Plain, false) > 80 && count(Kind::Plain, true) >= 300);
    assert!(count(Kind::Clear, false) > 70 && count(Kind::Clear, true) >= 200);
    assert!(count(Kind::Lacking, false) > 80 && count(Kind::Lacking, true) >= 400);
    assert!(count(Kind::Read, false) > 400 && count(Kind::Read, true) >= 200);
    assert!(count(Kind::Write, false) > 100 && count(Kind::Write, true) >= 150);
}

/// The random steps that are given, with their models and marks.
fn given_steps() -> Vec<(Model, bool)> {
    let given = |r: &&Recorded| r.is_random && r.answer.refusal == refusal::SUCCESS;
    recording(Kind::Step)
        .iter()
        .filter(given)
        .map(|r| {
            let model = accept(&r.command.file).unwrap();
            (model, r.answer.line.contains(" y "))
        })
        .collect()
}

#[test]
fn random_steps_have_all_shapes() {
    let given = given_steps();
    let count = |what: &dyn Fn(&Model) -> bool| given.iter().filter(|(m, _)| what(m)).count();
    let in_slave = |model: &Model, node: u8| model.nodes[usize::from(node)].clone();
    assert!(given.len() > 500);
    assert!(
        given.iter().filter(|(_, mark)| !mark).count() > 100,
        "marks of no"
    );
    assert!(count(&|m| m.charts.len() == 1) > 20, "one chart");
    assert!(count(&|m| m.charts.len() >= 5) > 50, "many charts");
    assert!(count(&|m| !m.slaves.is_empty()) > 200, "slaves");
    assert!(count(&has_several) > 50, "several slaves");
    assert!(count(&is_nested) > 50, "slaves inside slaves");
    assert!(count(&hides_inside) > 20, "hiding in slaves");
    assert!(
        count(&|m| {
            let composed = |s: &Slave| matches!(in_slave(m, s.node), Node::Composed { .. });
            m.slaves.iter().any(composed)
        }) > 20,
        "composition in slaves"
    );
}

#[test]
fn random_files_are_plain_and_not_plain_in_good_number() {
    let ends = |end: &str| {
        let all = recording(Kind::Plain).iter().filter(|r| r.is_random);
        all.filter(|r| r.answer.line.ends_with(end)).count()
    };
    assert!(ends(" plain 0 1\n") >= 100 && ends(" plain 0 0\n") >= 100);
}

#[test]
fn a_command_byte_by_byte() {
    let command = Command::run("ab", vec![7, 8, 9], &[1], &[Set(0x0203)], 5);
    let command = command.carrying(Set(0x0405));
    let mut expected = vec![4, 2, 1, 0, 3, 0, 0, 0, 5, 0, 0, 0, 1, 0, 0, 0];
    expected.extend([5, 4, 0, 0, 0, 0, 0, 0]);
    expected.extend(b"ab");
    expected.extend([7, 8, 9, 1]);
    expected.extend([3, 2, 0, 0, 0, 0, 0, 0]);
    assert_eq!(command.encode(), expected);
}

#[test]
fn lines_by_hand() {
    use reference::cases::charts::{d, free_row, n1, p1};
    let file = d().file();
    let line = |command: Command| command.answer().line;
    assert_eq!(line(Command::check("c", file.clone())), "c check 0\n");
    assert_eq!(line(Command::check("c", vec![])), "c check 1\n");
    assert_eq!(
        line(Command::first("f", file.clone(), 3)),
        "f first 0 0000a5\n"
    );
    assert_eq!(line(Command::first("f", file.clone(), 0)), "f first 22 -\n");
    assert_eq!(
        line(Command::interface("i", file.clone())),
        "i interface 0 000000000000000b 0000000000000016\n"
    );
    assert_eq!(
        line(Command::step("s", file.clone(), &[0, 0], Set(1), 4)),
        "s step 0 0000000000000006 y 0000ffffffffffff 0101a5a5\n"
    );
    assert_eq!(
        line(Command::step("s", file.clone(), &[0, 1], Set(1), 2)),
        "s step 23 0000000000000000 n ffffffffffffffff a5a5\n"
    );
    assert_eq!(
        line(Command::step("s", file.clone(), &[0, 0], Set(1), 2).whole_line()),
        "s open 0 0000000000000006 y 0000ffffffffffffffffffffffffffff 2 0101\n"
    );
    assert_eq!(
        line(Command::step("s", free_row(&[8; 9]).file(), &[0; 9], Set(1), 9).whole_line()),
        "s open 24 0000000000000000 n ffffffffffffffffffffffffffffffff 134217728 a5a5a5a5a5a5a5a5a5\n"
    );
    assert_eq!(
        line(Command::run("r", file.clone(), &[0, 1], &[Set(1)], 13)),
        "r run 0 0000000000000001 000000000000000000170001a5\n"
    );
    let carrying = Command::run("r", file.clone(), &[0, 1], &[Set(1)], 12).carrying(Set(8));
    assert_eq!(
        line(carrying),
        "r run 0 0000000000000000 120000000000000001000101\n"
    );
    assert_eq!(
        line(Command::rewrite("w", file, 2)),
        "w rewrite 45 0 a5a5\n"
    );
    let length = p1().file().len();
    let whole = line(Command::rewrite("w", p1().file(), length));
    assert!(whole.starts_with(&format!("w rewrite 0 {length} 020001")));
    assert_eq!(line(Command::plain("p", d().file())), "p plain 0 1\n");
    assert_eq!(line(Command::plain("p", n1().file())), "p plain 0 0\n");
    assert_eq!(line(Command::plain("p", vec![])), "p plain 1 0\n");
    let whole = line(Command::clear("c", p1().file(), length));
    assert!(whole.starts_with(&format!("c clear 0 {length} 020001")));
    assert_eq!(
        line(Command::clear("c", n1().file(), 2)),
        "c clear 45 0 a5a5\n"
    );
    let text = b"(c0,{q0},q0,{},{})".to_vec();
    let whole = line(Command::read("t", text.clone(), 57));
    assert!(
        whole.starts_with("t read 0 56 0 010000")
            && whole.ends_with("2c0000000100010100000000a5\n")
    );
    assert_eq!(
        line(Command::read("t", text.clone(), 0)),
        "t read 45 0 0 -\n"
    );
    let cut = text[..9].to_vec();
    assert_eq!(line(Command::read("t", cut, 1)), "t read 50 0 9 a5\n");
    let smallest = reference::notation::file_of(&text).unwrap();
    assert_eq!(
        line(Command::write("x", smallest.clone(), 20)),
        "x write 0 18 2863302c7b71307d2c71302c7b7d2c7b7d29a5a5\n"
    );
    assert_eq!(
        line(Command::write("x", smallest, 2)),
        "x write 45 0 a5a5\n"
    );
}

#[test]
fn broken_recordings_are_told() {
    let good = Command::check("c", vec![1, 2]).encode();
    assert!(decode_all(&good[..good.len() - 1]).is_err());
    assert!(decode_all(&good[..10]).is_err());
    let mut other = good.clone();
    other[0] = 9;
    assert!(decode_all(&other).is_err());
    other[0] = 3;
    assert!(decode_all(&other).is_err());
}
