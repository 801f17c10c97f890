//! Text out of files: the text of each named case by hand, the refusals and their order, what is read
//! back on random files, and the text laid out.

use reference::cases::charts::*;
use reference::cases::write::known;
use reference::check::accept;
use reference::command::{Call, Command, Numbers, Op};
use reference::generate::{any, configuration, deaden, hide_again, input, tried, Random};
use reference::laws::REFERENCE;
use reference::limits::*;
use reference::model::{Edition, Model};
use reference::notation::file_of;
use reference::notation::laid_out::laid_out;
use reference::notation::write::{depth, text_of, written};
use reference::texts::typed::right_text;
use reference::walk::any_size;
use reference::written::tree;
use reference::{step, write, written as comparison, Set};
use std::collections::BTreeMap;

/// A text without its blanks.
fn without_blanks(text: &str) -> String {
    text.split_whitespace().collect()
}

/// Also the text of each file that is read from one.
#[test]
fn the_named_files_have_the_texts_beside_them() {
    let (mut texts, mut refusals) = (0, 0);
    for known in known() {
        let (name, file) = (&known.name, &known.file);
        let mut lent = vec![0xA5; known.room];
        let answer = write(file, &mut lent);
        let Ok(text) = known.told else {
            assert_eq!(known.told, Err(answer.refusal), "{name}");
            refusals += 1;
            continue;
        };
        assert_eq!((answer.refusal, answer.length), (0, text.len()), "{name}");
        assert_eq!(&lent[..text.len()], text.as_bytes(), "{name}");
        let read = file_of(text.as_bytes()).expect(name);
        assert_eq!(text_of(&read).as_ref(), Ok(&text), "{name}");
        texts += 1;
    }
    assert_eq!((texts, refusals), (86, 46));
}

/// The samples with a text: what is written is that text without its blanks, and the text means the
/// chart behind the inputs.
#[test]
fn the_samples_are_written_as_typed() {
    let folder = format!("{}/../samples", env!("CARGO_MANIFEST_DIR"));
    for name in ["29-february", "decomposed", "whole-case"] {
        let file = std::fs::read(format!("{folder}/{name}")).unwrap();
        let text = std::fs::read_to_string(format!("{folder}/{name}.text")).unwrap();
        assert_eq!(text_of(&file), Ok(without_blanks(&text)), "{name}");
        assert!(file.ends_with(&file_of(text.as_bytes()).unwrap()), "{name}");
    }
    let second = std::fs::read(format!("{folder}/29-february-edition-2")).unwrap();
    assert_eq!(text_of(&second), Err(refusal::REWRITING_EDITION));
}

/// RULES 15.5.
#[test]
fn the_examples_of_the_page() {
    let text = "Dec(c0,{q0,q1},q0,{s1},{(q0,q1,s0/{s1}),(q0,q0,-s0/{}),(q1,q0,s3/{})})\
        by{(q1,(c1,{q0,q1},q0,{},{(q0,q1,s1/{s2}),(q1,q1,s3/{s4})}))}";
    assert_eq!(written(&d()), text);
    let guard = go(0, 1, &[2, 10], &[1, 2], &[]);
    assert_eq!(
        written(&alone(chart(2, &[], vec![guard]))),
        "(c0,{q0,q1},q0,{},{(q0,q1,-s1&s2&-s2&s10/{})})"
    );
}

#[test]
fn depth_counts_masters_hidings_and_compositions() {
    assert_eq!(depth(&whole_case()), 1);
    assert_eq!(depth(&p1()), 2);
    assert_eq!(depth(&p3()), 3);
    assert_eq!(depth(&d()), 2);
    assert_eq!(depth(&d_hidden()), 3);
    assert_eq!(depth(&nested()), 3);
    assert_eq!(depth(&nest(16)), 16);
    assert_eq!(depth(&row_of(16)), 16);
    assert_eq!(depth(&hidden_deep(64)), 64);
    for (nodes, number) in [(15, 0), (16, 0), (17, 51), (18, 51), (64, 51)] {
        let answer = write(&hidden_deep(nodes).file(), &mut [0; 500]);
        assert_eq!(answer.refusal, number, "{nodes}");
    }
}

#[test]
fn each_refusal_comes_before_the_next() {
    let deep = hidden_deep(17);
    let second = |model: &Model| model.clone().under(Edition::Second).file();
    let refused = |file: &[u8], room: usize| {
        let mut lent = vec![0xA5; room];
        let answer = write(file, &mut lent);
        assert_eq!((answer.length, lent), (0, vec![0xA5; room]));
        answer.refusal
    };
    assert_eq!(refused(&[], 0), 1);
    let mut wrong = second(&deep);
    let zero = wrong.len() - 1;
    wrong[zero] = 1;
    assert_eq!(refused(&wrong, 0), 5);
    assert_eq!(refused(&second(&deep), 0), 46);
    assert_eq!(refused(&second(&d()), 300), 46);
    assert_eq!(refused(&deep.file(), 0), 51);
    assert_eq!(refused(&deep.file(), 500), 51);
    assert_eq!(refused(&d().file(), 0), 45);
}

#[test]
fn the_buffer_is_tested_last_and_kept_behind_the_text() {
    let (file, text) = (d().file(), written(&d()));
    for room in [0, 1, text.len() - 1, text.len(), text.len() + 9] {
        let mut lent = vec![0xA5; room];
        let answer = write(&file, &mut lent);
        if room < text.len() {
            assert_eq!((answer.refusal, answer.length), (45, 0));
            assert_eq!(lent, vec![0xA5; room]);
        } else {
            assert_eq!((answer.refusal, answer.length), (0, text.len()));
            let (front, rest) = lent.split_at(text.len());
            assert_eq!(front, text.as_bytes());
            assert!(rest.iter().all(|&byte| byte == 0xA5));
        }
    }
}

/// RULES 14.5 and 15.3 have the lengths.
#[test]
fn no_text_and_no_file_is_longer_than_the_page_says() {
    let model = longest();
    assert_eq!(accept(&model.file()), Ok(model.clone()));
    assert_eq!(model.file().len(), FILE_ROOM);
    let text = text_of(&model.file()).unwrap();
    assert_eq!(text.len(), 866_188);
    assert!(text.len() <= TEXT_ROOM);
    assert_eq!(file_of(text.as_bytes()).unwrap().len(), FILE_ROOM);
}

/// Random files are written, read back, written again. The text read back is the same chart by chart and
/// as a tree, and the text of that the same text. Another text of the chart is read as the same file, so a file
/// that was read from any text is, written and read again, the same byte for byte.
#[test]
fn random_files_are_read_back() {
    let mut random = Random::new(3);
    let mut found: BTreeMap<u8, usize> = BTreeMap::new();
    for _ in 0..3_000 {
        let (shape, mut model) = any_size(&mut random);
        deaden(&mut random, &shape, &mut model);
        if random.chance(10) {
            hide_again(&mut random, &shape, &mut model);
        }
        let text = text_of(&model.file());
        *found.entry(*text.as_ref().err().unwrap_or(&0)).or_default() += 1;
        let Ok(text) = text else {
            assert!(depth(&model) > NESTING);
            continue;
        };
        let file = file_of(text.as_bytes()).expect("a text that is accepted");
        let back = accept(&file).expect("a file that is accepted");
        assert_eq!(back.charts, model.charts);
        assert_eq!(tree(&back), tree(&model));
        assert_eq!(text_of(&file), Ok(text.clone()));
        let typed = right_text(&mut random, &model);
        assert_eq!(file_of(&typed), Ok(file));
    }
    assert!(found[&0] > 2_500 && found[&51] > 20, "{found:?}");
}

/// The answers of a file and of the file that its text means, from every configuration.
#[test]
fn files_read_back_answer_the_same() {
    let compared = comparison::hold(7, 150, &[REFERENCE]).unwrap();
    assert_eq!(compared.files, 150);
}

/// The same of files of any size, from some of their configurations.
#[test]
fn larger_files_read_back_answer_the_same() {
    let mut random = Random::new(5);
    let (mut large, mut given) = (0, 0);
    for _ in 0..1_500 {
        let (shape, model) = any_size(&mut random);
        let old = model.file();
        let Ok(text) = text_of(&old) else { continue };
        let new = file_of(text.as_bytes()).unwrap();
        for _ in 0..3 {
            let at = configuration(&mut random, &model);
            if tried(&model, &at) > 1_000 {
                continue;
            }
            for input in [Set::EMPTY, Set::FULL, input(&mut random, &shape)] {
                let (mut one, mut other) = ([0xA5; CHARTS], [0xA5; CHARTS]);
                let stepped = step(&old, &at, input, &mut one);
                assert_eq!(stepped, step(&new, &at, input, &mut other), "{text}");
                assert_eq!(one, other, "{text}");
                let is_given = stepped.refusal == refusal::SUCCESS;
                given += usize::from(is_given);
                large += usize::from(is_given && model.charts.len() > EARLIER_CHARTS);
            }
        }
    }
    assert!(given > 1_000 && large > 100, "{given} {large}");
}

/// The layout of docs/NOTATION.md, 7, by its second description: once over the bytes.
fn in_one_pass(text: &str) -> String {
    let bytes = text.as_bytes();
    let mut out = String::new();
    let (mut level, mut inner, mut bars) = (0, 0, 0);
    for (at, &byte) in bytes.iter().enumerate() {
        let next = bytes.get(at + 1).copied().unwrap_or(0);
        out.push(char::from(byte));
        let before = level;
        let mut breaks = false;
        match byte {
            b'(' if inner > 0 || next == b'c' => inner += 1,
            b'(' => level += 1,
            b')' if inner > 0 => inner -= 1,
            b')' => level -= 1,
            b'[' => (level, breaks) = (level + 1, true),
            b'{' if next == b'(' => (level, breaks) = (level + 1, true),
            b',' => breaks = next == b'(',
            b'|' => (bars, breaks) = (bars + 1, bars % 2 == 1),
            _ => {}
        }
        if (byte == b')' && next == b'}') || next == b']' {
            (level, breaks) = (level - 1, true);
        }
        assert!(level <= before + 1);
        if breaks {
            out += "\n";
            out += &"  ".repeat(level);
        }
    }
    assert_eq!((level, inner, bars % 2), (0, 0, 0));
    out + "\n"
}

#[test]
fn laid_out_as_the_page_shows() {
    let page = include_str!("../../docs/NOTATION.md");
    let section = page.split("\n## 7 ").nth(1).unwrap();
    let section = section.split("\n## 8 ").next().unwrap();
    let shown = |text: &str| -> String {
        let lines = laid_out(text);
        lines.lines().map(|line| format!("    {line}\n")).collect()
    };
    let texts = [
        "Dec(c0,{q0,q1},q0,{s1},{(q0,q1,s0/{s1}),(q1,q0,s3/{})})by{(q1,(c1,{q0,q1},q0,{},{(q0,q1,s1/{s2})}))}",
        "{}[((c0,{q0},q0,{},{})|{s1}|(c1,{q0},q0,{},{(q0,q0,s1/{})}))|{}|(c2,{q0},q0,{},{})]{s2}",
    ];
    for text in texts {
        assert_eq!(text_of(&file_of(text.as_bytes()).unwrap()).unwrap(), text);
        assert!(section.contains(&shown(text)), "{}", shown(text));
    }
    assert!(page.contains(&format!("    {}\n", texts[0])));
}

/// Both descriptions of the layout agree, a break is behind one of six bytes, and what is laid out means
/// the same file.
#[test]
fn laid_out_in_one_pass() {
    let mut random = Random::new(4);
    let mut texts: Vec<String> = known()
        .into_iter()
        .filter_map(|known| known.told.ok())
        .collect();
    texts.extend((0..1_500).map(|_| written(&any(&mut random, CHARTS).1)));
    for text in texts {
        let shown = laid_out(&text);
        assert_eq!(shown, in_one_pass(&text));
        assert_eq!(without_blanks(&shown), text);
        let bytes = shown.as_bytes();
        let mut ends = (1..bytes.len() - 1).filter(|&at| bytes[at] == b'\n');
        assert!(ends.all(|at| b"[{,|)}".contains(&bytes[at - 1])), "{shown}");
        assert_eq!(file_of(bytes), file_of(text.as_bytes()));
    }
}

/// An engine that writes the signs between literals the wrong way round.
fn careless(command: &Command, lent: &mut [u8]) -> (u8, Numbers) {
    let (refusal, numbers) = command.call(lent);
    if command.op == Op::Write && refusal == 0 {
        let text = &mut lent[..numbers.two[0] as usize];
        let other = String::from_utf8_lossy(text).replace("&-s", "-s&");
        text.copy_from_slice(other.as_bytes());
    }
    (refusal, numbers)
}

/// An engine that refuses a text with a byte in it.
fn refusing(byte: u8, command: &Command, lent: &mut [u8]) -> (u8, Numbers) {
    match command.op == Op::Read && command.file.contains(&byte) {
        true => (refusal::NOTATION, Numbers::two(0, 0)),
        false => command.call(lent),
    }
}

/// An engine that knows no line end, and one that does not know the blank that no layout has.
fn one_line(command: &Command, lent: &mut [u8]) -> (u8, Numbers) {
    refusing(b'\n', command, lent)
}
fn no_return(command: &Command, lent: &mut [u8]) -> (u8, Numbers) {
    refusing(b'\r', command, lent)
}

#[test]
fn a_careless_engine_is_caught() {
    let engines: [(Call, &str); 3] = [
        (careless, "other: written as"),
        (one_line, "other: laid out, "),
        (no_return, "other: typed, "),
    ];
    for (engine, what) in engines {
        let told = comparison::hold(7, 150, &[REFERENCE, ("other", engine)]);
        assert!(told.unwrap_err().contains(what), "{what}");
    }
}

/// Parts exchanged give every answer as before; the tree tells.
#[test]
fn the_tree_tells_what_no_step_does() {
    let old = p1();
    let mut exchanged = p1();
    exchanged.nodes[2] = composed(1, 0, &[1]);
    assert_ne!(tree(&old), tree(&exchanged));
    let mut renumbered = p1();
    renumbered.nodes = vec![leaf(1), leaf(0), composed(1, 0, &[1])];
    assert_eq!(tree(&old), tree(&renumbered));
    assert_ne!(tree(&d()), tree(&d_hidden()));
}
