//! Random texts: about a third are accepted, the others are wrong in one of the ways that the
//! refusals speak of.

use super::typed::{spaced, tokens};
use crate::generate::{model, shape, Random};
use crate::limits::*;
use crate::notation::file_of;

/// The bytes of the notation.
const BYTES: &[u8] = b"(){}[],|/&-Decbyqs0123456789 \n\r";
/// Tokens of every kind.
const TOKENS: [&str; 20] = [
    "(", ")", "{", "}", "[", "]", ",", "|", "/", "&", "-", "Dec", "by", "c0", "c1", "q0", "q1",
    "s0", "s1", "s63",
];
/// Numbers of names that are just right, just wrong, very high, or not of the notation.
const NUMBERS: [&str; 16] = [
    "0",
    "1",
    "2",
    "7",
    "8",
    "15",
    "16",
    "63",
    "64",
    "255",
    "256",
    "4294967296",
    "18446744073709551616",
    "99999999999999999999999",
    "01",
    "",
];

/// A text, and the length of a buffer for its file, which is sometimes a little too short.
pub fn text_and_room(random: &mut Random) -> (Vec<u8>, usize) {
    let text = text(random);
    let needed = file_of(&text).map_or(8, |file| file.len());
    let room = match random.below(8) {
        0 => random.below(needed),
        1 => needed - 1,
        2 | 3 => needed + random.below(9),
        _ => needed,
    };
    (text, room)
}

/// A text.
pub fn text(random: &mut Random) -> Vec<u8> {
    match random.below(100) {
        0..=24 => right(random),
        25..=44 => damaged(random),
        45..=54 => cut(random),
        55..=64 => edited(random),
        65..=73 => renamed(random),
        74..=80 => nested(random),
        81..=84 => brackets(random),
        85..=88 => soup(random),
        89..=92 => busy(random),
        93 => many_nodes(random),
        94 | 95 => slave_again(random),
        _ => exchanged(random),
    }
}

/// The tokens of a random file.
fn right_tokens(random: &mut Random) -> Vec<String> {
    let most = random.pick(&[1, 2, 3, 4, NAMED_CHARTS]);
    let mut shape = shape(random, most);
    shape.out = shape.out.min(2);
    shape.hide = random.pick(&[0, 10, 30, 60]);
    let model = model(random, &shape);
    tokens(random, &model)
}

/// A file as typed.
fn right(random: &mut Random) -> Vec<u8> {
    let tokens = right_tokens(random);
    spaced(random, &tokens)
}

/// With a byte changed, added or missing.
fn damaged(random: &mut Random) -> Vec<u8> {
    let mut text = right(random);
    let place = random.below(text.len());
    let byte = match random.below(4) {
        0 => random.bits() as u8,
        _ => random.pick(BYTES),
    };
    match random.below(3) {
        0 => text[place] = byte,
        1 => text.insert(place, byte),
        _ => {
            text.remove(place);
        }
    }
    text
}

/// Cut at a place, seldom with a byte behind it.
fn cut(random: &mut Random) -> Vec<u8> {
    let mut text = right(random);
    text.truncate(random.below(text.len() + 1));
    if random.chance(20) {
        text.push(random.pick(BYTES));
    }
    text
}

/// With some tokens changed, added, missing or at each other's places.
fn edited(random: &mut Random) -> Vec<u8> {
    let mut tokens = right_tokens(random);
    for _ in 0..random.pick(&[1, 1, 2, 4]) {
        let (place, other) = (random.below(tokens.len()), random.below(tokens.len()));
        let token = random.pick(&TOKENS).to_string();
        match random.below(5) {
            0 => tokens[place] = token,
            1 => tokens.insert(place, token),
            2 => tokens.swap(place, other),
            3 => tokens.insert(place, tokens[other].clone()),
            _ if tokens.len() > 1 => {
                tokens.remove(place);
            }
            _ => {}
        }
    }
    spaced(random, &tokens)
}

/// With the number of one name, or of all equal names, replaced.
fn renamed(random: &mut Random) -> Vec<u8> {
    let mut tokens = right_tokens(random);
    let letter = random.pick(&['c', 'q', 's']);
    let names: Vec<String> = tokens
        .iter()
        .filter(|t| is_name(t, letter))
        .cloned()
        .collect();
    if names.is_empty() {
        return spaced(random, &tokens);
    }
    let (old, new) = (
        random.pick(&names),
        format!("{letter}{}", random.pick(&NUMBERS)),
    );
    if random.chance(40) {
        tokens
            .iter_mut()
            .filter(|t| **t == old)
            .for_each(|t| *t = new.clone());
    } else {
        let places: Vec<usize> = (0..tokens.len()).filter(|&at| tokens[at] == old).collect();
        let place = random.pick(&places);
        tokens[place] = new;
    }
    spaced(random, &tokens)
}

fn is_name(token: &str, letter: char) -> bool {
    token != "by" && token.starts_with(letter)
}

/// A chart of one state.
fn small(number: usize) -> String {
    format!("(c{number},{{q0}},q0,{{}},{{}})")
}

/// Operators around a chart, of each kind while there are numbers for more charts, then square
/// brackets: about as many as a chart may be deep, or many more.
fn nested(random: &mut Random) -> Vec<u8> {
    let operators = match random.below(8) {
        0 => random.pick(&[99, 100, 255, 256]),
        _ => random.pick(&[13, 14, 14, 14, 15, 15, 15, 16]),
    };
    let charts = random.between(1, NAMED_CHARTS);
    let mut left = charts - 1;
    let mut text = small(left);
    let mut is_composed = false;
    for _ in 0..operators {
        let kind = if left > 0 { random.below(3) } else { 0 };
        left -= usize::from(kind > 0);
        let part = if is_composed && kind == 1 {
            format!("({text})")
        } else {
            text
        };
        text = match (kind, random.chance(50)) {
            (0, true) => format!("[{part}]"),
            (0, false) => format!("{{s1}}[{part}]{{}}"),
            (1, true) => format!("{part}|{{s2}}|{}", small(left)),
            (1, false) => format!("{}|{{}}|{part}", small(left)),
            _ => format!("Dec {} by {{(q0,{part})}}", small(left)),
        };
        is_composed = kind == 1;
    }
    text.into_bytes()
}

/// Brackets by the thousand, open, and sometimes closed again around a chart.
fn brackets(random: &mut Random) -> Vec<u8> {
    let count = random.pick(&[20, 300, 1_000, 4_095, 4_096, 4_097, 9_000]);
    let openers: &[&str] = random.pick(&[
        &["["] as &[&str],
        &["("],
        &["[", "{}["],
        &["[", "{s1}[", "(", "(("],
    ]);
    let row: Vec<&str> = (0..count).map(|_| random.pick(openers)).collect();
    let mut text = row.concat();
    if random.chance(70) {
        text += &small(0);
        for opener in row.iter().rev().skip(random.pick(&[0, 0, 0, 1, 100])) {
            text += match *opener {
                "(" => "|{}|(c0,{q0},q0,{},{}))",
                "((" => "|{}|(c0,{q0},q0,{},{}))|{}|(c0,{q0},q0,{},{}))",
                _ => random.pick(&["]", "]", "]{}"]),
            };
        }
    }
    let rest = random.pick(&["", "", "]", ")", "/", "|{}|(c1,{q0},q0,{},{})"]);
    (text + rest).into_bytes()
}

/// Any tokens, sometimes behind the beginning of a text.
fn soup(random: &mut Random) -> Vec<u8> {
    let mut tokens = right_tokens(random);
    tokens.truncate(random.pick(&[0, 0, 1, 5, 12, 30]));
    for _ in 0..random.between(1, 12) {
        tokens.push(random.pick(&TOKENS).to_string());
    }
    spaced(random, &tokens)
}

/// Charts with about as many transitions as there may be, or many more.
fn busy(random: &mut Random) -> Vec<u8> {
    let states = random.pick(&[1, 8, 9, 16]);
    let chart = |random: &mut Random, number: usize| {
        let count = random.pick(&[
            8, 9, 9, 17, 63, 64, 64, 64, 65, 72, 128, 255, 256, 257, 320, 512, 960, 1_024, 1_025,
        ]);
        let list: Vec<String> = (0..count)
            .map(|place| format!("(q{},q0,/{{}})", place % states))
            .collect();
        let names: Vec<String> = (0..states).map(|state| format!("q{state}")).collect();
        format!(
            "(c{number},{{{}}},q0,{{}},{{{}}})",
            names.join(","),
            list.join(",")
        )
    };
    match random.below(3) {
        0 => chart(random, 0).into_bytes(),
        1 => format!("{}|{{}}|{}", chart(random, 0), small(1)).into_bytes(),
        _ => {
            let (one, other) = (chart(random, 1), chart(random, 0));
            format!("{one}|{{}}|{other}").into_bytes()
        }
    }
}

/// All charts, hidden and composed: about as many nodes as there may be.
fn many_nodes(random: &mut Random) -> Vec<u8> {
    let mut parts: Vec<String> = (0..NAMED_CHARTS)
        .map(|number| {
            let times = random.between(1, 3);
            format!(
                "{}{}{}",
                "[".repeat(times),
                small(number),
                "]".repeat(times)
            )
        })
        .collect();
    random.shuffle(&mut parts);
    while parts.len() > 2 {
        let pairs = parts.chunks(2);
        parts = pairs
            .map(|pair| format!("({}|{{}}|{})", pair[0], pair[1]))
            .collect();
    }
    parts.join("|{s1}|").into_bytes()
}

/// With one state of a master's pairs like another's.
fn slave_again(random: &mut Random) -> Vec<u8> {
    loop {
        let mut tokens = right_tokens(random);
        let pairs: Vec<usize> = (0..tokens.len())
            .filter(|&at| is_pair(&tokens, at))
            .collect();
        if pairs.len() > 1 {
            let (one, other) = (random.pick(&pairs), random.pick(&pairs));
            tokens[one] = tokens[other].clone();
            return spaced(random, &tokens);
        }
    }
}

/// Whether the state of a pair behind `by` is here: no second state follows.
fn is_pair(tokens: &[String], at: usize) -> bool {
    at > 0
        && at + 2 < tokens.len()
        && tokens[at - 1] == "("
        && is_name(&tokens[at], 'q')
        && !is_name(&tokens[at + 2], 'q')
}

/// With the names of two charts exchanged: a chart inside a slave may be lower than its master.
fn exchanged(random: &mut Random) -> Vec<u8> {
    let mut tokens = right_tokens(random);
    let places: Vec<usize> = (0..tokens.len())
        .filter(|&at| is_name(&tokens[at], 'c'))
        .collect();
    tokens.swap(random.pick(&places), random.pick(&places));
    spaced(random, &tokens)
}
