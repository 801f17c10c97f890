//! docs/EXAMPLES.md, answered. The page is read as it stands: its blocks are made into files here, byte
//! by byte, its tables into calls, and every answer on it is compared with this engine's. With the
//! feature `engine` the steps and the checks are compared with the proved engine's as well.
//!
//! What the page says of edition 2 is compared as soon as this engine accepts a file of edition 2.

use reference::limits::refusal;
use reference::{check, clear, interface, lacking, plain, rewrite, run, step, Set, Shown};

const PAGE: &str = include_str!("../../docs/EXAMPLES.md");

/// A buffer's bytes before a call.
const FILL: u8 = 0xA5;
/// What RULES 5.11 has where no transition was taken.
const NO_PLACE: u8 = 255;

// ── reading the page ──

/// The number after a word of a line; 0 if the word is not there.
fn number(line: &str, word: &str) -> u8 {
    let mut words = line.split([' ', ',', ':']).skip_while(|w| *w != word);
    words.nth(1).map_or(0, |digits| digits.parse().unwrap())
}

/// A set in braces.
fn signals(text: &str) -> u64 {
    let inner = text
        .trim()
        .strip_prefix('{')
        .unwrap()
        .strip_suffix('}')
        .unwrap();
    let list = inner.split(',').filter(|signal| !signal.is_empty());
    list.map(|signal| 1 << signal.parse::<u32>().unwrap())
        .fold(0, |set, bit: u64| set | bit)
}

/// The set after a word of a line; empty if the word is not there.
fn set(line: &str, word: &str) -> u64 {
    let Some((_, rest)) = line.split_once(&format!(" {word} {{")) else {
        return 0;
    };
    signals(&format!("{{{}}}", rest.split('}').next().unwrap()))
}

/// The bytes of a file, record by record.
#[derive(Default)]
struct Built {
    charts: Vec<Vec<u8>>,
    transitions: Vec<Vec<u8>>,
    slaves: Vec<Vec<u8>>,
    nodes: Vec<Vec<u8>>,
    trailer: Vec<u8>,
}

impl Built {
    /// The file that a block describes, its first line aside.
    fn of(block: &str) -> Built {
        let mut built = Built::default();
        block.lines().for_each(|line| built.push(line));
        let body: usize = built.records().map(Vec::len).sum();
        built.trailer.extend((body as u32).to_le_bytes());
        built.trailer.push(built.charts.len() as u8);
        built.trailer.push(built.slaves.len() as u8);
        built.trailer.push(built.nodes.len() as u8);
        built.trailer.push(1);
        let transitions = built.transitions.len() as u16;
        built.trailer.extend(transitions.to_le_bytes());
        built.trailer.extend([0, 0]);
        built
    }

    /// Adds the record of a line.
    fn push(&mut self, line: &str) {
        let words: Vec<&str> = line
            .split([' ', ',', ':'])
            .filter(|w| !w.is_empty())
            .collect();
        let sets = |names: [&str; 2]| names.map(|name| set(line, name).to_le_bytes()).concat();
        match words[0] {
            "chart" => {
                let states = words[2].parse().unwrap();
                let head = [states, number(line, "initial"), 0, 0, 0, 0, 0, 0];
                self.charts
                    .push([&head[..], &sets(["feedback", "extra"])].concat());
            }
            "slave" => self.slaves.push(vec![
                number(line, "chart"),
                number(line, "state"),
                number(line, "node"),
                0,
            ]),
            "node" => {
                let name = |word: usize| words[word].parse().unwrap();
                let head = match words[2..] {
                    ["chart", _] => [0, name(3), 0, 0],
                    [_, "and", _, "composed", ..] => [1, name(2), name(4), 0],
                    [_, "hidden", ..] => [2, name(2), 0, 0],
                    _ => panic!("{line}"),
                };
                self.nodes.push([&head[..], &sets(["x", "y"])].concat());
            }
            times if words[1] == "times" => {
                let (_, one) = line.split_once("times ").unwrap();
                (0..times.parse().unwrap()).for_each(|_: u8| self.push(one));
            }
            from => {
                assert_eq!(words[1], "to", "{line}");
                let head = [from.parse().unwrap(), words[2].parse().unwrap(), 0, 0];
                let guard = sets(["needs", "bars"]);
                let action = set(line, "action").to_le_bytes();
                self.transitions.push([&head[..], &guard, &action].concat());
                self.charts.last_mut().unwrap()[2] += 1;
            }
        }
    }

    fn records(&self) -> impl Iterator<Item = &Vec<u8>> {
        let (charts, transitions) = (self.charts.iter(), self.transitions.iter());
        charts
            .chain(transitions)
            .chain(&self.slaves)
            .chain(&self.nodes)
    }

    fn bytes(&self) -> Vec<u8> {
        self.records()
            .chain([&self.trailer])
            .flatten()
            .copied()
            .collect()
    }

    fn with_edition(mut self, edition: u8) -> Vec<u8> {
        self.trailer[7] = edition;
        self.bytes()
    }

    /// Sets a field as a change says: `node 3 b = 2`, `trailer byte 11 = 1`.
    fn set(&mut self, change: &str) {
        let (field, value) = change.split_once(" = ").unwrap();
        let words: Vec<&str> = field.split_whitespace().collect();
        let record = match words[0] {
            "trailer" => &mut self.trailer,
            "chart" => &mut self.charts[words[1].parse::<usize>().unwrap()],
            "transition" => &mut self.transitions[words[1].parse::<usize>().unwrap()],
            "slave" => &mut self.slaves[words[1].parse::<usize>().unwrap()],
            "node" => &mut self.nodes[words[1].parse::<usize>().unwrap()],
            other => panic!("{other}"),
        };
        let (at, long) = match (words[0], words[words.len() - 1]) {
            (_, digits) if words[words.len() - 2] == "byte" => (digits.parse().unwrap(), 1),
            ("trailer", "distance") => (0, 4),
            ("trailer", "charts") => (4, 1),
            ("trailer", "slaves") => (5, 1),
            ("trailer", "nodes") => (6, 1),
            ("trailer", "edition") => (7, 1),
            ("trailer", "transitions") => (8, 2),
            ("chart", "states") | ("transition", "from") | ("slave", "chart") => (0, 1),
            ("node", "kind") => (0, 1),
            ("chart", "initial") | ("transition", "to") | ("slave", "state") => (1, 1),
            ("node", "a") => (1, 1),
            ("chart", "transitions") | ("slave", "node") | ("node", "b") => (2, 1),
            ("node", "x") => (4, 8),
            ("node", "y") => (12, 8),
            (_, other) => panic!("{other}"),
        };
        let value = value.parse().unwrap_or_else(|_| signals(value));
        record[at..at + long].copy_from_slice(&value.to_le_bytes()[..long]);
    }
}

/// The file of a name.
fn file(name: &str) -> Built {
    let head = format!("```\nfile {name}\n");
    let (_, rest) = PAGE
        .split_once(&head)
        .unwrap_or_else(|| panic!("no file {name}"));
    Built::of(rest.split("\n```").next().unwrap())
}

/// The rows of the first table after a text, its head aside, as cells.
fn table(after: &str) -> Vec<Vec<String>> {
    let (_, rest) = PAGE
        .split_once(after)
        .unwrap_or_else(|| panic!("no {after}"));
    let rows = rest.lines().skip_while(|line| !line.starts_with('|'));
    let cells = |row: &str| {
        let cells = row.trim_matches('|').split('|');
        cells.map(|cell| cell.trim().to_string()).collect()
    };
    rows.take_while(|line| line.starts_with('|'))
        .skip(2)
        .map(cells)
        .collect()
}

// ── answers ──

/// A step's answer; of a refused one the refusal alone.
#[derive(PartialEq, Eq, Debug)]
enum Answer {
    Refused(u8),
    Given(Vec<u8>, u64, bool),
}

/// `1.1, {1,2}, yes` or `refused 23`.
fn answer(cell: &str) -> Answer {
    if let Some(refusal) = cell.strip_prefix("refused ") {
        return Answer::Refused(refusal.parse().unwrap());
    }
    let (states, rest) = cell.split_once(", ").unwrap();
    let (output, mark) = rest.rsplit_once(", ").unwrap();
    assert!(mark == "yes" || mark == "no", "{cell}");
    Answer::Given(states_of(states), signals(output), mark == "yes")
}

fn states_of(cell: &str) -> Vec<u8> {
    cell.split('.')
        .map(|state| state.parse().unwrap())
        .collect()
}

/// A step's answer, all its places, and the number of open choices.
type Stepped = (Answer, Vec<u8>, u64);

/// A step by this engine, with one byte to spare.
fn step_here(file: &[u8], from: &[u8], input: u64) -> Stepped {
    let mut next = vec![FILL; from.len() + 1];
    let done = step(file, from, Set(input), &mut next);
    assert_eq!(next.pop(), Some(FILL));
    let places = done.places.to_vec();
    if done.refusal != refusal::SUCCESS {
        assert_eq!(next, vec![FILL; from.len()]);
        return (Answer::Refused(done.refusal), places, done.open);
    }
    let answer = Answer::Given(next, done.output.0, done.mark);
    (answer, places, done.open)
}

/// A step by the proved engine.
#[cfg(feature = "engine")]
fn step_there(file: &[u8], from: &[u8], input: u64) -> Stepped {
    let mut next = vec![FILL; from.len() + 1];
    let (mut output, mut mark, mut places, mut open) = (0, 0, [0; 16], 7);
    // SAFETY: each pointer is that of a slice with the length beside it, or of numbers of our own;
    // what is written overlaps nothing else.
    let refusal = unsafe {
        mestecur::raw::mestecur_step(
            file.as_ptr(),
            file.len(),
            from.as_ptr(),
            from.len(),
            input,
            next.as_mut_ptr(),
            next.len(),
            &mut output,
            &mut mark,
            &mut places,
            &mut open,
        )
    };
    assert_eq!(next.pop(), Some(FILL));
    if refusal != 0 {
        assert_eq!(next, vec![FILL; from.len()]);
        return (Answer::Refused(refusal), places.to_vec(), open);
    }
    let answer = Answer::Given(next, output, mark == 1);
    (answer, places.to_vec(), open)
}

type Step = fn(&[u8], &[u8], u64) -> Stepped;

#[cfg(not(feature = "engine"))]
const STEPS: &[Step] = &[step_here];
#[cfg(feature = "engine")]
const STEPS: &[Step] = &[step_here, step_there];

/// A check by each engine; all have to agree.
fn checked(file: &[u8]) -> u8 {
    let here = check(file);
    #[cfg(feature = "engine")]
    {
        // SAFETY: the pointer is that of a slice with this length.
        let there = unsafe { mestecur::raw::mestecur_check(file.as_ptr(), file.len()) };
        assert_eq!(here, there);
    }
    here
}

/// Whether this engine accepts files of an edition.
fn reads(edition: u8) -> bool {
    checked(&file("L1").with_edition(edition)) == refusal::SUCCESS
}

/// Compares the steps of a table, of files of an edition. How many there were.
fn steps(after: &str, edition: u8) -> usize {
    let rows = table(after);
    for row in &rows {
        let [name, of, from, input, expected, places, _] = &row[..] else {
            panic!("{row:?}");
        };
        let (from, bytes) = (states_of(from), file(of).with_edition(edition));
        for made in STEPS {
            let (found, mut found_places, _) = made(&bytes, &from, signals(input));
            assert_eq!(found, answer(expected), "{name}, edition {edition}");
            let rest = found_places.split_off(from.len());
            let listed: Vec<u8> = places.split(' ').map(|p| p.parse().unwrap()).collect();
            assert_eq!(found_places, listed, "{name}, edition {edition}");
            assert!(rest.iter().all(|&place| place == NO_PLACE), "{name}");
        }
    }
    rows.len()
}

// ── the tests ──

#[test]
fn every_file_of_the_page_is_accepted() {
    let blocks = PAGE.split("```\nfile ").skip(1);
    let names: Vec<&str> = blocks.map(|block| block.lines().next().unwrap()).collect();
    assert_eq!(names.len(), 21);
    for name in names {
        assert_eq!(checked(&file(name).bytes()), refusal::SUCCESS, "{name}");
    }
}

#[test]
fn steps_in_edition_1() {
    assert_eq!(steps("## 3 Steps in edition 1", 1), 17);
}

#[test]
fn steps_in_edition_2() {
    assert_eq!(table("## 4 Steps in edition 2").len(), 17);
    if reads(2) {
        steps("## 4 Steps in edition 2", 2);
    }
}

#[test]
fn a_fed_back_signal_as_input_in_both_editions() {
    let section = "## 7 A fed-back signal given as input";
    for edition in [1, 2] {
        assert_eq!(steps(section, edition), 2);
    }
}

#[test]
fn open_choices() {
    let rows = table("## 9 Open choices");
    assert_eq!(rows.len(), 16);
    for row in rows {
        let [name, of, edition, from, input, answer, open, _] = &row[..] else {
            panic!("{row:?}");
        };
        let (from, bytes) = (
            states_of(from),
            file(of).with_edition(edition.parse().unwrap()),
        );
        for made in STEPS {
            let (found, _, found_open) = made(&bytes, &from, signals(input));
            let found = match found {
                Answer::Given(..) => "given".to_string(),
                Answer::Refused(number) => format!("refused {number}"),
            };
            assert_eq!((&found, &found_open.to_string()), (answer, open), "{name}");
        }
    }
}

#[test]
fn other_calls() {
    assert_eq!(calls("## 5 Other calls"), 16);
}

#[test]
fn clearing() {
    assert_eq!(calls("## 8 Clearing"), 8);
}

/// Compares the calls of a table. How many there were.
fn calls(after: &str) -> usize {
    let rows = table(after);
    for row in &rows {
        let [call, of, edition, expected, _] = &row[..] else {
            panic!("{row:?}");
        };
        let edition = edition.parse().unwrap();
        let bytes = file(of).with_edition(edition);
        if !reads(edition) {
            continue;
        }
        let found = match call.as_str() {
            "interface" => {
                let found = interface(&bytes);
                assert_eq!(found.refusal, refusal::SUCCESS);
                let (input, output) = expected.split_once(' ').unwrap();
                assert_eq!(found.input.0, signals(input), "{of}");
                assert_eq!(found.output.0, signals(output), "{of}");
                continue;
            }
            question if question.starts_with("lacking ") => {
                let words: Vec<&str> = question.split(' ').collect();
                let [chart, place] = [1, 2].map(|k| words[k].parse().unwrap());
                match lacking(&bytes, chart, place, Set(signals(words[3]))) {
                    Ok(Shown::Met) => "met".to_string(),
                    Ok(Shown::Absent(signal)) => format!("absent {signal}"),
                    Ok(Shown::Present(signal)) => format!("present {signal}"),
                    Err(number) => format!("refused {number}"),
                }
            }
            "plain" => {
                let found = plain(&bytes);
                assert_eq!(found.refusal, refusal::SUCCESS);
                if found.plain { "yes" } else { "no" }.to_string()
            }
            "rewriting" | "clear" => {
                let mut room = vec![FILL; 1_000];
                let (refusal, length) = match call.as_str() {
                    "clear" => {
                        let done = clear(&bytes, &mut room);
                        (done.refusal, done.length)
                    }
                    _ => {
                        let done = rewrite(&bytes, &mut room);
                        (done.refusal, done.length)
                    }
                };
                if let Some(name) = expected.strip_prefix("file ") {
                    assert_eq!(room[..length], file(name).bytes(), "{of}");
                    continue;
                }
                format!("refused {refusal}")
            }
            other => panic!("{other}"),
        };
        assert_eq!(&found, expected, "{call} {of}");
    }
    rows.len()
}

#[test]
fn a_run() {
    let rows = table("A run of W");
    assert_eq!(rows.len(), 4);
    let bytes = file("W").bytes();
    let (mut state, mut carried) = (vec![0], Set::EMPTY);
    for row in rows {
        let mut lent = [FILL; 11];
        let ran = run(&bytes, &state, carried, &[Set(signals(&row[0]))], &mut lent);
        assert_eq!(ran.refusal, refusal::SUCCESS);
        let output = u64::from_le_bytes(lent[..8].try_into().unwrap());
        let found = match lent[9] {
            0 => Answer::Given(lent[10..].to_vec(), output, lent[8] == 1),
            refused => {
                assert_eq!((output, lent[8], &lent[10..]), (0, 0, &state[..]));
                Answer::Refused(refused)
            }
        };
        assert_eq!(found, answer(&row[1]));
        assert_eq!(ran.carried.0, signals(&row[2]));
        (state, carried) = (lent[10..].to_vec(), ran.carried);
    }
}

#[test]
fn damaged_files() {
    let rows = table("A change sets one field");
    assert_eq!(rows.len(), 20);
    for row in rows {
        let [name, of, change, expected, _] = &row[..] else {
            panic!("{row:?}");
        };
        let mut built = file(of);
        let bytes = if let Some(count) = change.strip_prefix("drop first ") {
            built.bytes()[count.parse::<usize>().unwrap()..].to_vec()
        } else if let Some(count) = change.strip_prefix("keep last ") {
            let all = built.bytes();
            all[all.len() - count.parse::<usize>().unwrap()..].to_vec()
        } else {
            change.split("; ").for_each(|one| built.set(one));
            built.bytes()
        };
        assert_eq!(checked(&bytes), expected.parse::<u8>().unwrap(), "{name}");
    }
}
