//! Postings with a name. The refusal of each is written by hand beside it, from RULES 11.

use super::Post;
use crate::cases::charts::*;
use crate::cases::damage::behind;
use crate::cases::file::one_fault_under;
use crate::limits::*;
use crate::model::{Edition, Model};
use crate::posting::{CaseRecord, Entry};
use crate::set::Set;

/// A named posting and its refusal.
pub struct PostCase {
    pub post: Post,
    pub refusal: u8,
}

/// All named postings.
pub fn cases() -> Vec<PostCase> {
    [
        days(),
        books(),
        configurations(),
        entries(),
        row_numbers(),
        rooms(),
        orders(),
        files(),
        second_edition(),
        many_charts(),
    ]
    .into_iter()
    .flatten()
    .collect()
}

/// A case at a configuration, after row 6, with nothing carried. The bytes past the configuration
/// have a value that no state has.
pub fn at(configuration: &[u8]) -> CaseRecord {
    let mut config = [0xC3; CASE_CONFIGURATION];
    config[..configuration.len()].copy_from_slice(configuration);
    CaseRecord {
        carried: Set::EMPTY,
        last_row: 6,
        length: configuration.len() as u8,
        config,
    }
}

/// The same case with a carried set.
pub fn carrying(configuration: &[u8], signals: &[u32]) -> CaseRecord {
    CaseRecord {
        carried: Set::of(signals),
        ..at(configuration)
    }
}

/// The same case after another row.
fn after_row(configuration: &[u8], last_row: u32) -> CaseRecord {
    CaseRecord {
        last_row,
        ..at(configuration)
    }
}

/// The same case with another length.
fn of_length(configuration: &[u8], length: u8) -> CaseRecord {
    CaseRecord {
        length,
        ..at(configuration)
    }
}

/// An entry.
pub fn entry(number: u64, signals: &[u32]) -> Entry {
    Entry {
        number,
        signals: Set::of(signals),
    }
}

/// A posting in a buffer that is three bytes longer than needed.
pub fn day(name: &str, model: &Model, cases: &[CaseRecord], entries: &[Entry]) -> Post {
    Post {
        name: name.to_string(),
        file: model.file(),
        cases: cases.to_vec(),
        entries: entries.to_vec(),
        room: cases.len() * (POSTED_HEAD_BYTES + model.charts.len()) + 3,
    }
}

/// A posting that is accepted.
fn posts(name: &str, model: &Model, cases: &[CaseRecord], entries: &[Entry]) -> PostCase {
    refuses(refusal::SUCCESS, name, model, cases, entries)
}

/// A posting with its refusal.
fn refuses(
    refusal: u8,
    name: &str,
    model: &Model,
    cases: &[CaseRecord],
    entries: &[Entry],
) -> PostCase {
    let post = day(name, model, cases, entries);
    PostCase { post, refusal }
}

/// What a day says: given and refused rows, entries joined, what is carried.
fn days() -> Vec<PostCase> {
    let w = whole_case();
    let one = [at(&[0])];
    let three = [at(&[0]), at(&[1]), at(&[0])];
    vec![
        posts("post-given", &w, &one, &[entry(0, &[0])]),
        posts("post-refused-row", &w, &one, &[entry(0, &[1])]),
        posts("post-no-entries", &w, &three, &[]),
        posts(
            "post-one-of-three",
            &w,
            &three,
            &[entry(1, &[1]), entry(1, &[9])],
        ),
        // 0 goes to case 0 and case 2 alone, 1 to case 1
        posts(
            "post-unsorted",
            &w,
            &three,
            &[entry(2, &[0]), entry(0, &[0]), entry(1, &[1])],
        ),
        posts(
            "post-repeated",
            &w,
            &three,
            &[entry(2, &[0]), entry(2, &[0]), entry(2, &[5])],
        ),
        // neither entry alone gives a step: 0.1 needs both (D4)
        posts(
            "post-joined",
            &d(),
            &[at(&[0, 1]), at(&[0, 1])],
            &[entry(0, &[0]), entry(1, &[3]), entry(0, &[3])],
        ),
        posts("post-empty-sets", &w, &one, &[entry(0, &[]), entry(0, &[])]),
        // carried alone, carried and entries, carried and not used
        posts("post-carried-alone", &w, &[carrying(&[0], &[0])], &[]),
        posts(
            "post-carried-and-entry",
            &d(),
            &[carrying(&[0, 1], &[0])],
            &[entry(0, &[3])],
        ),
        posts("post-carried-on", &w, &[carrying(&[0], &[1, 63])], &[]),
        posts(
            "post-carried-and-more",
            &w,
            &[carrying(&[0], &[1])],
            &[entry(0, &[40])],
        ),
        posts(
            "post-carried-by-one-of-two",
            &w,
            &[carrying(&[0], &[0]), at(&[0])],
            &[],
        ),
        // the mark is no
        posts("post-mark-no", &n1(), &[at(&[0]), at(&[1])], &[]),
        posts("post-hidden", &p3(), &[at(&[0, 0])], &[entry(0, &[0, 1])]),
        posts(
            "post-slave",
            &d(),
            &[at(&[0, 0]), at(&[1, 1]), at(&[1, 0])],
            &[entry(0, &[0]), entry(1, &[3]), entry(2, &[0, 1, 3])],
        ),
        posts("post-eight-charts", &row_of(8), &[at(&[0; 8])], &[]),
    ]
}

/// Files of nine charts and more. A case at a configuration with too many open choices has a row with
/// 24, and the cases around it have theirs.
fn many_charts() -> Vec<PostCase> {
    // in state 0 each chart waits for 30; in state 1 each has eight transitions
    let one = {
        let mut moves = vec![go(1, 1, &[], &[], &[]); 8];
        moves.push(go(0, 1, &[30], &[], &[31]));
        chart(2, &[], moves)
    };
    let crowded = row_of_charts(vec![one; 9]);
    let (few, many) = ([0; 9], [1; 9]);
    vec![
        posts("post-sixteen-charts", &row_of(16), &[at(&[0; 16])], &[]),
        posts(
            "post-nest-of-16",
            &nest(16),
            &[at(&[0; 16]), at(&[1; 16])],
            &[entry(0, &[0, 1, 2]), entry(1, &[3])],
        ),
        posts(
            "post-24",
            &crowded,
            &[at(&few), carrying(&many, &[5]), at(&few), at(&many)],
            &[
                entry(0, &[30]),
                entry(1, &[6, 30]),
                entry(2, &[7]),
                entry(1, &[63]),
            ],
        ),
        posts(
            "edition-2-post-24",
            &crowded.under(Edition::Second),
            &[at(&many), at(&few)],
            &[entry(0, &[1])],
        ),
        refuses(
            refusal::CONFIGURATION_LENGTH,
            "post-fifteen-bytes-for-sixteen-charts",
            &row_of(16),
            &[at(&[0; 15])],
            &[],
        ),
        refuses(
            refusal::CONFIGURATION_LENGTH,
            "post-length-17-for-sixteen-charts",
            &row_of(16),
            &[of_length(&[0; 16], 17)],
            &[],
        ),
        refuses(
            refusal::CONFIGURATION_STATE,
            "post-state-of-chart-15",
            &row_of(16),
            &[at(&[0, 0, 0, 0, 0, 0, 0, 0, 0, 0, 0, 0, 0, 0, 0, 1])],
            &[],
        ),
    ]
}

/// The number of cases: 1 to 64.
fn books() -> Vec<PostCase> {
    let w = whole_case();
    let book = |count: usize| vec![at(&[0]); count];
    let all = |count: u64| (0..count).map(|n| entry(n, &[0])).collect::<Vec<Entry>>();
    vec![
        posts("post-63-cases", &w, &book(63), &all(63)),
        posts("post-64-cases", &w, &book(64), &all(64)),
        posts("post-64-cases-one-entry", &w, &book(64), &[entry(63, &[0])]),
        refuses(refusal::BOOK, "post-65-cases", &w, &book(65), &all(65)),
        refuses(refusal::BOOK, "post-128-cases", &w, &book(128), &[]),
        refuses(refusal::BOOK, "post-no-case", &w, &[], &[]),
    ]
}

/// 20 and 21: the first bad case decides, over the whole list, also past the 64th.
fn configurations() -> Vec<PostCase> {
    let w = whole_case();
    let short = of_length(&[0], 0);
    let wrong = at(&[2]);
    let bad = |name: &str, number: u8, cases: &[CaseRecord]| refuses(number, name, &w, cases, &[]);
    let among = |count: usize, place: usize, case: CaseRecord| {
        let mut cases = vec![at(&[0]); count];
        cases[place] = case;
        cases
    };
    let (length, state) = (refusal::CONFIGURATION_LENGTH, refusal::CONFIGURATION_STATE);
    let mut cases = vec![
        bad("post-length-0", length, &[short]),
        bad("post-state", state, &[wrong]),
        bad("post-state-255", state, &[at(&[255])]),
        // 20 before 21 within a case
        bad("post-length-and-state", length, &[at(&[2, 0])]),
        // the first bad case, whichever it gives
        bad("post-20-then-21", length, &[at(&[0]), short, wrong]),
        bad("post-21-then-20", state, &[at(&[1]), wrong, short]),
        bad("post-last-of-64", state, &among(64, 63, wrong)),
        bad("post-65th", state, &among(65, 64, wrong)),
        bad("post-65th-length", length, &among(65, 64, short)),
        bad("post-100th", state, &among(100, 99, wrong)),
        refuses(
            state,
            "post-second-chart",
            &d(),
            &[at(&[0, 0]), at(&[1, 2])],
            &[],
        ),
        // a state of one chart that the other lacks
        refuses(
            state,
            "post-states-of-each-chart",
            &beside(spread(3, 0), spread(1, 0), &[]),
            &[at(&[2, 0]), at(&[0, 2])],
            &[],
        ),
    ];
    for count in [2, 8, 15, 16, 17, 64, 255] {
        let name = format!("post-length-{count}");
        cases.push(bad(&name, length, &[of_length(&[0], count)]));
    }
    // nine bytes for eight charts, and the bytes of eight for nine
    let eight = row_of(8);
    for (name, config, given) in [("nine", [0; 9].as_slice(), 9), ("seven", &[0; 8], 7)] {
        let name = format!("post-{name}-bytes-for-eight-charts");
        let case = of_length(config, given);
        cases.push(refuses(length, &name, &eight, &[case], &[]));
    }
    cases
}

/// 61: an entry for a case that is not in the book.
fn entries() -> Vec<PostCase> {
    let w = whole_case();
    let two = [at(&[0]), at(&[0])];
    let full = vec![at(&[0]); 64];
    let right = entry(0, &[0]);
    let outside = |name: &str, number: u64| {
        let entries = [right, entry(number, &[0]), right];
        refuses(refusal::ENTRY, name, &w, &two, &entries)
    };
    vec![
        outside("post-entry-2-of-2", 2),
        outside("post-entry-63", 63),
        outside("post-entry-64", 64),
        // each of these is case 0 or 1 if high bytes are lost
        outside("post-entry-256", 256),
        outside("post-entry-65536", 65_536),
        outside("post-entry-2-to-32", 1 << 32),
        outside("post-entry-2-to-32-and-1", (1 << 32) + 1),
        outside("post-entry-2-to-63", 1 << 63),
        outside("post-entry-highest", u64::MAX),
        refuses(
            refusal::ENTRY,
            "post-entry-64-of-64",
            &w,
            &full,
            &[entry(64, &[0])],
        ),
        refuses(
            refusal::ENTRY,
            "post-entry-without-signals",
            &w,
            &two,
            &[entry(2, &[])],
        ),
        refuses(
            refusal::ENTRY,
            "post-entry-last-of-many",
            &w,
            &two,
            &[vec![right; 99], vec![entry(2, &[0])]].concat(),
        ),
    ]
}

/// Row numbers: each rises by one, given or refused, and 62 where it cannot.
fn row_numbers() -> Vec<PostCase> {
    let w = whole_case();
    let numbers = [
        0,
        254,
        255,
        256,
        65_535,
        16_777_215,
        1 << 31,
        LAST_ROW - 2,
        LAST_ROW - 1,
    ];
    let cases = numbers.map(|number| after_row(&[0], number));
    let given: Vec<Entry> = (0..9).step_by(2).map(|n| entry(n, &[0])).collect();
    let last = after_row(&[0], LAST_ROW);
    let ended = |name: &str, cases: &[CaseRecord], entries: &[Entry]| {
        refuses(refusal::ROW_NUMBER, name, &w, cases, entries)
    };
    vec![
        posts("post-row-numbers", &w, &cases, &given),
        ended("post-row-number-at-end", &[last], &[entry(0, &[0])]),
        ended("post-row-number-at-end-refused-row", &[last], &[]),
        ended("post-row-number-first-of-two", &[last, at(&[0])], &[]),
        ended(
            "post-row-number-last-of-64",
            &[vec![at(&[0]); 63], vec![last]].concat(),
            &[],
        ),
    ]
}

/// 63: a buffer that is too short for the rows. Each case in it would move.
fn rooms() -> Vec<PostCase> {
    let needed = 2 * (POSTED_HEAD_BYTES + 2);
    [
        ("empty", 0, refusal::POSTING_ROOM),
        ("one-row", needed / 2, refusal::POSTING_ROOM),
        ("of-a-run", 2 * (ROW_HEAD_BYTES + 2), refusal::POSTING_ROOM),
        ("one-short", needed - 1, refusal::POSTING_ROOM),
        ("exact", needed, refusal::SUCCESS),
        ("one-longer", needed + 1, refusal::SUCCESS),
        ("much-longer", needed + 100, refusal::SUCCESS),
    ]
    .map(|(word, room, refusal)| {
        let name = format!("post-room-{word}");
        let cases = [at(&[0, 0]), carrying(&[1, 1], &[3])];
        let post = Post {
            room,
            ..day(&name, &d(), &cases, &[entry(0, &[0])])
        };
        PostCase { post, refusal }
    })
    .into()
}

/// The order of the tests: each row has all faults from its own on.
fn orders() -> Vec<PostCase> {
    let w = whole_case();
    let last = after_row(&[0], LAST_ROW);
    let outside = [entry(200, &[0])];
    let book = [vec![last; 65], vec![at(&[2]), of_length(&[0], 9)]].concat();
    let mut bad_file = w.clone();
    bad_file.charts[0].initial = 2;
    [
        (
            "6-first",
            refusal::CHART,
            &bad_file,
            &book[..],
            &outside[..],
        ),
        ("21-then", refusal::CONFIGURATION_STATE, &w, &book, &outside),
        ("60-then", refusal::BOOK, &w, &book[..65], &outside),
        ("61-then", refusal::ENTRY, &w, &book[..64], &outside),
        ("62-then", refusal::ROW_NUMBER, &w, &book[..64], &[]),
        ("60-of-none", refusal::BOOK, &w, &[], &outside),
    ]
    .map(|(word, refusal, model, cases, entries)| {
        let name = format!("post-order-{word}");
        let post = Post {
            room: 0,
            ..day(&name, model, cases, entries)
        };
        PostCase { post, refusal }
    })
    .into()
}

/// Refused files, and a front that is not read.
fn files() -> Vec<PostCase> {
    let cases = [at(&[0, 0])];
    let with = |name: &str, file: Vec<u8>, refusal: u8| {
        let post = Post {
            file,
            ..day(name, &d(), &cases, &[entry(0, &[0])])
        };
        PostCase { post, refusal }
    };
    let mut all = vec![
        with("post-front", behind(&[9; 24], d().file()), refusal::SUCCESS),
        with("post-empty-file", vec![], refusal::TOO_SHORT),
    ];
    for (word, edition) in [("", Edition::First), ("edition-2-", Edition::Second)] {
        for (number, file) in one_fault_under(edition) {
            all.push(with(&format!("{word}post-file-{number}"), file, number));
        }
    }
    all
}

/// Edition 2: a case whose charts nothing triggers has a row in which they stay.
fn second_edition() -> Vec<PostCase> {
    let second = |model: Model| model.under(Edition::Second);
    vec![
        posts(
            "edition-2-post-stays",
            &second(whole_case()),
            &[at(&[0]), carrying(&[1], &[5])],
            &[entry(0, &[1])],
        ),
        posts(
            "edition-2-post-refused-row",
            &second(l2()),
            &[at(&[0]), at(&[0]), at(&[1])],
            &[entry(1, &[0])],
        ),
        posts(
            "edition-2-post-slave",
            &second(d()),
            &[at(&[0, 1]), at(&[0, 0]), at(&[1, 0])],
            &[entry(0, &[0])],
        ),
        refuses(
            refusal::ROW_NUMBER,
            "edition-2-post-row-number",
            &second(l2()),
            &[after_row(&[0], LAST_ROW)],
            &[],
        ),
    ]
}
