//! Posting (RULES 11): rows by hand, every refusal, and that a case's row is a row of its own run.

use reference::book::named::{at, carrying, cases, day, entry};
use reference::book::{decode_all, draw, encode, recorded, Post, Posted};
use reference::cases::charts::{d, whole_case};
use reference::command::FILL;
use reference::generate::Random;
use reference::generate::{Files, Size};
use reference::limits::*;
use reference::model::Edition;
use reference::posting::input_of;
use reference::{check, post, run, CaseRecord, Entry, Set};
use std::collections::{BTreeSet, HashSet};

/// How many random postings a property is tried on.
const POSTINGS: usize = 400;

/// Random postings of both editions.
fn random_posts(seed: u64) -> Vec<Post> {
    let mut random = Random::new(seed);
    let editions = [Edition::First, Edition::Second];
    let sizes = [Size::Small, Size::Small, Size::Small, Size::Large];
    let files = |number: usize| Files {
        edition: editions[number % 2],
        size: sizes[number / 2 % 4],
    };
    let posts = (0..POSTINGS).map(|number| draw::post(&mut random, files(number), "random"));
    posts.collect()
}

/// Those that are accepted, with what they tell.
fn accepted(seed: u64) -> Vec<(Post, Posted)> {
    let posts = random_posts(seed).into_iter();
    let all = posts.map(|post| (post.clone(), post.posted()));
    let all: Vec<(Post, Posted)> = all.filter(|(_, posted)| posted.refusal == 0).collect();
    assert!(all.len() > POSTINGS / 3);
    all
}

// ── by hand ──

/// The chart of RULES 6.5. Case 0 has its step; case 1, in state 1, lacks signal 1 and carries signal
/// 9 on; case 2 has what it carries and its entry.
#[test]
fn three_rows_by_hand() {
    let cases = [at(&[0]), at(&[1]), carrying(&[1], &[7])];
    let entries = [entry(1, &[9]), entry(2, &[1]), entry(0, &[0])];
    let posted = day("", &whole_case(), &cases, &entries).posted();
    assert_eq!(posted.refusal, 0);
    let expected: [[u8; 15]; 3] = [
        [7, 0, 0, 0, 2, 0, 0, 0, 0, 0, 0, 0, 1, 0, 1],
        [7, 0, 0, 0, 0, 0, 0, 0, 0, 0, 0, 0, 0, 23, 1],
        [7, 0, 0, 0, 0, 0, 0, 0, 0, 0, 0, 0, 1, 0, 0],
    ];
    assert_eq!(posted.rows, [&expected.concat()[..], &[FILL; 3]].concat());
    let record = |configuration: &[u8], carried: &[u32]| CaseRecord {
        last_row: 7,
        ..carrying(configuration, carried)
    };
    let records = [record(&[1], &[]), record(&[1], &[9]), record(&[0], &[])];
    assert_eq!(posted.cases, records);
}

/// The row number has four bytes, and 4,294,967,295 is a number like another.
#[test]
fn the_highest_row_number_by_hand() {
    let case = CaseRecord {
        last_row: LAST_ROW - 1,
        ..at(&[0])
    };
    let posted = day("", &whole_case(), &[case], &[]).posted();
    assert_eq!((posted.refusal, posted.cases[0].last_row), (0, LAST_ROW));
    assert_eq!(posted.rows[..4], [255; 4]);
    let again = Post {
        cases: posted.cases,
        ..day("", &whole_case(), &[case], &[])
    };
    assert_eq!(again.posted().refusal, refusal::ROW_NUMBER);
}

#[test]
fn a_line_by_hand() {
    let post = Post {
        room: 15,
        ..day("p", &whole_case(), &[at(&[0])], &[entry(0, &[1])])
    };
    let rest = "c3".repeat(15);
    let line =
        format!("p post 0 0200000000000000070000000100{rest} 070000000000000000000000001700\n");
    assert_eq!(post.line(&post.posted()), line);
    let none = Post {
        room: 0,
        ..day("p", &whole_case(), &[], &[])
    };
    assert_eq!(none.line(&none.posted()), "p post 60 - -\n");
}

#[test]
fn a_posting_byte_by_byte() {
    let post = Post {
        name: "ab".to_string(),
        file: vec![7, 8],
        cases: vec![carrying(&[5], &[8])],
        entries: vec![entry(0x0102, &[1])],
        room: 9,
    };
    let mut expected = vec![2, 0, 0, 0, 2, 0, 0, 0, 1, 0, 0, 0, 1, 0, 0, 0, 9, 0, 0, 0];
    expected.extend(b"ab");
    expected.extend([7, 8]);
    expected.extend([0, 1, 0, 0, 0, 0, 0, 0, 6, 0, 0, 0, 1, 5]);
    expected.extend([0xC3; 15]);
    expected.extend([2, 1, 0, 0, 0, 0, 0, 0, 2, 0, 0, 0, 0, 0, 0, 0]);
    assert_eq!(post.encode(), expected);
}

// ── the recorded ones ──

#[test]
fn named_postings_have_their_refusals() {
    for case in cases() {
        assert_eq!(
            case.post.posted().refusal,
            case.refusal,
            "{}",
            case.post.name
        );
    }
}

#[test]
fn every_refusal_is_reached() {
    let of = |posts: &[Post]| -> BTreeSet<u8> {
        let refusals = posts.iter().map(|post| post.posted().refusal);
        refusals.collect()
    };
    let named: Vec<Post> = cases().into_iter().map(|case| case.post).collect();
    let expected = (0..=11).chain([20, 21]).chain(60..=63);
    assert_eq!(of(&named), expected.collect());
    let random = of(&recorded()[named.len()..]);
    for number in [0, 20, 21, 60, 61, 62, 63] {
        assert!(random.contains(&number), "{number}");
    }
}

#[test]
fn recorded_postings_are_read_back_and_have_names_of_their_own() {
    let posts = recorded();
    assert_eq!(decode_all(&encode(&posts)).as_ref(), Ok(&posts));
    let names: HashSet<&String> = posts.iter().map(|post| &post.name).collect();
    assert_eq!(names.len(), posts.len());
    let bytes = encode(&posts);
    assert!(decode_all(&bytes[..bytes.len() - 1]).is_err());
}

#[test]
fn a_refusal_changes_nothing() {
    let named = cases().into_iter().map(|case| case.post);
    for post in named.chain(random_posts(1)) {
        let posted = post.posted();
        if posted.refusal != 0 {
            assert_eq!(posted.cases, post.cases, "{}", post.name);
            assert!(
                posted.rows.iter().all(|&byte| byte == FILL),
                "{}",
                post.name
            );
        }
    }
}

// ── what follows from the rules (RULES 11.7) ──

/// Each case's row is the row of a run of one input, its record moves as the run says, and what
/// comes after the rows is unchanged.
#[test]
fn a_case_has_the_row_of_its_run() {
    for (post, posted) in accepted(2) {
        let charts = usize::from(post.cases[0].length);
        let long = POSTED_HEAD_BYTES + charts;
        for (number, (old, new)) in post.cases.iter().zip(&posted.cases).enumerate() {
            let input = input_of(number as u64, &post.entries);
            let mut row = vec![FILL; ROW_HEAD_BYTES + charts];
            let at = old.configuration();
            let ran = run(&post.file, &at, old.carried, &[input], &mut row);
            assert_eq!((ran.refusal, ran.carried), (0, new.carried));
            assert_eq!(new.last_row, old.last_row + 1);
            let bytes = &posted.rows[number * long..(number + 1) * long];
            assert_eq!(bytes, [&new.last_row.to_le_bytes()[..], &row].concat());
            assert_eq!(new.configuration(), row[ROW_HEAD_BYTES..]);
            assert_eq!(
                (new.length, &new.config[charts..]),
                (old.length, &old.config[charts..])
            );
        }
        let rest = &posted.rows[post.cases.len() * long..];
        assert!(rest.iter().all(|&byte| byte == FILL));
    }
}

/// A book with one case, its own record and its own entries: the same row and the same record.
#[test]
fn a_row_depends_on_its_own_case_alone() {
    for (post, posted) in accepted(3) {
        let long = POSTED_HEAD_BYTES + usize::from(post.cases[0].length);
        for (number, case) in post.cases.iter().enumerate() {
            let own = |entry: &&Entry| entry.number == number as u64;
            let entries = post.entries.iter().filter(own);
            let alone = Post {
                cases: vec![*case],
                entries: entries.map(|&entry| Entry { number: 0, ..entry }).collect(),
                room: long,
                ..post.clone()
            };
            let alone = alone.posted();
            assert_eq!(alone.cases, [posted.cases[number]]);
            assert_eq!(alone.rows, posted.rows[number * long..(number + 1) * long]);
        }
    }
}

/// Neither the order of the entries matters nor whether they are joined before.
#[test]
fn entries_in_any_order_joined_or_not() {
    let mut random = Random::new(4);
    for (post, posted) in accepted(4) {
        let mut shuffled = post.clone();
        random.shuffle(&mut shuffled.entries);
        assert_eq!(shuffled.posted(), posted);
        let joined = (0..post.cases.len() as u64).map(|number| Entry {
            number,
            signals: input_of(number, &post.entries),
        });
        let joined = Post {
            entries: joined.collect(),
            ..post
        };
        assert_eq!(joined.posted(), posted);
    }
}

/// A book posted day by day has, case by case, the rows of one run over the days' inputs.
#[test]
fn days_are_the_rows_of_a_run() {
    let file = d().file();
    let mut random = Random::new(5);
    let days: Vec<[Set; 2]> = (0..30)
        .map(|_| [0, 1].map(|_| Set(random.bits() & 0x0f)))
        .collect();
    let mut cases = [at(&[0, 0]), carrying(&[1, 0], &[3])];
    let mut rows: [Vec<u8>; 2] = [vec![], vec![]];
    let first = cases;
    for day in &days {
        let entries = [1, 0].map(|number| Entry {
            number,
            signals: day[number as usize],
        });
        let mut lent = [FILL; 32];
        assert_eq!(post(&file, &mut cases, &entries, &mut lent), 0);
        for (row, bytes) in rows.iter_mut().zip(lent.chunks(16)) {
            row.extend(&bytes[4..]);
        }
    }
    for number in 0..2 {
        let inputs: Vec<Set> = days.iter().map(|day| day[number]).collect();
        let mut lent = vec![FILL; 30 * 12];
        let at = first[number].configuration();
        let ran = run(&file, &at, first[number].carried, &inputs, &mut lent);
        assert_eq!((ran.refusal, ran.carried), (0, cases[number].carried));
        assert_eq!(rows[number], lent);
        assert_eq!(cases[number].last_row, first[number].last_row + 30);
    }
    assert_eq!(check(&file), 0);
}
