//! A refusal says what is wrong, and leaves the buffers as they were.

mod charts;

use charts::{d, edition_2, whole_case};
use mestecur::{
    check, clear, first, interface, plain, post, rewrite, run, step, Case, Refusal, Set,
};

/// The number of a refused call.
fn number<T: std::fmt::Debug, E: Into<Refusal> + std::fmt::Debug>(answer: Result<T, E>) -> u8 {
    answer.unwrap_err().into().number()
}

/// Asserts that every call refuses a bad file with this number, and leaves the buffers unchanged.
fn every_call_refuses(file: &[u8], refusal: u8) {
    let mut buffer = [0xA5; 300];
    assert_eq!(number(check(file)), refusal);
    assert_eq!(number(first(file, &mut buffer)), refusal);
    assert_eq!(number(interface(file)), refusal);
    assert_eq!(number(step(file, &[0], Set(1), &mut buffer)), refusal);
    let ran = run(file, &[0], Set(4), &[Set(1)], &mut buffer);
    assert_eq!(number(ran), refusal);
    assert_eq!(number(rewrite(file, &mut buffer)), refusal);
    assert_eq!(number(clear(file, &mut buffer)), refusal);
    assert_eq!(number(plain(file)), refusal);
    let mut cases = [Case::new(&[0]).unwrap()];
    assert_eq!(number(post(file, &mut cases, &[], &mut buffer)), refusal);
    assert_eq!(cases, [Case::new(&[0]).unwrap()]);
    assert_eq!(buffer, [0xA5; 300]);
}

/// The whole case with one byte changed.
fn with(place: usize, value: u8) -> Vec<u8> {
    let mut file = whole_case();
    file[place] = value;
    file
}

#[test]
fn bad_files() {
    every_call_refuses(&[], 1);
    every_call_refuses(&whole_case()[101..], 1);
    every_call_refuses(&with(107, 0), 2);
    every_call_refuses(&with(107, 3), 2);
    every_call_refuses(&with(104, 0), 3);
    every_call_refuses(&with(100, 0x65), 4);
    every_call_refuses(&whole_case()[1..], 4);
    every_call_refuses(&with(83, 1), 5);
    every_call_refuses(&with(1, 2), 6);
    every_call_refuses(&with(25, 2), 7);
    every_call_refuses(&with(80, 3), 9);
    let slave = d().len() - 12 - 2 * 20 - 4;
    let changed = |place: usize, value: u8| {
        let mut file = d();
        file[slave + place] = value;
        file
    };
    every_call_refuses(&changed(1, 2), 8);
    every_call_refuses(&changed(2, 1), 10);
    every_call_refuses(&swapped(), 11);
}

/// D with the numbers of its charts exchanged: the slave's chart is numbered below its master.
fn swapped() -> Vec<u8> {
    let mut file = d();
    let nodes = file.len() - 12 - 2 * 20;
    file[nodes - 4] = 1;
    file[nodes + 1] = 0;
    file[nodes + 21] = 1;
    file
}

#[test]
fn steps() {
    let file = whole_case();
    let mut next = [0xA5; 4];
    assert_eq!(number(step(&file, &[], Set(1), &mut next)), 20);
    assert_eq!(number(step(&file, &[0, 0], Set(1), &mut next)), 20);
    assert_eq!(number(step(&file, &[2], Set(1), &mut next)), 21);
    assert_eq!(number(step(&file, &[0], Set(1), &mut [])), 22);
    assert_eq!(number(step(&file, &[0], Set(2), &mut next)), 23);
    assert_eq!(next, [0xA5; 4]);
}

#[test]
fn runs() {
    let file = whole_case();
    let mut rows = [0xA5; 21];
    let mut refused = |config: &[u8], inputs: &[Set]| {
        let ran = run(&file, config, Set(4), inputs, &mut rows);
        number(ran)
    };
    assert_eq!(refused(&[], &[Set(1)]), 20);
    assert_eq!(refused(&[2], &[Set(1)]), 21);
    assert_eq!(refused(&[0], &[Set(1); 2]), 27);
    assert_eq!(rows, [0xA5; 21]);
}

#[test]
fn first_and_rewriting() {
    let file = whole_case();
    let mut short = [0xA5; 111];
    assert_eq!(number(first(&file, &mut [])), 22);
    assert_eq!(number(rewrite(&file, &mut short)), 45);
    assert_eq!(short, [0xA5; 111]);
    let mut full = d();
    full[16..24].copy_from_slice(&[0xFF; 8]);
    assert_eq!(number(rewrite(&full, &mut short)), 40);
    assert_eq!(number(rewrite(&edition_2(full), &mut short)), 46);
    assert_eq!(number(rewrite(&edition_2(file), &mut [])), 46);
    assert_eq!(number(rewrite(&edition_2(swapped()), &mut short)), 11);
    assert_eq!(short, [0xA5; 111]);
}

#[test]
fn a_refusal_prints_its_number_and_why() {
    let refusal = check(&[]).unwrap_err();
    assert_eq!(
        refusal.to_string(),
        "refused 1: fewer than 12 bytes, so there is no trailer"
    );
    let refusal: Box<dyn std::error::Error> = Box::new(Refusal::of(23).unwrap());
    assert_eq!(refusal.to_string(), "refused 23: no choice is permitted");
    let words = |number| Refusal::of(number).unwrap().words();
    assert_eq!(words(2), "the edition is neither 1 nor 2");
    assert_eq!(
        words(46),
        "edition 2, in which charts may stay; only edition 1 can be rewritten, cleared or written as text"
    );
    assert_eq!(Refusal::of(0), None);
    let unknown = Refusal::of(99).unwrap().words();
    let calls = (1..=11).chain(20..=24).chain([27]).chain(40..=46);
    for known in calls.chain(50..=52).chain(60..=63) {
        let words = Refusal::of(known).unwrap().words();
        assert_eq!(words == unknown, known == 43, "{known}");
    }
}
