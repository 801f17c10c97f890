//! The file check, the first configuration and the interface.

use reference::cases::charts::*;
use reference::cases::damage::behind;
use reference::cases::first_interface::interfaces;
use reference::check::accept;
use reference::file::Records;
use reference::generate::{any, damaged, Random};
use reference::limits::*;
use reference::record::{named, KINDS};
use reference::{check, first, interface};
use std::collections::HashSet;

#[test]
fn every_named_case_has_the_refusal_written_beside_it() {
    for kind in KINDS {
        for case in named(kind) {
            let answer = case.command.answer();
            assert_eq!(answer.refusal, case.refusal, "{}", case.command.name);
        }
    }
}

#[test]
fn names_are_unique_words_without_spaces() {
    for kind in KINDS {
        let mut seen = HashSet::new();
        for case in named(kind) {
            let name = case.command.name;
            assert!(name.len() < 256);
            assert!(name.bytes().all(|b| b.is_ascii_alphanumeric() || b == b'-'));
            assert!(seen.insert(name.clone()), "{name} twice");
        }
    }
}

#[test]
fn records_are_written_as_they_were_read() {
    let mut random = Random::new(1);
    let mut read = 0;
    for _ in 0..2_000 {
        let (_, model) = any(&mut random, CHARTS);
        let file = damaged(&mut random, &model);
        let number = check(&file);
        if number == refusal::SUCCESS || number > refusal::DISTANCE {
            let records = Records::read(&file).encode();
            assert!(file.ends_with(&records));
            read += 1;
        }
    }
    assert!(read > 500);
}

#[test]
fn a_model_is_read_back_from_its_file() {
    let mut random = Random::new(2);
    for _ in 0..1_000 {
        let (_, model) = any(&mut random, CHARTS);
        assert_eq!(accept(&model.file()), Ok(model));
    }
}

#[test]
fn the_whole_case_is_laid_down_as_document_01_says() {
    let file = whole_case().file();
    assert_eq!(file.len(), 136 - 24);
    assert_eq!(file[..3], [2, 0, 2]);
    assert_eq!(file[100..], [0x64, 0, 0, 0, 1, 0, 1, 1, 2, 0, 0, 0]);
}

#[test]
fn front_bytes_change_no_answer() {
    let mut random = Random::new(3);
    for _ in 0..300 {
        let (_, model) = any(&mut random, CHARTS);
        let file = damaged(&mut random, &model);
        let number = check(&file);
        if number != refusal::TOO_SHORT && number != refusal::DISTANCE {
            let fronted = behind(&[0x5a; 17], file.clone());
            assert_eq!(check(&fronted), number);
            assert_eq!(interface(&fronted), interface(&file));
        }
    }
}

#[test]
fn the_first_configuration_is_written_in_front_and_nothing_else() {
    let mut model = nested();
    model.charts[0].initial = 1;
    model.charts[2].initial = 1;
    let mut next = [9; 5];
    assert_eq!(first(&model.file(), &mut next), refusal::SUCCESS);
    assert_eq!(next, [1, 0, 1, 9, 9]);
    let mut short = [9; 2];
    let refused = first(&model.file(), &mut short);
    assert_eq!(refused, refusal::CONFIGURATION_ROOM);
    assert_eq!(short, [9; 2]);
}

#[test]
fn interfaces_written_by_hand() {
    for known in interfaces() {
        let found = interface(&known.file);
        assert_eq!(found.refusal, refusal::SUCCESS, "{}", known.name);
        assert_eq!(found.input, known.input, "{}", known.name);
        assert_eq!(found.output, known.output, "{}", known.name);
    }
}
