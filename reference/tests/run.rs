//! Rows of a run, byte for byte, and a run as steps one after the other.

use reference::cases::charts::{d, l2, whole_case};
use reference::cases::run::whole_case_inputs;
use reference::generate::{any, configuration, input, Random};
use reference::limits::*;
use reference::model::Edition;
use reference::{run, step, Set};

#[test]
fn the_whole_case_as_rows() {
    let mut rows = [0xA5; 35];
    let file = whole_case().file();
    let ran = run(&file, &[0], Set::EMPTY, &whole_case_inputs(), &mut rows);
    assert_eq!((ran.refusal, ran.carried), (refusal::SUCCESS, Set::EMPTY));
    assert_eq!(rows[..11], [2, 0, 0, 0, 0, 0, 0, 0, 1, 0, 1]);
    assert_eq!(rows[11..22], [0, 0, 0, 0, 0, 0, 0, 0, 0, 23, 1]);
    assert_eq!(rows[22..33], [0, 0, 0, 0, 0, 0, 0, 0, 1, 0, 0]);
    assert_eq!(rows[33..], [0xA5; 2]);
}

#[test]
fn a_refused_run_leaves_its_buffer_and_carries_nothing() {
    let mut rows = [0xA5; 11];
    let short = run(&d().file(), &[0, 0], Set::one(7), &[Set::EMPTY], &mut rows);
    assert_eq!(
        (short.refusal, short.carried),
        (refusal::RUN_ROOM, Set::EMPTY)
    );
    assert_eq!(rows, [0xA5; 11]);
}

/// D at 0.1 has no step for {0} and none for {9}, and one for {0,3}.
#[test]
fn the_signals_of_refused_steps_are_carried_uncut_until_a_step_is_given() {
    let file = d().file();
    let mut rows = [0; 36];
    let inputs = [Set::one(0), Set::one(9), Set::one(3)];
    let mut carried = |count: usize| {
        let ran = run(&file, &[0, 1], Set::one(8), &inputs[..count], &mut rows);
        assert_eq!(ran.refusal, refusal::SUCCESS);
        ran.carried
    };
    assert_eq!(carried(0), Set::of(&[8]));
    assert_eq!(carried(1), Set::of(&[0, 8]));
    assert_eq!(carried(2), Set::of(&[0, 8, 9]));
    assert_eq!(carried(3), Set::EMPTY);
    assert_eq!(rows[9..12], [23, 0, 1]);
    assert_eq!(rows[21..24], [23, 0, 1]);
    assert_eq!(rows[24..], [0x12, 0, 0, 0, 0, 0, 0, 0, 1, 0, 1, 1]);
}

/// L2 under edition 2: no step for none and for {5}, both carried; with {0} it stays, and that is a
/// step, so nothing is carried on.
#[test]
fn staying_is_a_step_and_carries_nothing_on() {
    let file = l2().under(Edition::Second).file();
    let mut rows = [0xA5; 33];
    let inputs = [Set::EMPTY, Set::one(5), Set::one(0)];
    let mut carried = |count: usize| {
        let ran = run(&file, &[0], Set::one(9), &inputs[..count], &mut rows);
        assert_eq!(ran.refusal, refusal::SUCCESS);
        ran.carried
    };
    assert_eq!(carried(1), Set::of(&[9]));
    assert_eq!(carried(2), Set::of(&[5, 9]));
    assert_eq!(carried(3), Set::EMPTY);
    assert_eq!(rows[8..11], [0, 23, 0]);
    assert_eq!(rows[19..22], [0, 23, 0]);
    assert_eq!(rows[22..], [0, 0, 0, 0, 0, 0, 0, 0, 1, 0, 0]);
}

#[test]
fn a_run_is_its_steps() {
    let mut random = Random::new(9);
    let mut refused = 0;
    for number in 0..500 {
        let (shape, model) = any(&mut random, 5);
        let editions = [Edition::First, Edition::Second];
        let model = model.under(editions[number % 2]);
        if model
            .charts
            .iter()
            .map(|c| c.transitions.len() + 1)
            .product::<usize>()
            > 3_000
        {
            continue;
        }
        let file = model.file();
        let mut present = configuration(&mut random, &model);
        let inputs: Vec<Set> = (0..6).map(|_| input(&mut random, &shape)).collect();
        let mut carried = input(&mut random, &shape);
        let row_bytes = ROW_HEAD_BYTES + present.len();
        let mut rows = vec![0; 6 * row_bytes];
        let ran = run(&file, &present, carried, &inputs, &mut rows);
        assert_eq!(ran.refusal, refusal::SUCCESS);
        for (row, input) in rows.chunks(row_bytes).zip(inputs) {
            let mut next = present.clone();
            let joined = carried.joined(input);
            let stepped = step(&file, &present, joined, &mut next);
            assert_eq!(row[..8], stepped.output.bytes());
            assert_eq!(row[8], u8::from(stepped.mark));
            assert_eq!(row[9], stepped.refusal);
            assert_eq!(row[10..], next);
            let is_refused = stepped.refusal != refusal::SUCCESS;
            carried = if is_refused { joined } else { Set::EMPTY };
            refused += usize::from(is_refused);
            present = next;
        }
        assert_eq!(ran.carried, carried);
    }
    assert!(refused > 100);
}
