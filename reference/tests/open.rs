//! The number of open choices (RULES 5.15) and refusal 24: numbers worked out by hand, and the three
//! ways of counting compared on random files.

use reference::cases::charts::*;
use reference::cases::many::crowded_by_dead;
use reference::check::accept;
use reference::generate::{configuration, input, tried, Files, Random, Size};
use reference::limits::*;
use reference::model::{Edition, Model};
use reference::open::{by_parts, one_by_one, open_choices, FEW};
use reference::run::{run_model, Row};
use reference::step::{Situation, NO_PLACES};
use reference::walk::all_choices;
use reference::{clear, rewrite, step, Set};

/// The number of open choices of a step that is given or refused with 24, and its refusal.
fn answered(model: &Model, at: &[u8], input: &[u32]) -> (u8, u64) {
    let mut next = vec![7; at.len()];
    let stepped = step(&model.file(), at, Set::of(input), &mut next);
    if stepped.refusal != refusal::SUCCESS {
        assert!(next.iter().all(|&byte| byte == 7) && !stepped.mark);
        assert_eq!((stepped.output, stepped.places), (Set::EMPTY, NO_PLACES));
    }
    (stepped.refusal, stepped.open)
}

#[test]
fn numbers_by_hand() {
    let (one, two) = (Edition::First, Edition::Second);
    // of one chart: its transitions from the present state, equal ones too; in edition 2 staying as well
    for (model, at, first, second) in [
        (l1(), 0, 1, 2),
        (l1(), 1, 0, 1),
        (n1(), 0, 2, 3),
        (n2(), 0, 2, 3),
        (whole_case(), 1, 1, 2),
    ] {
        assert_eq!(open_choices(&model.clone().under(one), &[at]), first);
        assert_eq!(open_choices(&model.under(two), &[at]), second);
    }
    // of two charts the product; guards, feedback and hiding make no difference
    for model in [p1(), p2(), p3(), p4()] {
        assert_eq!(open_choices(&model.clone().under(one), &[0, 0]), 1);
        assert_eq!(open_choices(&model.under(two), &[0, 0]), 4);
    }
    // D: from 0.0 the master enters the slave's state with 1 move of the slave, or goes back with none
    for (at, first, second) in [
        ([0, 0], 2, 4),
        ([0, 1], 2, 4),
        ([1, 0], 1, 4),
        ([1, 1], 1, 4),
    ] {
        assert_eq!(open_choices(&d().under(one), &at), first, "{at:?}");
        assert_eq!(open_choices(&d().under(two), &at), second, "{at:?}");
    }
    // an active slave without a transition leaves no choice, in edition 1
    let stuck = decomposed(spread(2, 2), 0, chart(1, &[], vec![]));
    assert_eq!(open_choices(&stuck, &[0, 0]), 0);
    assert_eq!(open_choices(&stuck, &[1, 0]), 0);
    assert_eq!(open_choices(&stuck.under(two), &[0, 0]), 2);
}

#[test]
fn the_limit() {
    let eights = |more: &[u32]| free_row(&[&[8; 8], more].concat());
    let zeros = |model: &Model| vec![0; model.charts.len()];
    let step = |model: &Model| answered(model, &zeros(model), &[]);
    assert_eq!(OPEN_CHOICES, 8_u64.pow(8));
    assert_eq!(step(&eights(&[])), (0, OPEN_CHOICES));
    assert_eq!(step(&eights(&[1])), (0, OPEN_CHOICES));
    assert_eq!(step(&eights(&[2])), (24, 2 * OPEN_CHOICES));
    let (only, back) = (
        around(vec![free(8); 8], false),
        around(vec![free(8); 8], true),
    );
    assert_eq!(step(&only), (0, OPEN_CHOICES));
    assert_eq!(step(&back), (24, OPEN_CHOICES + 1));
    assert_eq!(step(&free_row(&[8; 16])), (24, 8_u64.pow(16)));
    let stays = free_row(&[8; 16]).under(Edition::Second);
    assert_eq!(step(&stays), (24, 9_u64.pow(16)));
    let eight = free_row(&[8; 8]).under(Edition::Second);
    assert_eq!(step(&eight), (24, 9_u64.pow(8)));
}

/// Below 24 a refusal answers 0, also where choices are open.
#[test]
fn other_refusals_answer_0() {
    assert_eq!(answered(&l3(), &[0], &[]), (23, 0));
    assert_eq!(open_choices(&l3(), &[0]), 1);
    assert_eq!(answered(&l3(), &[2], &[]), (21, 0));
    assert_eq!(answered(&free_row(&[8; 9]), &[0; 8], &[]), (20, 0));
    let short = step(&free_row(&[8; 9]).file(), &[0; 9], Set::EMPTY, &mut [0; 8]);
    assert_eq!((short.refusal, short.open), (22, 0));
    let trap = free_row(&[8, 8, 8, 8, 8, 8, 8, 8, 8, 8, 8, 8, 8, 8, 8, 0]);
    assert_eq!(answered(&trap, &[0; 16], &[]), (23, 0));
}

/// A run keeps the configuration at 24, carries what it was offered, and goes on.
#[test]
fn rows_with_24() {
    let mut moves = vec![go(1, 1, &[], &[], &[]); 8];
    moves.push(go(0, 1, &[30], &[], &[31]));
    let model = row_of_charts(vec![chart(2, &[], moves); 9]);
    let inputs: Vec<Set> = [&[1][..], &[30], &[2], &[3]].map(Set::of).into();
    let (rows, carried) = run_model(&model, &[0; 9], Set::one(5), &inputs);
    let numbers: Vec<u8> = rows.iter().map(|row: &Row| row.refusal).collect();
    assert_eq!(numbers, [23, 0, 24, 24]);
    assert_eq!(rows[0].configuration, [0; 9]);
    assert!(rows[1..].iter().all(|row| row.configuration == [1; 9]));
    assert_eq!(rows[1].output, Set::one(31));
    assert!(rows[2..]
        .iter()
        .all(|row| row.output == Set::EMPTY && !row.mark));
    assert_eq!(carried, Set::of(&[2, 3]));
    assert_eq!(run_model(&model, &[1; 9], Set::one(5), &[]).1, Set::one(5));
}

/// Files that differ in 24: idle transitions add open choices, clearing takes some away.
#[test]
fn rewriting_and_clearing_move_the_number() {
    // seven charts of eight inside a slave that is not entered: 1 choice; rewritten, each may idle or not
    let old = {
        let mut model = around(vec![free(7); 8], true);
        model.charts[0].transitions.remove(0);
        model
    };
    let mut new = vec![0; 60_000];
    let rewritten = rewrite(&old.file(), &mut new);
    new.truncate(rewritten.length);
    let new = accept(&new).expect("a file");
    assert_eq!(answered(&old, &[0; 9], &[]), (0, 1));
    assert_eq!(answered(&new, &[0; 9], &[]), (0, 8_u64.pow(8)));
    let crowded = {
        let mut model = around(vec![free(7); 9], true);
        model.charts[0].transitions.remove(0);
        model
    };
    let mut new = vec![0; 60_000];
    let length = rewrite(&crowded.file(), &mut new).length;
    let new = accept(&new[..length]).expect("a file");
    assert_eq!(answered(&crowded, &[0; 10], &[]), (0, 1));
    assert_eq!(answered(&new, &[0; 10], &[]), (24, 8_u64.pow(9)));

    let dead = crowded_by_dead();
    assert_eq!(answered(&dead, &[0; 9], &[]), (24, 8_u64.pow(9)));
    let mut new = vec![0; dead.file().len()];
    let length = clear(&dead.file(), &mut new).length;
    let new = accept(&new[..length]).expect("a file");
    assert_eq!(answered(&new, &[0; 9], &[]), (0, 1));
}

/// A random file of a size and either edition, and a configuration of it.
fn drawn(random: &mut Random, size: Size) -> (Model, Vec<u8>, Set) {
    let edition = random.pick(&[Edition::First, Edition::Second]);
    let files = Files { edition, size };
    let (shape, model) = files.size.any(random);
    let model = model.under(edition);
    let at = configuration(random, &model);
    let input = input(random, &shape);
    (model, at, input)
}

/// Of all choices as many are open as are listed, and as the parts multiply and add up to.
#[test]
fn three_counts_of_small_files() {
    let mut random = Random::new(31);
    let (mut compared, mut none, mut several, mut inside) = (0, 0, 0, 0);
    while compared < 1_500 {
        let (model, at, input) = drawn(&mut random, Size::Small);
        let places = model.charts.iter().map(|c| c.transitions.len() + 2);
        if places.product::<usize>() > 20_000 {
            continue;
        }
        let situation = Situation::new(&model, &at, input);
        let all = all_choices(&model);
        let literal = all
            .iter()
            .filter(|choice| situation.is_open(choice))
            .count() as u64;
        assert_eq!(one_by_one(&model, &at), literal, "{model:?} {at:?}");
        assert_eq!(by_parts(&model, &at), literal, "{model:?} {at:?}");
        compared += 1;
        none += usize::from(literal == 0);
        several += usize::from(literal > 1);
        inside += usize::from(literal > 1 && !model.slaves.is_empty());
    }
    assert!(
        none > 100 && several > 400 && inside > 200,
        "{none} {several} {inside}"
    );
}

/// In larger files the two that are feasible agree.
#[test]
fn two_counts_of_large_files() {
    let mut random = Random::new(32);
    let (mut compared, mut many, mut few) = (0, 0, 0);
    while compared < 1_500 {
        let (model, at, _) = drawn(&mut random, Size::Large);
        let counted = by_parts(&model, &at);
        assert_eq!(open_choices(&model, &at), counted);
        many += usize::from(counted > OPEN_CHOICES);
        if counted > 30_000 {
            continue;
        }
        assert_eq!(one_by_one(&model, &at), counted, "{model:?} {at:?}");
        compared += 1;
        few += usize::from(counted > 1 && counted <= FEW);
    }
    assert!(many > 30 && few > 300, "{many} {few}");
}

/// 24 is decided by the number, whatever is offered; without it, no step has so many.
#[test]
fn refused_exactly_above_the_limit() {
    let mut random = Random::new(33);
    let mut refused = 0;
    for _ in 0..4_000 {
        let (model, at, input) = drawn(&mut random, Size::Large);
        if tried(&model, &at) > 3_000 {
            continue;
        }
        let open = by_parts(&model, &at);
        let mut next = [0; CHARTS];
        let stepped = step(&model.file(), &at, input, &mut next);
        assert_eq!(stepped.refusal == refusal::MANY_OPEN, open > OPEN_CHOICES);
        let expected = match stepped.refusal {
            refusal::NO_STEP => 0,
            _ => open,
        };
        assert_eq!(stepped.open, expected);
        refused += usize::from(open > OPEN_CHOICES);
    }
    assert!(refused > 50, "{refused}");
}

/// No file of edition 1 within the earlier limits meets 24.
#[test]
fn earlier_files_are_below_the_limit() {
    const { assert!(OPEN_CHOICES == (STATE_TRANSITIONS as u64).pow(EARLIER_CHARTS as u32)) };
    let mut random = Random::new(34);
    for _ in 0..2_000 {
        let (_, model) = Size::Small.any(&mut random);
        let at = configuration(&mut random, &model);
        assert!(by_parts(&model, &at) <= OPEN_CHOICES);
    }
}
