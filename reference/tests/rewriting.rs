//! The rewriting: D byte for byte, and the same steps on random files.

use reference::agreement::Agreement;
use reference::cases::charts::{d, p3};
use reference::cases::damage::behind;
use reference::cases::file::one_fault_under;
use reference::check::accept;
use reference::generate::{any, configuration, input, Random, Shape};
use reference::limits::*;
use reference::model::{Edition, Model, Node};
use reference::rewriting::{calls, rewrite_model};
use reference::step::NO_PLACES;
use reference::walk::{configurations, inputs, is_nested, with_slaves};
use reference::{check, rewrite, run, step, Set, Stepped};

/// The rewritten file, if there is one.
fn rewritten(file: &[u8]) -> Result<Vec<u8>, u8> {
    let mut room = vec![0xA5; 20_000];
    let answer = rewrite(file, &mut room);
    if answer.refusal != refusal::SUCCESS {
        assert!(room.iter().all(|&byte| byte == 0xA5));
        assert_eq!(answer.length, 0);
        return Err(answer.refusal);
    }
    assert!(room[answer.length..].iter().all(|&byte| byte == 0xA5));
    room.truncate(answer.length);
    Ok(room)
}

/// D rewritten, from RULES 9.7: the call signal is 5, which is bit 0x20.
fn d_by_hand() -> Vec<u8> {
    fn set(low: u8) -> [u8; 8] {
        [low, 0, 0, 0, 0, 0, 0, 0]
    }
    let mut bytes: Vec<u8> = Vec::new();
    let mut put = |head: &[u8], sets: &[u8]| {
        bytes.extend(head);
        sets.iter().for_each(|&low| bytes.extend(set(low)));
    };
    // chart 0: 2 states, initial 0, 3 transitions; feedback {1}, no extra set
    put(&[2, 0, 3, 0, 0, 0, 0, 0], &[0x02, 0x00]);
    // chart 1: 2 states, initial 0, 2 own transitions and 2 idle ones; no feedback
    put(&[2, 0, 4, 0, 0, 0, 0, 0], &[0x00, 0x00]);
    // 0 to 1 needs {0}, action {1} and the call signal, for it enters the slave's state
    put(&[0, 1, 0, 0], &[0x01, 0x00, 0x22]);
    // 0 to 0 bars {0}: not the slave's state, no call signal
    put(&[0, 0, 0, 0], &[0x00, 0x01, 0x00]);
    // 1 to 0 needs {3}, action the call signal, for it leaves the slave's state
    put(&[1, 0, 0, 0], &[0x08, 0x00, 0x20]);
    // slave: 0 to 1 needs {1} and the call signal, action {2}
    put(&[0, 1, 0, 0], &[0x22, 0x00, 0x04]);
    // slave: 1 to 1 needs {3} and the call signal, action {4}
    put(&[1, 1, 0, 0], &[0x28, 0x00, 0x10]);
    // idle transition of state 0, then of state 1: bars the call signal
    put(&[0, 0, 0, 0], &[0x00, 0x20, 0x00]);
    put(&[1, 1, 0, 0], &[0x00, 0x20, 0x00]);
    // node 0: chart 1; node 1: the master
    put(&[0, 1, 0, 0], &[0x00, 0x00]);
    put(&[0, 0, 0, 0], &[0x00, 0x00]);
    // node 2: 1 and 0 composed, x is {1} and the call signal
    put(&[1, 1, 0, 0], &[0x22, 0x00]);
    // node 3: 2 hidden, x and y are the call signal
    put(&[2, 2, 0, 0], &[0x20, 0x20]);
    // distance 2 * 24 + 7 * 28 + 4 * 20 = 324; 2 charts, 0 slaves, 4 nodes, edition 1, 7 transitions
    put(&[0x44, 0x01, 0, 0, 2, 0, 4, 1, 7, 0, 0, 0], &[]);
    bytes
}

#[test]
fn d_is_rewritten_byte_for_byte() {
    assert_eq!(rewritten(&d().file()), Ok(d_by_hand()));
    let fronted = behind(&[7; 30], d().file());
    assert_eq!(rewritten(&fronted), Ok(d_by_hand()));
}

/// 46 comes after 11 and before 40, and a file of edition 2 without slaves is refused as well.
#[test]
fn edition_2_is_refused_with_46() {
    let second = |model: Model| model.under(Edition::Second).file();
    let mut none_free = d();
    none_free.charts[0].extra = Set::FULL;
    for model in [d(), p3(), none_free] {
        assert_eq!(rewritten(&second(model)), Err(46));
    }
    let mut short = [0xA5; 3];
    assert_eq!(rewrite(&second(d()), &mut short).refusal, 46);
    assert_eq!(short, [0xA5; 3]);
    for (number, file) in one_fault_under(Edition::Second) {
        assert_eq!(rewritten(&file), Err(number));
    }
}

#[test]
fn the_call_of_d_is_5() {
    assert_eq!(calls(&d()), Some(vec![Set::one(5)]));
}

#[test]
fn a_file_without_slaves_stays_and_loses_its_front() {
    let file = p3().file();
    assert_eq!(rewritten(&file), Ok(file.clone()));
    assert_eq!(rewritten(&behind(&[1; 13], file.clone())), Ok(file));
}

/// A random file with slaves that can be rewritten, with few configurations and few transitions.
fn small_with_slaves(random: &mut Random) -> (Shape, Model) {
    loop {
        let (shape, model) = with_slaves(random, 81);
        let transitions: usize = model.charts.iter().map(|c| c.transitions.len()).sum();
        if transitions <= 24 && rewritten(&model.file()).is_ok() {
            return (shape, model);
        }
    }
}

/// A step's answer as a row has it.
fn row(stepped: &Stepped) -> (u8, Set, bool) {
    (stepped.refusal, stepped.output, stepped.mark)
}

#[test]
fn the_rewritten_file_steps_as_the_old_one() {
    let mut random = Random::new(5);
    let (mut given, mut refused, mut doubtful, mut idle, mut nested) = (0, 0, 0, 0, 0);
    for _ in 0..250 {
        let (shape, model) = small_with_slaves(&mut random);
        let old = model.file();
        let new = rewritten(&old).unwrap();
        let read = accept(&new).unwrap();
        let agreement = Agreement::new(&model, &read);
        nested += usize::from(is_nested(&model));
        for at in configurations(&model) {
            for input in inputs(&mut random, &shape, &model) {
                let mut old_next = vec![0xA5; at.len()];
                let mut new_next = old_next.clone();
                let old_answer = step(&old, &at, input, &mut old_next);
                let new_answer = step(&new, &at, input, &mut new_next);
                assert_eq!(row(&old_answer), row(&new_answer));
                assert_eq!(old_next, new_next);
                let (old_places, new_places) = (&old_answer.places, &new_answer.places);
                assert!(agreement.holds(&at, old_answer.refusal, old_places, new_places));
                idle += usize::from(old_places != new_places);
                given += usize::from(old_answer.refusal == refusal::SUCCESS);
                refused += usize::from(old_answer.refusal == refusal::NO_STEP);
                doubtful += usize::from(old_answer.refusal == 0 && !old_answer.mark);
            }
        }
    }
    assert!(given > 2_000 && refused > 2_000 && doubtful > 300 && idle > 500 && nested > 40);
}

/// D: chart 1 has two transitions of its own, so its idle transitions are at 2 and 3.
#[test]
fn the_places_of_d_rewritten_by_hand() {
    let (old, new) = (d().file(), d_by_hand());
    let places = |file: &[u8], at: &[u8; 2], input: &[u32]| {
        let stepped = step(file, at, Set::of(input), &mut [0; 2]);
        [stepped.places[0], stepped.places[1]]
    };
    for (at, input, before, after) in [
        ([0, 0], &[0][..], [0, 0], [0, 0]),
        ([0, 0], &[], [1, 255], [1, 2]),
        ([0, 1], &[], [1, 255], [1, 3]),
        ([1, 1], &[3], [2, 1], [2, 1]),
        ([0, 1], &[0, 3], [0, 1], [0, 1]),
        ([0, 1], &[0], [255, 255], [255, 255]),
    ] {
        assert_eq!(places(&old, &at, input), before, "{at:?} {input:?}");
        assert_eq!(places(&new, &at, input), after, "{at:?} {input:?}");
    }
}

/// What would not agree: another state's idle transition, an own one, none, a place past the last
/// chart, and an idle transition in a refused step.
#[test]
fn other_places_do_not_agree() {
    let (old, new) = (d(), accept(&d_by_hand()).unwrap());
    let agreement = Agreement::new(&old, &new);
    let places = |list: &[u8]| {
        let mut places = NO_PLACES;
        places[..list.len()].copy_from_slice(list);
        places
    };
    let holds = |number: u8, before: &[u8], after: &[u8]| {
        agreement.holds(&[0, 0], number, &places(before), &places(after))
    };
    assert!(holds(0, &[1], &[1, 2]) && holds(0, &[0, 0], &[0, 0]) && holds(23, &[], &[]));
    assert!(!holds(0, &[1], &[1, 3]) && !holds(0, &[1], &[1, 0]) && !holds(0, &[1], &[1]));
    assert!(!holds(0, &[1], &[1, 2, 0]) && !holds(0, &[0, 0], &[0, 2]));
    assert!(!holds(23, &[], &[255, 2]) && !holds(0, &[], &[1, 2]));
}

#[test]
fn the_rewritten_file_runs_as_the_old_one() {
    let mut random = Random::new(6);
    for _ in 0..150 {
        let (shape, model) = small_with_slaves(&mut random);
        let old = model.file();
        let new = rewritten(&old).unwrap();
        let at = configuration(&mut random, &model);
        let inputs: Vec<Set> = (0..10).map(|_| input(&mut random, &shape)).collect();
        let carried = input(&mut random, &shape);
        let mut old_rows = vec![0xA5; 10 * (10 + at.len()) + 1];
        let mut new_rows = old_rows.clone();
        let before = run(&old, &at, carried, &inputs, &mut old_rows);
        let after = run(&new, &at, carried, &inputs, &mut new_rows);
        assert_eq!(before.refusal, refusal::SUCCESS);
        assert_eq!((before, old_rows), (after, new_rows));
    }
}

#[test]
fn the_rewritten_file_is_accepted_has_no_slaves_and_stays_when_rewritten_again() {
    let mut random = Random::new(7);
    let mut seen = 0;
    for _ in 0..2_000 {
        let (_, model) = any(&mut random, CHARTS);
        if let Ok(new) = rewritten(&model.file()) {
            assert_eq!(check(&new), refusal::SUCCESS);
            let read = accept(&new).unwrap();
            assert!(read.slaves.is_empty());
            assert_eq!(rewritten(&new), Ok(new));
            for (old, new) in model.charts.iter().zip(&read.charts) {
                assert_eq!((old.states, old.initial), (new.states, new.initial));
                assert_eq!((old.feedback, old.extra), (new.feedback, new.extra));
            }
            seen += usize::from(!model.slaves.is_empty());
        }
    }
    assert!(seen > 500);
}

#[test]
fn idle_transitions_of_a_slave_that_is_a_master_carry_no_call() {
    let mut random = Random::new(8);
    let mut seen = 0;
    for _ in 0..2_000 {
        let (_, model) = any(&mut random, CHARTS);
        let calls = calls(&model).unwrap();
        let new = rewrite_model(&model, &calls);
        for (number, (old, new)) in model.charts.iter().zip(&new.charts).enumerate() {
            let idle = &new.transitions[old.transitions.len()..];
            match model.nearest_slave(number as u8) {
                None => assert!(idle.is_empty()),
                Some(place) => {
                    assert_eq!(idle.len(), usize::from(old.states));
                    for (state, transition) in idle.iter().enumerate() {
                        assert_eq!(usize::from(transition.from), state);
                        assert_eq!(usize::from(transition.to), state);
                        assert_eq!(transition.needed, Set::EMPTY);
                        assert_eq!(transition.barred, calls[place]);
                        assert_eq!(transition.action, Set::EMPTY);
                    }
                    seen += usize::from(model.is_master(number as u8));
                }
            }
        }
    }
    assert!(seen > 300);
}

#[test]
fn the_nodes_of_two_masters_by_hand() {
    use reference::cases::charts::{chart, composed, hidden, leaf, slave};
    let model = Model {
        edition: Edition::First,
        charts: vec![
            chart(2, &[0], vec![]),
            chart(3, &[1], vec![]),
            chart(1, &[], vec![]),
            chart(1, &[], vec![]),
        ],
        slaves: vec![slave(0, 1, 2), slave(1, 0, 1), slave(1, 2, 0)],
        nodes: vec![leaf(3), leaf(2), leaf(1), leaf(0), hidden(3, &[9], &[])],
    };
    assert_eq!(check(&model.file()), refusal::SUCCESS);
    // free are 2, 3, 4: the call signal of chart 0's slave is 2, of chart 1's slaves 3 and 4
    let new = accept(&rewritten(&model.file()).unwrap()).unwrap();
    let expected: Vec<Node> = vec![
        leaf(3),
        leaf(2),
        leaf(1),
        composed(2, 1, &[1, 3, 4]),
        composed(3, 0, &[1, 3, 4]),
        hidden(4, &[3, 4], &[3, 4]),
        leaf(0),
        composed(6, 5, &[0, 2]),
        hidden(7, &[2], &[2]),
        hidden(8, &[9], &[]),
    ];
    assert_eq!(new.nodes, expected);
}

/// Charts that pass 42 have at most 16 times 64 transitions, so the sum is never above 1,024
/// (RULES 3.5).
#[test]
fn charts_within_their_limit_are_within_the_limit_in_all() {
    const { assert!(CHARTS * CHART_TRANSITIONS <= TRANSITIONS) };
}
