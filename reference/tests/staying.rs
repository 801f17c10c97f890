//! Edition 2 (RULES 7). Answers written by hand, as bytes of a buffer and places; and staying
//! compared with edition 1, where it is spelled out in transitions.

use reference::cases::charts::{alone, chart, d, go, l2, p2, whole_case};
use reference::cases::damage::changed;
use reference::cases::second::meanings::{meanings, thirteen, StayAnswer};
use reference::chart::chart as said;
use reference::check::accept;
use reference::generate::{any, configuration, input, most_choices, Random};
use reference::limits::{refusal, CHARTS, NO_PLACE, STAYED};
use reference::model::{Chart, Edition, Model, Transition};
use reference::step::{step_model, Outcome, Place, Situation, NO_PLACES};
use reference::walk::{every, hides_inside, is_nested};
use reference::{check, first, interface, plain, rewrite, step, Set};
use std::collections::HashSet;

/// A byte of the buffer that is no state.
const FILL: u8 = 0xA5;

/// Compares a step with what was written by hand, with one byte to spare.
fn hold(answer: &StayAnswer) {
    let (row, name) = (&answer.row, answer.row.name);
    let charts = row.configuration.len();
    let mut next = vec![FILL; charts + 1];
    let stepped = step(&row.model.file(), &row.configuration, row.input, &mut next);
    let mut places = NO_PLACES;
    places[..answer.places.len()].copy_from_slice(&answer.places);
    assert_eq!(stepped.places, places, "{name}");
    match &row.result {
        Some((state, output, mark)) => {
            assert_eq!(answer.places.len(), charts, "{name}");
            assert_eq!(stepped.refusal, refusal::SUCCESS, "{name}");
            assert_eq!(stepped.output, *output, "{name}");
            assert_eq!(stepped.mark, *mark, "{name}");
            assert_eq!(next, [&state[..], &[FILL]].concat(), "{name}");
        }
        None => {
            assert_eq!(stepped.refusal, refusal::NO_STEP, "{name}");
            assert_eq!(stepped.output, Set::EMPTY, "{name}");
            assert!(!stepped.mark, "{name}");
            assert_eq!(next, vec![FILL; charts + 1], "{name}");
        }
    }
}

#[test]
fn the_thirteen_rows_under_edition_2() {
    let rows = thirteen();
    assert_eq!(rows.len(), 17);
    assert!(rows.iter().all(|a| a.row.model.edition == Edition::Second));
    rows.iter().for_each(hold);
}

#[test]
fn the_meanings_written_by_hand() {
    let meanings = meanings();
    assert!(meanings.len() > 70);
    let names: HashSet<&str> = meanings.iter().map(|answer| answer.row.name).collect();
    assert_eq!(names.len(), meanings.len());
    meanings.iter().for_each(hold);
}

/// L2 and P2 under edition 2, byte by byte (RULES 5.7, 7.2).
#[test]
fn l2_and_p2() {
    let (l2, p2) = (
        l2().under(Edition::Second).file(),
        p2().under(Edition::Second).file(),
    );
    let mut state = [FILL];
    let refused = step(&l2, &[0], Set::EMPTY, &mut state);
    assert_eq!((refused.refusal, refused.places), (23, [255; CHARTS]));
    assert_eq!(state, [FILL]);
    let stayed = step(&l2, &[0], Set::one(0), &mut state);
    assert_eq!((stayed.refusal, stayed.output), (0, Set::EMPTY));
    assert_eq!(stayed.places[..2], [254, 255]);
    assert_eq!((state, stayed.mark), ([0], true));
    let mut states = [FILL; 2];
    let moved = step(&p2, &[0, 0], Set::one(0), &mut states);
    assert_eq!((moved.refusal, moved.output), (0, Set::one(1)));
    assert_eq!(moved.places[..3], [0, 254, 255]);
    assert_eq!((states, moved.mark), ([1, 0], true));
}

/// One byte of the trailer makes the difference.
#[test]
fn the_edition_is_the_trailers_eighth_byte() {
    let (mut one, two) = (d().file(), d().under(Edition::Second).file());
    let at = one.len() - 5;
    assert_eq!((one[at], two[at]), (1, 2));
    one[at] = 2;
    assert_eq!(one, two);
    let with = |edition| changed(&whole_case(), |r| r.trailer.edition = edition);
    let accepted: Vec<u8> = (0..=255).filter(|&e| check(&with(e)) == 0).collect();
    assert_eq!(accepted, [1, 2]);
    for edition in [0, 3, 254, 255] {
        assert_eq!(check(&with(edition)), 2);
    }
}

/// First configuration and interface are those of edition 1.
#[test]
fn first_and_interface_do_not_ask_for_the_edition() {
    let mut random = Random::new(11);
    for _ in 0..300 {
        let (_, model) = any(&mut random, CHARTS);
        let (one, two) = (model.file(), model.under(Edition::Second).file());
        assert_eq!(interface(&one), interface(&two));
        let (mut old, mut new) = ([FILL; CHARTS], [FILL; CHARTS]);
        assert_eq!((first(&one, &mut old), first(&two, &mut new)), (0, 0));
        assert_eq!(old, new);
        assert_eq!(plain(&two).refusal, 0);
        assert!(!plain(&two).plain);
        assert_eq!(rewrite(&two, &mut [0; 9]).refusal, 46);
    }
}

#[test]
fn a_model_of_edition_2_is_read_back_from_its_file() {
    let mut random = Random::new(12);
    for _ in 0..300 {
        let (_, model) = any(&mut random, CHARTS);
        let model = model.under(Edition::Second);
        assert_eq!(accept(&model.file()), Ok(model));
    }
}

/// The order of the choices is that of their places.
#[test]
fn staying_comes_last() {
    let mut places = [
        Place::Stay,
        Place::Transition(63),
        Place::None,
        Place::Transition(0),
    ];
    places.sort();
    let expected = [
        Place::None,
        Place::Transition(0),
        Place::Transition(63),
        Place::Stay,
    ];
    assert_eq!(places, expected);
}

/// What the command line tool says.
#[test]
fn words() {
    let p2 = p2().under(Edition::Second).file();
    let said = |command, words: &[&str]| said(command, &p2, words).unwrap();
    assert_eq!(
        said("step", &["0.0", "s0"]),
        "1 0000000000000002 1.0 y  s1\nchart 0 took transition 0\nchart 1 stayed\n4 open choices\n"
    );
    assert_eq!(said("check", &[]), "accepted\n");
    assert_eq!(said("plain", &[]), "not plain\n");
    assert_eq!(said("rewrite", &[]), "rewriting refused 46\n");
    assert_eq!(
        said("run", &["0.0", "-", "s0", "s1"]),
        "1 0000000000000000 0.0 y  -\n2 0000000000000002 1.0 y  s1\n3 0000000000000004 1.1 y  s2\n"
    );
    let d = d().under(Edition::Second).file();
    let step = reference::chart::chart("step", &d, &["0.1", "-"]).unwrap();
    let ending = "chart 0 took transition 1\nchart 1 took no transition\n4 open choices\n";
    assert!(step.ends_with(ending));
}

/// A reason why a guard is not met: a needed signal that is absent, or a barred one that is present.
#[derive(Clone, Copy)]
enum Reason {
    Absent(u32),
    Present(u32),
}

/// All reasons why a transition's guard may not be met.
fn reasons(transition: &Transition) -> Vec<Reason> {
    let absent = transition.needed.signals().map(Reason::Absent);
    absent
        .chain(transition.barred.signals().map(Reason::Present))
        .collect()
}

/// Transitions of edition 1 by which a chart keeps a state and outputs nothing, each where all
/// transitions from the state have their guards not met, each for one reason; one for every way to
/// give each its reason. As its action is empty, its guard is tested on the offered set itself.
fn spelled_out(chart: &Chart, state: u8) -> Vec<Transition> {
    let from = chart.transitions.iter().filter(|t| t.from == state);
    let keeping = |reasons: Vec<Reason>| {
        let mut kept = go(state, state, &[], &[], &[]);
        for reason in reasons {
            match reason {
                Reason::Absent(signal) => kept.barred = kept.barred.joined(Set::one(signal)),
                Reason::Present(signal) => kept.needed = kept.needed.joined(Set::one(signal)),
            }
        }
        kept
    };
    every(from.map(reasons).collect())
        .into_iter()
        .map(keeping)
        .collect()
}

/// The chart with staying spelled out behind its own transitions.
fn with_staying(chart: &Chart) -> Chart {
    let mut chart = chart.clone();
    let staying: Vec<Transition> = (0..chart.states)
        .flat_map(|state| spelled_out(&chart, state))
        .collect();
    chart.transitions.extend(staying);
    chart
}

/// The file with staying spelled out in every chart; it may have more transitions than fit into a
/// file.
fn edition_1_of(model: &Model) -> Model {
    Model {
        edition: Edition::First,
        charts: model.charts.iter().map(with_staying).collect(),
        ..model.clone()
    }
}

#[test]
fn one_chart_spelled_out_by_hand() {
    let one = chart(
        2,
        &[],
        vec![go(0, 1, &[1, 2], &[3], &[]), go(1, 0, &[], &[], &[])],
    );
    let expected = [
        go(0, 0, &[], &[1], &[]),
        go(0, 0, &[], &[2], &[]),
        go(0, 0, &[3], &[], &[]),
    ];
    let spelled = with_staying(&one);
    assert_eq!(spelled.transitions[2..], expected);
    // without transitions it stays whatever is offered
    let still = alone(chart(1, &[], vec![]));
    let stays = go(0, 0, &[], &[], &[]);
    assert_eq!(edition_1_of(&still).charts[0].transitions, [stays]);
}

/// A place as edition 2 has it: a spelled out transition stands for staying.
fn as_staying(chart: &Chart, place: Place) -> Place {
    match place {
        Place::Transition(number) if number >= chart.transitions.len() => Place::Stay,
        other => other,
    }
}

/// A random file of edition 2, a configuration and an input, all so small that both ways can be tried.
fn small(random: &mut Random) -> (Model, Vec<u8>, Set) {
    loop {
        let (shape, model) = any(random, 5);
        let model = model.under(Edition::Second);
        let at = configuration(random, &model);
        let spelled = edition_1_of(&model);
        if most_choices(&spelled, &at) <= 3_000 {
            return (model, at, input(random, &shape));
        }
    }
}

/// All permitted choices, with what they lead to, by trying each.
fn permitted(model: &Model, at: &[u8], input: Set) -> Vec<(Vec<Place>, Outcome)> {
    let situation = Situation::new(model, at, input);
    let mut found = Vec::new();
    situation.each_open_choice(&mut |choice| {
        let outcome = situation.permitted(choice);
        found.extend(outcome.map(|outcome| (choice.to_vec(), outcome)));
    });
    found
}

/// The choices that edition 1 permits with staying spelled out, as edition 2 has them: in its order,
/// and each once, since a chart may have several reasons to stay.
fn permitted_spelled_out(model: &Model, at: &[u8], input: Set) -> Vec<(Vec<Place>, Outcome)> {
    let mut found = permitted(&edition_1_of(model), at, input);
    for (choice, _) in &mut found {
        for (place, chart) in choice.iter_mut().zip(&model.charts) {
            *place = as_staying(chart, *place);
        }
    }
    found.sort_by(|one, other| one.0.cmp(&other.0));
    found.dedup();
    found
}

/// Edition 2 permits what edition 1 does with staying spelled out, and leads to the same.
#[test]
fn staying_is_what_spelled_out_transitions_do() {
    let mut random = Random::new(13);
    let (mut given, mut refused, mut stayed, mut doubtful) = (0, 0, 0, 0);
    let (mut nested, mut hiding, mut busy_slaves) = (0, 0, 0);
    for _ in 0..4_000 {
        let (model, at, input) = small(&mut random);
        let found = permitted(&model, &at, input);
        let expected = permitted_spelled_out(&model, &at, input);
        assert_eq!(found, expected, "{model:?} {at:?} {input:x?}");
        let Ok(verdict) = step_model(&model, &at, input) else {
            assert!(expected.is_empty());
            refused += 1;
            continue;
        };
        assert_eq!(
            (&verdict.choice, &verdict.outcome),
            (&found[0].0, &found[0].1)
        );
        assert_eq!(verdict.mark, found.iter().all(|one| one.1 == found[0].1));
        given += 1;
        doubtful += usize::from(!verdict.mark);
        let stays = verdict.choice.contains(&Place::Stay);
        stayed += usize::from(stays);
        nested += usize::from(stays && is_nested(&model));
        hiding += usize::from(stays && hides_inside(&model));
        busy_slaves += usize::from(has_busy_slave(&model, &verdict.choice));
    }
    assert!(
        given > 2_000 && refused > 50 && stayed > 1_000,
        "{given} {refused} {stayed}"
    );
    assert!(doubtful > 200, "{doubtful}");
    assert!(nested > 50 && hiding > 30, "{nested} {hiding}");
    assert!(busy_slaves > 50, "{busy_slaves}");
}

/// Whether a master stays while a chart in one of its slaves takes a transition.
fn has_busy_slave(model: &Model, choice: &[Place]) -> bool {
    model.slaves.iter().any(|slave| {
        let mut inside = model.charts_beside_slaves(slave.node).into_iter();
        choice[usize::from(slave.chart)] == Place::Stay
            && inside.any(|c| matches!(choice[usize::from(c)], Place::Transition(_)))
    })
}

/// What edition 1 permits edition 2 permits too: a step that edition 1 gives is given, by the same
/// choice or an earlier one, and its mark can only be lost.
#[test]
fn what_edition_1_gives_edition_2_gives() {
    let mut random = Random::new(14);
    let (mut given, mut lost_mark) = (0, 0);
    for _ in 0..6_000 {
        let (model, at, input) = small(&mut random);
        let first = step_model(&model.clone().under(Edition::First), &at, input);
        let Ok(first) = first else { continue };
        let second = step_model(&model, &at, input).expect("a step");
        given += 1;
        lost_mark += usize::from(first.mark && !second.mark);
        assert!(!second.mark || second.outcome == first.outcome);
        assert!(second.choice <= first.choice);
    }
    assert!(given > 300 && lost_mark > 20, "{given} {lost_mark}");
}

/// The places of a step as bytes: 254 for staying, and 255 past the last chart.
#[test]
fn places_as_bytes() {
    let file = alone(chart(1, &[], vec![])).under(Edition::Second).file();
    let stepped = step(&file, &[0], Set::EMPTY, &mut [0]);
    assert_eq!((STAYED, NO_PLACE), (254, 255));
    assert_eq!(stepped.places[0], 254);
    assert_eq!(stepped.places[1..], [255; CHARTS - 1]);
}
