//! The search leaves out exactly the choices that are not open, none of which is permitted, and keeps
//! the order.

use reference::generate::{any, configuration, input, most_choices, Random};
use reference::model::Edition;
use reference::step::{enumerate, step_model, Outcome, Place, Situation};
use reference::walk::all_choices;

/// The permitted ones of some choices, with what they lead to.
fn permitted(situation: &Situation, choices: &[Vec<Place>]) -> Vec<(Vec<Place>, Outcome)> {
    choices
        .iter()
        .filter_map(|choice| Some((choice.clone(), situation.permitted(choice)?)))
        .collect()
}

/// A step that stops where two permitted choices disagree answers what plain enumeration answers.
#[test]
fn stopping_early_changes_no_answer() {
    let mut random = Random::new(5);
    let (mut given, mut doubtful, mut refused) = (0, 0, 0);
    while given < 1_500 {
        let (shape, model) = any(&mut random, 6);
        let model = model.under(random.pick(&[Edition::First, Edition::Second]));
        let at = configuration(&mut random, &model);
        if most_choices(&model, &at) > 2_000 {
            continue;
        }
        let input = input(&mut random, &shape);
        let plainly = enumerate(&model, &at, input);
        assert_eq!(step_model(&model, &at, input), plainly);
        given += usize::from(plainly.is_ok());
        refused += usize::from(plainly.is_err());
        doubtful += usize::from(plainly.is_ok_and(|verdict| !verdict.mark));
    }
    assert!(doubtful > 300 && refused > 300, "{doubtful} {refused}");
}

#[test]
fn open_choices_hold_all_permitted_ones_in_order() {
    let mut random = Random::new(4);
    let (mut compared, mut with_slaves, mut several, mut staying) = (0, 0, 0, 0);
    while compared < 800 {
        let (shape, model) = any(&mut random, 5);
        let places = model.charts.iter().map(|c| c.transitions.len() + 2);
        if places.product::<usize>() > 10_000 {
            continue;
        }
        let model = model.under(random.pick(&[Edition::First, Edition::Second]));
        let at = configuration(&mut random, &model);
        let situation = Situation::new(&model, &at, input(&mut random, &shape));
        let all = all_choices(&model);
        assert!(all.windows(2).all(|pair| pair[0] < pair[1]), "in order");
        let mut open = Vec::new();
        situation.each_open_choice(&mut |choice| open.push(choice.to_vec()));
        let is_open = |choice: &&Vec<Place>| situation.is_open(choice);
        assert!(open.iter().eq(all.iter().filter(is_open)), "the open ones");
        let expected = permitted(&situation, &all);
        assert_eq!(permitted(&situation, &open), expected);
        let has_stay = expected
            .iter()
            .any(|(choice, _)| choice.contains(&Place::Stay));
        assert!(model.edition == Edition::Second || !has_stay);
        compared += 1;
        with_slaves += usize::from(!model.slaves.is_empty());
        several += usize::from(expected.len() > 1);
        staying += usize::from(has_stay);
    }
    assert!(
        with_slaves > 200 && several > 100 && staying > 150,
        "{with_slaves} {several} {staying}"
    );
}
