//! Which files are plain, and that a plain file's step has mark yes or is refused with 23
//! (RULES 8).

use reference::cases::charts::d;
use reference::cases::file::one_fault;
use reference::cases::plain::answers;
use reference::check::accept;
use reference::generate::{any, divided, input, most_choices, Random, Shape};
use reference::limits::{refusal, CHARTS};
use reference::model::{Edition, Model, Node};
use reference::plain::{feedback_sets, is_plain, pairs_from_one_state};
use reference::step::{Outcome, Situation};
use reference::walk::{configurations, hides_inside, inputs, is_nested};
use reference::{plain, rewrite, step, Plain, Set};

#[test]
fn answers_written_by_hand() {
    for known in answers() {
        let found = plain(&known.file);
        assert_eq!(found.refusal, refusal::SUCCESS, "{}", known.name);
        assert_eq!(found.plain, known.plain, "{}", known.name);
    }
}

#[test]
fn a_refused_file_is_not_plain() {
    let faults = one_fault();
    assert_eq!(faults.len(), 11);
    for (refusal, file) in faults {
        let plain = false;
        assert_eq!(reference::plain(&file), Plain { refusal, plain });
    }
}

/// However its transitions are told apart.
#[test]
fn a_file_of_edition_2_is_not_plain_and_not_refused() {
    let files = answers().into_iter().map(|known| known.file);
    for model in files.map(|file| accept(&file).unwrap()) {
        let file = model.under(Edition::Second).file();
        let (refusal, plain) = (refusal::SUCCESS, false);
        assert_eq!(reference::plain(&file), Plain { refusal, plain });
    }
}

/// A source of random files of at most so many charts.
type Source = fn(&mut Random, usize) -> (Shape, Model);

/// A random file of a source with two transitions from one state, few configurations and few choices
/// from each.
fn small(random: &mut Random, draw: Source, which: fn(&Model) -> bool) -> (Shape, Model) {
    loop {
        let (shape, model) = draw(random, 5);
        let states = model.charts.iter().map(|c| usize::from(c.states));
        let has_pair = |c| !pairs_from_one_state(c).is_empty();
        if states.product::<usize>() <= 81
            && model.charts.iter().any(has_pair)
            && configurations(&model)
                .iter()
                .all(|at| most_choices(&model, at) <= 200)
            && which(&model)
        {
            return (shape, model);
        }
    }
}

/// The inputs of a walk, and more random ones.
fn many_inputs(random: &mut Random, shape: &Shape, model: &Model) -> Vec<Set> {
    let more: Vec<Set> = (0..10).map(|_| input(random, shape)).collect();
    [inputs(random, shape, model), more].concat()
}

/// What the permitted choices from a configuration under an input lead to, by trying each.
fn outcomes(model: &Model, at: &[u8], input: Set) -> Vec<Outcome> {
    let situation = Situation::new(model, at, input);
    let mut outcomes = Vec::new();
    situation.each_open_choice(&mut |choice| outcomes.extend(situation.permitted(choice)));
    outcomes
}

/// Whether a file feeds something back.
fn feeds_back(model: &Model) -> bool {
    feedback_sets(model).iter().any(|&set| set != Set::EMPTY)
}

/// Whether a file filters or hides something.
fn hides(model: &Model) -> bool {
    let is_hidden = |node: &Node| matches!(node, Node::Hidden { .. });
    model.nodes.iter().any(is_hidden)
}

#[test]
fn a_plain_file_steps_with_mark_yes_or_is_refused_with_23() {
    let mut random = Random::new(9);
    let (mut given, mut refused) = (0, 0);
    let mut files = Vec::new();
    let sources: [Source; 2] = [divided, any];
    for draw in sources.repeat(300) {
        let (shape, model) = small(&mut random, draw, is_plain);
        let file = model.file();
        for at in configurations(&model) {
            for input in many_inputs(&mut random, &shape, &model) {
                let stepped = step(&file, &at, input, &mut [0; CHARTS]);
                match stepped.refusal {
                    refusal::SUCCESS => given += 1,
                    number => {
                        assert_eq!(number, refusal::NO_STEP);
                        refused += 1;
                    }
                }
                let is_given = stepped.refusal == refusal::SUCCESS;
                assert_eq!(stepped.mark, is_given, "{model:?} {at:?} {input:x?}");
                // what makes it so: no two choices are permitted
                let permitted = outcomes(&model, &at, input).len();
                assert_eq!(permitted, usize::from(is_given), "{model:?} {at:?}");
            }
        }
        files.push(model);
    }
    let count = |which: fn(&Model) -> bool| files.iter().filter(|model| which(model)).count();
    assert!(given > 10_000 && refused > 10_000, "{given} {refused}");
    assert!(count(feeds_back) > 200, "feedback");
    assert!(count(|model| !model.slaves.is_empty()) > 100, "slaves");
    assert!(count(is_nested) > 20, "slaves inside slaves");
    assert!(count(hides) > 50, "hiding");
    assert!(count(hides_inside) > 10, "hiding in slaves");
}

/// The same walk over files that are not plain meets marks of no: it can tell.
#[test]
fn other_files_step_with_mark_no_too() {
    let mut random = Random::new(10);
    let not_plain = |model: &Model| !is_plain(model);
    let (mut doubtful, mut files) = (0, 0);
    for _ in 0..100 {
        let (shape, model) = small(&mut random, any, not_plain);
        let file = model.file();
        let before = doubtful;
        for at in configurations(&model) {
            for input in many_inputs(&mut random, &shape, &model) {
                let stepped = step(&file, &at, input, &mut [0; CHARTS]);
                doubtful += usize::from(stepped.refusal == refusal::SUCCESS && !stepped.mark);
            }
        }
        files += usize::from(doubtful > before);
    }
    assert!(doubtful > 1_000 && files > 40, "{doubtful} {files}");
}

/// D is plain. Rewritten it is not: only the call signal tells an idle transition apart from an own
/// one, and the call signal is fed back. Its marks are still yes.
#[test]
fn the_rewriting_of_a_plain_file_need_not_be_plain() {
    let mut out = vec![0; 1_000];
    let length = rewrite(&d().file(), &mut out).length;
    let new = accept(&out[..length]).unwrap();
    assert!(is_plain(&d()) && !is_plain(&new));
    for at in configurations(&new) {
        for bits in 0..64 {
            let found = outcomes(&new, &at, Set(bits));
            assert!(found.windows(2).all(|two| two[0] == two[1]));
        }
    }
}
