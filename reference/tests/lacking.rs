//! What a transition lacks: the answers written by hand, the order of the refusals, and that an
//! answer tells what a step does.

use reference::cases::charts::{alone, chart, go};
use reference::cases::lacking::answers;
use reference::command::Command;
use reference::draw::Draw;
use reference::{lacking, step, Set, Shown};

fn ask(command: &Command) -> Result<Shown, u8> {
    let [chart, place, offered] = command.inputs[..] else {
        panic!("{} has no three inputs", command.name)
    };
    lacking(&command.file, chart.0, place.0, offered)
}

#[test]
fn answers_are_those_written_by_hand() {
    for known in answers() {
        let name = &known.command.name;
        assert_eq!(ask(&known.command), Ok(known.shown), "{name}");
    }
}

#[test]
fn an_answer_in_words() {
    assert_eq!(Shown::Met.words(), "met");
    assert_eq!(Shown::Absent(3).words(), "needs s3, which is not offered");
    assert_eq!(Shown::Present(4).words(), "bars s4, which is offered");
}

/// A single chart with a single transition steps exactly if nothing is lacking.
#[test]
fn a_step_of_one_transition_is_given_exactly_if_it_is_met() {
    let mut draw = Draw::new(7);
    let mut met = 0;
    for place in 0..2_000 {
        let bits = draw.command(&place.to_string()).inputs;
        let [needed, barred, offered] =
            [0, 1, 2].map(|k| bits.get(k).map_or(k as u64, |set| set.0 % 8));
        let mut only = go(0, 0, &[], &[], &[1]);
        (only.needed, only.barred) = (Set(needed), Set(barred));
        let file = alone(chart(1, &[1], vec![only])).file();
        let shown = lacking(&file, 0, 0, Set(offered)).unwrap();
        let stepped = step(&file, &[0], Set(offered), &mut [0]);
        assert_eq!(shown == Shown::Met, stepped.refusal == 0);
        met += u32::from(shown == Shown::Met);
    }
    assert!(met > 100, "{met}");
}
