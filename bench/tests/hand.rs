//! The engine written by hand answers as the reference does, so that its times can be compared.

use bench::family::{bad, counted, hard_staying, many, worst, Subject};
use bench::hand;
use bench::worst::{climbed, drawn, guards, Field};
use reference::command::{Command, Numbers, Op, FILL};
use reference::draw::Draw;
use reference::model::Edition;
use reference::Set;

/// What a call tells: refusal, numbers, and the buffer.
type Told = (u8, Numbers, Vec<u8>);

/// The call in the reference.
fn expected(command: &Command) -> Told {
    let mut lent = vec![FILL; command.room];
    let (refusal, numbers) = command.call(&mut lent);
    (refusal, numbers, lent)
}

/// The call by hand.
fn by_hand(command: &Command) -> Told {
    let mut lent = vec![FILL; command.room];
    let (file, at) = (&command.file, &command.configuration);
    let inputs: Vec<u64> = command.inputs.iter().map(|set| set.0).collect();
    let (refusal, numbers) = match command.op {
        Op::Step | Op::Open => {
            let stepped = hand::step(file, at, inputs[0], &mut lent);
            let numbers = Numbers {
                two: [stepped.output, u64::from(stepped.mark)],
                places: stepped.places,
                open: stepped.open,
            };
            (stepped.refusal, numbers)
        }
        Op::Run => {
            let (refusal, carried) = hand::run(file, at, command.carried.0, &inputs, &mut lent);
            (refusal, Numbers::two(carried, 0))
        }
        Op::Rewrite => {
            let (refusal, length) = hand::rewrite(file, &mut lent);
            (refusal, Numbers::two(length as u64, 0))
        }
        _ => (hand::check(file), Numbers::NONE),
    };
    (refusal, numbers, lent)
}

#[test]
fn the_engine_by_hand_agrees_with_the_reference() {
    let mut draw = Draw::new(7);
    for place in 0..20_000 {
        let mut command = draw.command(&place.to_string());
        match command.op {
            Op::Step | Op::Open | Op::Run | Op::Rewrite => {}
            // its file is a text
            Op::Read => continue,
            // what is not written by hand is compared in its check
            _ => command.op = Op::Check,
        }
        assert_eq!(by_hand(&command), expected(&command), "{command:?}");
    }
}

/// Compares a step with the reference's, and says whether a chart stayed.
fn compare_step(subject: &Subject) -> bool {
    let (mut one, mut other) = ([9; 16], [9; 16]);
    let (file, at) = (&subject.file, &subject.config);
    let by_hand = hand::step(file, at, subject.input, &mut one);
    let expected = reference::step(file, at, Set(subject.input), &mut other);
    assert_eq!((by_hand.refusal, one), (expected.refusal, other));
    assert_eq!(
        (by_hand.output, by_hand.mark),
        (expected.output.0, expected.mark)
    );
    assert_eq!(by_hand.places, expected.places);
    assert_eq!(by_hand.open, expected.open);
    by_hand.places.contains(&hand::STAYED)
}

/// The hard files of edition 2 with two transitions from a state.
#[test]
fn hard_steps_of_edition_2_by_hand_agree_with_the_reference() {
    let stayed = hard_staying(2).iter().filter(|s| compare_step(s)).count();
    assert!(stayed > 1, "{stayed}");
}

/// Files among which worse ones are looked for: with more than 4,096 open choices, so that what nobody reads
/// is left out.
#[test]
fn drawn_steps_by_hand_agree_with_the_reference() {
    for edition in [Edition::First, Edition::Second] {
        let field = Field {
            edition,
            open: 10_000,
        };
        let drawn = (0..400).map(|seed| drawn(field, seed));
        let many: Vec<Subject> = drawn.filter(|s| s.open() > 4_096).collect();
        assert!(many.len() > 100, "{}", many.len());
        many.iter().for_each(|subject| {
            compare_step(subject);
        });
    }
}

/// What nobody reads is left out above 4,096 open choices: 8^8 of them are looked through at once.
#[test]
fn what_nobody_reads_is_left_out() {
    for (label, subject) in bad() {
        let few = if label == "two charts read" {
            1_000_000
        } else {
            1_000
        };
        assert!(guards(&subject) < few, "{label}");
    }
}

/// No step of edition 1 can have more guards looked at than the second of the worst: after k charts there are
/// at most 8^k beginnings, and at most as many as choices are open.
#[test]
fn the_worst_have_as_many_guards_as_there_can_be() {
    let open = 8_u64.pow(4);
    let most: u64 = (0..=16)
        .map(|k| 8_u64.pow(k.min(4)) * (1 + u64::from(k)))
        .sum();
    let [(_, late), (_, agreed), (_, staying)] = worst(4);
    assert_eq!([&late, &agreed, &staying].map(Subject::open), [open; 3]);
    assert_eq!(guards(&agreed), most);
    assert!(guards(&late) > most * 8 / 10);
    assert!(guards(&staying) > most);
    for (refusal, subject) in [(23, late), (0, agreed), (0, staying)] {
        compare_step(&subject);
        let stepped = hand::step(&subject.file, &subject.config, subject.input, &mut [0; 16]);
        assert_eq!((stepped.refusal, stepped.mark), (refusal, refusal == 0));
    }
}

/// Climbing leads up, and no further than is allowed.
#[test]
fn climbing_finds_harder_steps() {
    for edition in [Edition::First, Edition::Second] {
        let field = Field { edition, open: 500 };
        let climbed = climbed(field, "seed 1".to_string(), drawn(field, 1), 300);
        assert!(climbed.guards > climbed.before, "{climbed}");
        assert_eq!(guards(&climbed.subject), climbed.guards);
        assert!(climbed.subject.open() <= field.open);
        compare_step(&climbed.subject);
    }
}

/// The families of nine charts and more are what their labels say.
#[test]
fn families_have_their_open_choices() {
    let numbers = |family: &[Subject]| family.iter().map(Subject::open).collect::<Vec<u64>>();
    let expected = [1 << 16, 3_u64.pow(13) * 8, 1 << 24];
    for ((label, family), number) in many().iter().zip(expected) {
        assert_eq!(numbers(family), vec![number; family.len()], "{label}");
    }
    let expected = [0, 8_u64.pow(9), 8_u64.pow(16), 3_u64.pow(16)];
    for ((label, subject), number) in counted().iter().zip(expected) {
        assert_eq!(subject.open(), number, "{label}");
        let refusal = if number == 0 { 23 } else { 24 };
        let stepped = hand::step(&subject.file, &subject.config, subject.input, &mut [0; 16]);
        assert_eq!(
            (stepped.refusal, stepped.open),
            (refusal, number),
            "{label}"
        );
    }
    for (label, subject) in bad() {
        assert_eq!(reference::check(&subject.file), 0, "{label}");
        assert_eq!(subject.open(), 1 << 24, "{label}");
    }
}
