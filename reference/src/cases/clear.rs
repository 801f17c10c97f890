//! Named cases of clearing (RULES 12).

use super::charts::*;
use super::damage::behind;
use super::file::one_fault;
use super::Case;
use crate::command::Command;
use crate::limits::*;
use crate::model::{Model, Transition};
use crate::set::Set;

/// All named cases of clearing.
pub fn cases() -> Vec<Case> {
    let given = known().into_iter().map(|known| known.case());
    given.chain(rooms()).chain(files()).collect()
}

/// A file, and how many of its transitions are dead, by hand.
pub struct Known {
    pub name: &'static str,
    pub model: Model,
    pub dead: usize,
}

impl Known {
    /// The length of the cleared file: it lacks the records of the dead transitions.
    pub fn length(&self) -> usize {
        self.model.file().len() - self.dead * TRANSITION_BYTES
    }

    /// The clearing, in a buffer that is three bytes longer than needed.
    fn case(&self) -> Case {
        let command = Command::clear(self.name, self.model.file(), self.length() + 3);
        Case::new(command, refusal::SUCCESS)
    }
}

/// A file with so many dead transitions.
fn has(name: &'static str, dead: usize, model: Model) -> Known {
    Known { name, model, dead }
}

/// A transition that needs and bars a signal.
fn both(signal: u32) -> Transition {
    go(0, 0, &[signal], &[signal], &[])
}

/// All files that are cleared, with the number of their dead transitions.
pub fn known() -> Vec<Known> {
    [alive(), dead(), feedback(), extra_sets(), trees(), many()]
        .into_iter()
        .flatten()
        .collect()
}

/// Nothing is dead: the file is written as it is.
fn alive() -> Vec<Known> {
    vec![
        has("clear-none", 0, whole_case()),
        has("clear-none-L1", 0, l1()),
        has("clear-none-P4", 0, p4()),
        has("clear-none-D", 0, d()),
        has("clear-none-hidden", 0, d_hidden()),
        has("clear-no-transitions", 0, alone(spread(3, 0))),
        // needs what it outputs, and bars what another transition outputs
        has(
            "clear-none-other-outputs",
            0,
            alone(chart(
                2,
                &[0, 1],
                vec![go(0, 1, &[0], &[1], &[0]), go(0, 1, &[], &[0], &[1])],
            )),
        ),
        has("clear-none-fullest", 0, full_charts(EARLIER_CHARTS)),
    ]
}

/// Each rule alone, both, and the place of a dead transition in its list.
fn dead() -> Vec<Known> {
    let one = |transition: Transition| alone(chart(2, &[5], vec![transition]));
    let among = |place: usize| {
        let mut list: Vec<Transition> = (0..3).map(|n| go(0, 1, &[n], &[], &[n + 8])).collect();
        list.insert(place, both(3));
        alone(chart(2, &[], list))
    };
    vec![
        has("clear-needs-and-bars", 1, one(go(0, 1, &[3], &[3], &[]))),
        has(
            "clear-one-of-several",
            1,
            one(go(0, 1, &[2, 3], &[3, 4], &[])),
        ),
        has("clear-signal-63", 1, one(go(0, 1, &[63], &[63], &[]))),
        has("clear-bars-own-output", 1, one(go(0, 1, &[], &[5], &[5]))),
        has("clear-L2", 1, l2()),
        has("clear-both-rules", 1, one(go(0, 1, &[5], &[5], &[5]))),
        has(
            "clear-both-rules-by-two-signals",
            1,
            one(go(0, 1, &[3], &[3, 5], &[5])),
        ),
        has("clear-first", 1, among(0)),
        has("clear-second", 1, among(1)),
        has("clear-last", 1, among(3)),
        has(
            "clear-twice-the-same",
            2,
            alone(chart(1, &[], vec![both(1); 2])),
        ),
        // the other one of two that differ in one signal
        has(
            "clear-one-of-two",
            1,
            alone(chart(
                2,
                &[],
                vec![go(0, 1, &[1], &[2], &[]), go(0, 1, &[1], &[1], &[])],
            )),
        ),
    ]
}

/// Only the feedback of the transition's own chart counts, and only what the transition outputs.
fn feedback() -> Vec<Known> {
    let bars_own = || go(0, 0, &[], &[1], &[1]);
    let feeding = |feedback: &[u32]| chart(1, feedback, vec![bars_own()]);
    vec![
        has("clear-not-fed-back", 0, alone(feeding(&[]))),
        has("clear-other-fed-back", 0, alone(feeding(&[0, 2]))),
        has(
            "clear-fed-back-by-a-node",
            0,
            beside(feeding(&[]), ticking(2), &[1]),
        ),
        has(
            "clear-fed-back-by-another-chart",
            0,
            beside(feeding(&[]), feeding(&[2]), &[]),
        ),
        has(
            "clear-one-of-two-charts",
            1,
            beside(feeding(&[]), feeding(&[1]), &[1]),
        ),
        has(
            "clear-fed-back-by-the-master",
            0,
            decomposed(
                chart(2, &[1], vec![go(0, 1, &[], &[], &[])]),
                1,
                feeding(&[]),
            ),
        ),
        has(
            "clear-master",
            1,
            decomposed(feeding(&[1]), 0, feeding(&[])),
        ),
        has("clear-barred-and-fed-back-not-output", 0, {
            alone(chart(1, &[1], vec![go(0, 0, &[], &[1], &[2])]))
        }),
        has("clear-needed-and-fed-back", 0, l1()),
        has("clear-hidden", 1, wrapped(alone(feeding(&[1])), &[1], &[1])),
    ]
}

/// Signals that leave the guards join the extra set; those that stay in one do not.
fn extra_sets() -> Vec<Known> {
    let list = |others: Vec<Transition>| chart(2, &[6], [vec![both(3)], others].concat());
    let with_extra = |extra: &[u32]| {
        let mut model = alone(list(vec![go(0, 1, &[1], &[], &[])]));
        model.charts[0].extra = Set::of(extra);
        model
    };
    vec![
        has("clear-guard-lost", 1, alone(list(vec![]))),
        has(
            "clear-guard-needed-elsewhere",
            1,
            alone(list(vec![go(0, 1, &[3], &[], &[])])),
        ),
        has(
            "clear-guard-barred-elsewhere",
            1,
            alone(list(vec![go(1, 1, &[], &[3], &[])])),
        ),
        has(
            "clear-guard-only-output-elsewhere",
            1,
            alone(list(vec![go(0, 1, &[], &[], &[3])])),
        ),
        has("clear-guard-in-another-chart", 1, {
            beside(
                list(vec![]),
                chart(1, &[], vec![go(0, 0, &[3], &[], &[])]),
                &[],
            )
        }),
        has(
            "clear-guard-in-another-dead-one",
            2,
            alone(list(vec![go(0, 1, &[3], &[3, 4], &[])])),
        ),
        has("clear-guard-in-the-extra-set", 1, with_extra(&[3])),
        has("clear-other-extra-set", 1, with_extra(&[60, 61])),
        has("clear-part-of-a-guard-lost", 1, {
            let dead = go(0, 0, &[1, 2, 3], &[3, 4], &[7]);
            alone(chart(2, &[], vec![dead, go(0, 1, &[2], &[4], &[])]))
        }),
        // its output interface shrinks
        has("clear-output-lost", 1, {
            alone(chart(
                1,
                &[],
                vec![go(0, 0, &[3], &[3], &[9]), go(0, 0, &[], &[], &[8])],
            ))
        }),
    ]
}

/// Slaves and nodes stay as they are, whatever is dead below them.
fn trees() -> Vec<Known> {
    let deadened = |charts: &[usize]| {
        let mut model = nested();
        for &chart in charts {
            model.charts[chart].transitions.insert(1, both(7));
        }
        model
    };
    let all_of = |number: usize| {
        let mut model = nested();
        model.charts[number].transitions = vec![both(7); 3];
        model
    };
    vec![
        has("clear-nested-outermost", 1, deadened(&[0])),
        has("clear-nested-middle", 1, deadened(&[1])),
        has("clear-nested-innermost", 1, deadened(&[2])),
        has("clear-nested-all", 3, deadened(&[0, 1, 2])),
        has("clear-all-of-the-master", 3, all_of(0)),
        has("clear-all-of-the-middle", 3, all_of(1)),
        has("clear-all-of-the-innermost", 3, all_of(2)),
        has("clear-slave-of-each-state", 2, {
            let mut model = master_of(7);
            model.charts[0].transitions.push(both(40));
            model.charts[7].transitions.push(both(41));
            model
        }),
    ]
}

/// All of a chart's transitions dead, and as many as there can be.
fn many() -> Vec<Known> {
    let every_dead = |count: usize| {
        let mut full = spread(STATES as u8, count);
        for transition in &mut full.transitions {
            (transition.needed, transition.barred) = (Set::one(20), Set::one(20));
        }
        full
    };
    let full = || every_dead(CHART_TRANSITIONS);
    vec![
        has("clear-all-of-a-chart", 3, alone(every_dead(3))),
        has(
            "clear-all-of-one-of-two",
            5,
            beside(every_dead(5), ticking(1), &[1]),
        ),
        has("clear-64-of-a-chart", 64, alone(full())),
        has(
            "clear-512-of-eight-charts",
            512,
            row_of_charts(vec![full(); EARLIER_CHARTS]),
        ),
        has("clear-every-second", 32, {
            let mut chart = spread(STATES as u8, CHART_TRANSITIONS);
            for transition in chart.transitions.iter_mut().step_by(2) {
                transition.barred = Set::one(20);
                transition.needed = Set::of(&[20, 21]);
            }
            alone(chart)
        }),
    ]
}

/// 45: a buffer that is too short for the cleared file. The old file's length is enough.
fn rooms() -> Vec<Case> {
    let known = has(
        "",
        2,
        beside(spread(1, 1), chart(1, &[], vec![both(1); 2]), &[1]),
    );
    let (old, new) = (known.model.file(), known.length());
    [
        ("empty", 0, refusal::REWRITING_ROOM),
        ("trailer", TRAILER_BYTES, refusal::REWRITING_ROOM),
        ("one-short", new - 1, refusal::REWRITING_ROOM),
        ("exact", new, refusal::SUCCESS),
        ("one-longer", new + 1, refusal::SUCCESS),
        ("of-the-old-file", old.len(), refusal::SUCCESS),
    ]
    .map(|(word, room, refusal)| {
        let name = format!("clear-room-{word}");
        Case::new(Command::clear(&name, old.clone(), room), refusal)
    })
    .into()
}

/// Refused files, and a front, which is not copied.
fn files() -> Vec<Case> {
    let case = |name: &str, file: Vec<u8>, room: usize, number: u8| {
        Case::new(Command::clear(name, file, room), number)
    };
    let exact = d().file().len();
    let fronted = behind(&[0x77; 29], d().file());
    let mut cases = vec![
        case(
            "clear-behind-front",
            fronted.clone(),
            exact + 2,
            refusal::SUCCESS,
        ),
        case(
            "clear-behind-front-exact",
            fronted.clone(),
            exact,
            refusal::SUCCESS,
        ),
        case(
            "clear-behind-front-short",
            fronted,
            exact - 1,
            refusal::REWRITING_ROOM,
        ),
        case(
            "clear-dead-behind-front",
            behind(&[1; 5], l2().file()),
            90,
            refusal::SUCCESS,
        ),
    ];
    for (number, file) in one_fault() {
        let name = format!("clear-file-refused-{number}");
        cases.push(case(&name, file, 6, number));
    }
    cases
}
