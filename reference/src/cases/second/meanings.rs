//! What a step of edition 2 answers, by hand, from RULES 5.7: what decides whether an active chart
//! may stay.

use crate::cases::charts::*;
use crate::cases::rows::{gives, row, rows, Result, RowAnswer};
use crate::cases::step::{hears, ring, three_composed, two_slaves};
use crate::cases::Case;
use crate::limits::{EARLIER_CHARTS, NO_PLACE, STAYED};
use crate::model::{Chart, Edition, Model, Transition};
use crate::set::Set;

/// An answer, and the places of the charts in it; none where the step is refused.
pub struct StayAnswer {
    pub row: RowAnswer,
    pub places: Vec<u8>,
}

impl StayAnswer {
    /// The call, with a buffer so many bytes longer than needed.
    pub fn case(&self, spare: usize) -> Case {
        self.row
            .case(&format!("edition-2-{}", self.row.name), spare)
    }
}

/// A step that is given.
fn given(
    name: &'static str,
    model: Model,
    at: &[u8],
    input: &[u32],
    result: Result,
    places: &[u8],
) -> StayAnswer {
    StayAnswer {
        row: row(name, model.under(Edition::Second), at, input, result),
        places: places.to_vec(),
    }
}

/// A step that is refused with 23.
fn refused(name: &'static str, model: Model, at: &[u8], input: &[u32]) -> StayAnswer {
    given(name, model, at, input, None, &[])
}

/// The thirteen charts of docs/EXAMPLES.md, section 2, with their seventeen inputs, under edition
/// 2.
///
/// L1 and P4 move by their own outputs; if they output nothing they can stay, so there is a second
/// outcome. L2 is triggered on the empty input and prevented by its own output: it can neither move
/// nor stay. Under {0}, which it bars, it stays. What lacks a signal that is not fed back stays:
/// L3, the second chart of P2, both of P3 on {1}, the slave of D4. N1 and N2 have empty guards and
/// never stay.
pub fn thirteen() -> Vec<StayAnswer> {
    let (yes, no) = (true, false);
    let answers: [(Result, &[u8]); 17] = [
        (gives(&[1], &[0], no), &[0]),
        (None, &[]),
        (gives(&[0], &[], yes), &[STAYED]),
        (gives(&[0], &[], yes), &[STAYED]),
        (gives(&[1, 1], &[1, 2], yes), &[0, 0]),
        (gives(&[1, 0], &[1], yes), &[0, STAYED]),
        (gives(&[1, 1], &[2], yes), &[0, 0]),
        (gives(&[0, 0], &[], yes), &[STAYED, STAYED]),
        (gives(&[1, 1], &[0, 1], no), &[0, 0]),
        (gives(&[0], &[1], no), &[0]),
        (gives(&[1], &[1], yes), &[0]),
        (gives(&[1, 1], &[1, 2], yes), &[0, 0]),
        (gives(&[1, 1], &[1, 2], yes), &[0, 0]),
        (gives(&[0, 0], &[], yes), &[1, NO_PLACE]),
        (gives(&[0, 1], &[4], yes), &[2, 1]),
        (gives(&[1, 1], &[1], yes), &[0, STAYED]),
        (gives(&[1, 1], &[1, 4], yes), &[0, 1]),
    ];
    let second = |(old, (result, places)): (RowAnswer, (Result, &[u8]))| StayAnswer {
        row: RowAnswer {
            model: old.model.under(Edition::Second),
            result,
            ..old
        },
        places: places.to_vec(),
    };
    rows().into_iter().zip(answers).map(second).collect()
}

/// Single points of the rule.
pub fn meanings() -> Vec<StayAnswer> {
    [
        guards(),
        hindered(),
        feedback(),
        order(),
        hiding(),
        masters(),
        triggered_masters(),
        inner(),
        chains(),
    ]
    .into_iter()
    .flatten()
    .collect()
}

/// One chart of two states, the whole.
fn single(transitions: Vec<Transition>) -> Model {
    alone(chart(2, &[], transitions))
}

/// One that goes from 0 to 1 with this guard and outputs 9.
fn guarded(needed: &[u32], barred: &[u32]) -> Model {
    single(vec![go(0, 1, needed, barred, &[9])])
}

/// It stays where its guard is not met, and moves where it is.
fn guards() -> Vec<StayAnswer> {
    let moves = || gives(&[1], &[9], true);
    let stays = || gives(&[0], &[], true);
    let extra = {
        let mut model = guarded(&[1], &[]);
        model.charts[0].extra = Set::of(&[2, 3]);
        model
    };
    // one of two transitions from the state is enough to be triggered
    let second = || single(vec![go(0, 0, &[1], &[], &[8]), go(0, 1, &[2], &[], &[9])]);
    vec![
        given(
            "stay-needs-one-of-two",
            guarded(&[1, 2], &[]),
            &[0],
            &[1],
            stays(),
            &[STAYED],
        ),
        given(
            "stay-needs-two-has-two",
            guarded(&[1, 2], &[]),
            &[0],
            &[1, 2],
            moves(),
            &[0],
        ),
        given(
            "stay-bars-one-offered",
            guarded(&[], &[1, 2]),
            &[0],
            &[2],
            stays(),
            &[STAYED],
        ),
        given(
            "stay-bars-none-offered",
            guarded(&[], &[1, 2]),
            &[0],
            &[3],
            moves(),
            &[0],
        ),
        given(
            "stay-same-needed-and-barred",
            guarded(&[1], &[1]),
            &[0],
            &[1],
            stays(),
            &[STAYED],
        ),
        given(
            "stay-same-needed-and-barred-absent",
            guarded(&[1], &[1]),
            &[0],
            &[],
            stays(),
            &[STAYED],
        ),
        given(
            "stay-signal-63-absent",
            guarded(&[63], &[]),
            &[0],
            &[31],
            stays(),
            &[STAYED],
        ),
        given(
            "stay-signal-63",
            guarded(&[63], &[]),
            &[0],
            &[63],
            moves(),
            &[0],
        ),
        given(
            "stay-signal-32-for-31",
            guarded(&[31], &[]),
            &[0],
            &[32],
            stays(),
            &[STAYED],
        ),
        given(
            "stay-extra-set-of-no-use",
            extra,
            &[0],
            &[2],
            stays(),
            &[STAYED],
        ),
        given(
            "stay-no-transition-at-all",
            single(vec![]),
            &[0],
            &[],
            stays(),
            &[STAYED],
        ),
        given(
            "stay-no-transition-at-all-any-input",
            single(vec![]),
            &[1],
            &[0, 63],
            gives(&[1], &[], true),
            &[STAYED],
        ),
        given(
            "stay-no-transition-from-here",
            guarded(&[], &[]),
            &[1],
            &[],
            gives(&[1], &[], true),
            &[STAYED],
        ),
        // the guard of a transition from another state triggers nothing
        given(
            "stay-other-state-triggered",
            whole_case(),
            &[0],
            &[1],
            stays(),
            &[STAYED],
        ),
        given("stay-none-of-two", second(), &[0], &[3], stays(), &[STAYED]),
        given("stay-second-of-two", second(), &[0], &[2], moves(), &[1]),
    ]
}

/// A transition that bars its own output: where it is triggered it prevents itself, and its chart
/// can't stay.
fn hindered() -> Vec<StayAnswer> {
    let itself = || go(0, 1, &[], &[1], &[1]);
    let and = |other: Transition| alone(chart(2, &[1], vec![itself(), other]));
    let needing = || go(0, 1, &[2], &[], &[3]);
    vec![
        refused("stay-hindered-but-triggered", and(needing()), &[0], &[]),
        given(
            "stay-hindered-other-moves",
            and(needing()),
            &[0],
            &[2],
            gives(&[1], &[3], true),
            &[1],
        ),
        given(
            "stay-hindered-not-triggered",
            and(needing()),
            &[0],
            &[1],
            gives(&[0], &[], true),
            &[STAYED],
        ),
        // without feedback it does not hear itself
        given(
            "stay-not-hindered-without-feedback",
            alone(chart(2, &[], vec![itself()])),
            &[0],
            &[],
            gives(&[1], &[1], true),
            &[0],
        ),
        // the composition feeds its output back to it: the same
        refused(
            "stay-hindered-by-the-composition",
            beside(chart(2, &[], vec![itself()]), chart(1, &[], vec![]), &[1]),
            &[0, 0],
            &[],
        ),
        // what it needs of itself is not there while it stays, and then hidden: both ways look alike
        given(
            "stay-or-move-alike",
            wrapped(
                alone(chart(1, &[0], vec![go(0, 0, &[0], &[], &[0])])),
                &[],
                &[0],
            ),
            &[0],
            &[],
            gives(&[0], &[], true),
            &[0],
        ),
    ]
}

/// A first chart that outputs 1 where 0 is offered.
fn sender() -> Chart {
    chart(2, &[], vec![go(0, 1, &[0], &[], &[1])])
}

/// The output of other charts counts in what a chart is offered, if it is fed back.
fn feedback() -> Vec<StayAnswer> {
    // triggered by 1, and prevented by its own 2
    let blocked = || chart(2, &[2], vec![go(0, 1, &[1], &[2], &[2])]);
    let barring = || chart(2, &[], vec![go(0, 1, &[], &[1], &[2])]);
    let either = || {
        let out = vec![go(0, 1, &[], &[], &[1]), go(0, 0, &[], &[], &[])];
        chart(2, &[], out)
    };
    let zeros = [0, 0, 0];
    vec![
        refused(
            "stay-forbidden-by-the-others-output",
            beside(sender(), blocked(), &[1]),
            &[0, 0],
            &[0],
        ),
        given(
            "stay-the-others-output-not-heard",
            beside(sender(), blocked(), &[]),
            &[0, 0],
            &[0],
            gives(&[1, 0], &[1], true),
            &[0, STAYED],
        ),
        given(
            "stay-both-where-nothing-is-sent",
            beside(sender(), blocked(), &[1]),
            &[0, 0],
            &[],
            gives(&[0, 0], &[], true),
            &[STAYED, STAYED],
        ),
        refused(
            "stay-forbidden-by-the-output-of-a-later-chart",
            beside(blocked(), sender(), &[1]),
            &[0, 0],
            &[0],
        ),
        // the first choice would trigger the second chart, which can't move: it is the second one
        given(
            "stay-by-the-others-second-choice",
            beside(either(), blocked(), &[1]),
            &[0, 0],
            &[],
            gives(&[0, 0], &[], true),
            &[1, STAYED],
        ),
        given(
            "stay-since-the-other-sends-what-is-barred",
            beside(sender(), barring(), &[1]),
            &[0, 0],
            &[0],
            gives(&[1, 0], &[1], true),
            &[0, STAYED],
        ),
        given(
            "stay-of-the-sender-lets-the-other-move",
            beside(sender(), barring(), &[1]),
            &[0, 0],
            &[],
            gives(&[0, 1], &[2], true),
            &[STAYED, 0],
        ),
        given(
            "stay-inside-feedback-does-not-leave",
            three_composed(&[1, 2], &[]),
            &zeros,
            &[],
            gives(&[1, 1, 0], &[1, 2], true),
            &[0, 0, STAYED],
        ),
        given(
            "stay-no-feedback-at-all",
            three_composed(&[], &[]),
            &zeros,
            &[],
            gives(&[1, 0, 0], &[1], true),
            &[0, STAYED, STAYED],
        ),
        given(
            "stay-feedback-each-where-needed",
            three_composed(&[1], &[2]),
            &zeros,
            &[],
            gives(&[1, 1, 1], &[1, 2, 3], true),
            &[0, 0, 0],
        ),
        given(
            "stay-the-middle-one-with-the-last-fed",
            three_composed(&[], &[]),
            &zeros,
            &[2],
            gives(&[1, 0, 1], &[1, 3], true),
            &[0, STAYED, 0],
        ),
    ]
}

/// Staying comes after the transitions, and chart 0's move counts first (RULES 5.8).
fn order() -> Vec<StayAnswer> {
    // each may move by its own output, unless the other does; or both stay
    let one = |own: u32, other: u32| chart(2, &[own], vec![go(0, 1, &[own], &[other], &[own])]);
    let apart = |feedback: &[u32]| beside(one(0, 1), one(1, 0), feedback);
    let swapped = Model {
        nodes: vec![leaf(1), leaf(0), composed(0, 1, &[0, 1])],
        ..apart(&[0, 1])
    };
    vec![
        given(
            "stay-comes-last-in-the-order",
            apart(&[0, 1]),
            &[0, 0],
            &[],
            gives(&[1, 0], &[0], false),
            &[0, STAYED],
        ),
        given(
            "stay-order-not-by-node",
            swapped,
            &[0, 0],
            &[],
            gives(&[1, 0], &[0], false),
            &[0, STAYED],
        ),
        given(
            "stay-both-may-move",
            apart(&[]),
            &[0, 0],
            &[],
            gives(&[1, 1], &[0, 1], false),
            &[0, 0],
        ),
        // input 0 triggers the first chart, so that it has to move
        given(
            "stay-of-the-second-alone",
            apart(&[0, 1]),
            &[0, 0],
            &[0],
            gives(&[1, 0], &[0], true),
            &[0, STAYED],
        ),
        given(
            "stay-of-the-first-alone",
            apart(&[0, 1]),
            &[0, 0],
            &[1],
            gives(&[0, 1], &[1], true),
            &[STAYED, 0],
        ),
        given(
            "stay-of-both-each-barred",
            apart(&[0, 1]),
            &[0, 0],
            &[0, 1],
            gives(&[0, 0], &[], true),
            &[STAYED, STAYED],
        ),
    ]
}

/// What a hidden node filters can't trigger what is inside; what it hides can't trigger what is
/// outside.
fn hiding() -> Vec<StayAnswer> {
    let none = || gives(&[0], &[], true);
    vec![
        given(
            "stay-trigger-filtered",
            wrapped(whole_case(), &[0], &[]),
            &[0],
            &[0],
            none(),
            &[STAYED],
        ),
        given(
            "stay-barred-signal-filtered",
            wrapped(guarded(&[], &[4]), &[4], &[]),
            &[0],
            &[4],
            gives(&[1], &[9], true),
            &[0],
        ),
        given(
            "stay-barred-signal-not-filtered",
            wrapped(guarded(&[], &[4]), &[5], &[4]),
            &[0],
            &[4],
            none(),
            &[STAYED],
        ),
        given(
            "stay-output-hidden-from-the-other",
            p1_first_hidden(&[], &[1]),
            &[0, 0],
            &[0],
            gives(&[1, 0], &[], true),
            &[0, STAYED],
        ),
        given(
            "stay-feedback-filtered",
            p1_second_hidden(&[1], &[]),
            &[0, 0],
            &[0],
            gives(&[1, 0], &[1], true),
            &[0, STAYED],
        ),
        given(
            "stay-hidden-output-of-the-last",
            p1_second_hidden(&[], &[2]),
            &[0, 0],
            &[0],
            gives(&[1, 1], &[1], true),
            &[0, 0],
        ),
        given(
            "stay-own-feedback-inside-hiding",
            wrapped(l1(), &[0], &[0]),
            &[0],
            &[0],
            gives(&[1], &[], false),
            &[0],
        ),
        refused(
            "stay-hindered-inside-hiding",
            wrapped(l2(), &[0], &[0]),
            &[0],
            &[0],
        ),
    ]
}

/// A master that leaves its state 1 on 3, with a slave there that moves on 5 and outputs 6.
fn kept(feedback: &[u32], leaving: Transition) -> Model {
    decomposed(
        chart(2, feedback, vec![leaving]),
        1,
        chart(2, &[], vec![go(0, 1, &[5], &[], &[6])]),
    )
}

/// A master that stays in its slave's state keeps the slave active (RULES 5.3); an inactive chart
/// never stays.
fn masters() -> Vec<StayAnswer> {
    let leaving = || go(1, 0, &[3], &[], &[]);
    let stuck = || chart(1, &[], vec![]);
    let still = || chart(2, &[], vec![go(0, 0, &[], &[], &[])]);
    let choosing = chart(
        2,
        &[],
        vec![go(0, 1, &[], &[], &[3]), go(0, 0, &[], &[], &[4])],
    );
    vec![
        given(
            "stay-of-a-master-slave-moves",
            kept(&[], leaving()),
            &[1, 0],
            &[5],
            gives(&[1, 1], &[6], true),
            &[STAYED, 0],
        ),
        given(
            "stay-of-master-and-slave",
            kept(&[], leaving()),
            &[1, 0],
            &[],
            gives(&[1, 0], &[], true),
            &[STAYED, STAYED],
        ),
        given(
            "stay-of-a-master-slave-inactive",
            kept(&[], leaving()),
            &[0, 0],
            &[5],
            gives(&[0, 0], &[], true),
            &[STAYED, NO_PLACE],
        ),
        given(
            "stay-of-a-slave-master-leaves",
            kept(&[], leaving()),
            &[1, 0],
            &[3],
            gives(&[0, 0], &[], true),
            &[0, STAYED],
        ),
        given(
            "stay-of-none-master-leaves-slave-moves",
            kept(&[], leaving()),
            &[1, 0],
            &[3, 5],
            gives(&[0, 1], &[6], true),
            &[0, 0],
        ),
        given(
            "stay-of-D-from-1-0",
            d(),
            &[1, 0],
            &[],
            gives(&[1, 0], &[], true),
            &[STAYED, STAYED],
        ),
        // 1 comes with the input: the slave hears it as if its master had put it out
        given(
            "stay-of-D-from-1-0-slave-moves",
            d(),
            &[1, 0],
            &[1],
            gives(&[1, 1], &[2], true),
            &[STAYED, 0],
        ),
        given(
            "stay-of-a-slave-without-transitions",
            decomposed(still(), 0, stuck()),
            &[0, 0],
            &[],
            gives(&[0, 0], &[], true),
            &[0, STAYED],
        ),
        // a slave without transitions no longer keeps its master from entering its state
        given(
            "stay-of-a-slave-where-edition-1-avoids-it",
            decomposed(choosing, 1, stuck()),
            &[0, 0],
            &[],
            gives(&[1, 0], &[3], false),
            &[0, STAYED],
        ),
        given(
            "stay-slave-inactive-without-transitions",
            decomposed(still(), 1, stuck()),
            &[0, 0],
            &[],
            gives(&[0, 0], &[], true),
            &[0, NO_PLACE],
        ),
        given(
            "stay-of-the-second-of-two-slaves",
            two_slaves(&[]),
            &[0, 0, 0],
            &[],
            gives(&[1, 1, 0], &[7], true),
            &[0, 0, STAYED],
        ),
        given(
            "stay-of-no-slave-with-feedback",
            two_slaves(&[7]),
            &[0, 0, 0],
            &[],
            gives(&[1, 1, 1], &[7, 8], true),
            &[0, 0, 0],
        ),
        given(
            "stay-second-slave-where-it-has-no-transition",
            two_slaves(&[7]),
            &[1, 0, 1],
            &[7],
            gives(&[2, 0, 1], &[], true),
            &[1, NO_PLACE, STAYED],
        ),
    ]
}

/// A master is offered what its slaves output and it feeds back. So its slave may trigger it, and
/// may be what lets it move at all.
fn triggered_masters() -> Vec<StayAnswer> {
    let by_slave = || go(1, 0, &[6], &[], &[]);
    let unless_slave = || go(1, 0, &[], &[6], &[8]);
    let blocked = || go(1, 0, &[6], &[7], &[7]);
    let hiding_slave = {
        let mut model = kept(&[6], by_slave());
        model.nodes = vec![leaf(1), hidden(0, &[], &[6]), leaf(0)];
        model.slaves[0].node = 1;
        model
    };
    vec![
        given(
            "stay-forbidden-by-the-slaves-output",
            kept(&[6], by_slave()),
            &[1, 0],
            &[5],
            gives(&[0, 1], &[6], true),
            &[0, 0],
        ),
        given(
            "stay-slaves-output-not-fed-back",
            kept(&[], by_slave()),
            &[1, 0],
            &[5],
            gives(&[1, 1], &[6], true),
            &[STAYED, 0],
        ),
        given(
            "stay-slave-waits-too",
            kept(&[6], by_slave()),
            &[1, 0],
            &[],
            gives(&[1, 0], &[], true),
            &[STAYED, STAYED],
        ),
        given(
            "stay-slaves-output-hidden",
            hiding_slave,
            &[1, 0],
            &[5],
            gives(&[1, 1], &[], true),
            &[STAYED, 0],
        ),
        // the slave's 6 triggers the master, whose own 7 prevents it
        refused(
            "stay-forbidden-by-the-slave-master-hindered",
            kept(&[6, 7], blocked()),
            &[1, 0],
            &[5],
        ),
        given(
            "stay-since-the-slave-sends-what-is-barred",
            kept(&[6], unless_slave()),
            &[1, 0],
            &[5],
            gives(&[1, 1], &[6], true),
            &[STAYED, 0],
        ),
        given(
            "stay-of-the-slave-lets-its-master-move",
            kept(&[6], unless_slave()),
            &[1, 0],
            &[],
            gives(&[0, 0], &[8], true),
            &[0, STAYED],
        ),
        // when the slave's state is entered, the slave outputs what the master needs to enter it;
        // where the master stays the slave is inactive, and nothing triggers the master
        given(
            "stay-or-enter-by-the-slaves-output",
            hears(&[]),
            &[0, 0],
            &[],
            gives(&[1, 1], &[7], false),
            &[0, 0],
        ),
        given(
            "stay-slaves-output-hidden-from-its-master",
            hears(&[7]),
            &[0, 0],
            &[],
            gives(&[0, 0], &[], true),
            &[STAYED, NO_PLACE],
        ),
    ]
}

/// Slaves inside slaves: an inner one is active where both masters stay in its state.
fn inner() -> Vec<StayAnswer> {
    let waits = || chart(2, &[], vec![]);
    let deep = || Model {
        charts: vec![
            waits(),
            waits(),
            chart(2, &[], vec![go(0, 1, &[2], &[], &[10])]),
        ],
        slaves: vec![slave(0, 1, 1), slave(1, 1, 0)],
        ..nested()
    };
    vec![
        given(
            "stay-of-two-masters-inner-moves",
            deep(),
            &[1, 1, 0],
            &[2],
            gives(&[1, 1, 1], &[10], true),
            &[STAYED, STAYED, 0],
        ),
        given(
            "stay-of-three",
            deep(),
            &[1, 1, 1],
            &[2],
            gives(&[1, 1, 1], &[], true),
            &[STAYED, STAYED, STAYED],
        ),
        given(
            "stay-inner-inactive",
            deep(),
            &[1, 0, 0],
            &[2],
            gives(&[1, 0, 0], &[], true),
            &[STAYED, STAYED, NO_PLACE],
        ),
        given(
            "stay-inner-master-inactive",
            deep(),
            &[0, 1, 0],
            &[2],
            gives(&[0, 1, 0], &[], true),
            &[STAYED, NO_PLACE, NO_PLACE],
        ),
        // every state of these charts has a transition for each case: none of them ever stays
        given(
            "stay-of-none-in-total-charts",
            nested(),
            &[1, 1, 1],
            &[],
            gives(&[1, 1, 1], &[16, 17, 18], true),
            &[3, 3, 3],
        ),
    ]
}

/// Eight charts, each waiting for the next: all move or all stay, and a gap stops them all.
fn chains() -> Vec<StayAnswer> {
    let all: Vec<u32> = (0..EARLIER_CHARTS as u32).collect();
    let broken = {
        let mut model = ring(1);
        model.charts[7].transitions[0].action = Set::EMPTY;
        model
    };
    let (zeros, ones) = ([0; EARLIER_CHARTS], [1; EARLIER_CHARTS]);
    let (moved, stayed) = ([0; EARLIER_CHARTS], [STAYED; EARLIER_CHARTS]);
    vec![
        given(
            "stay-ring-of-eight",
            ring(1),
            &zeros,
            &[],
            gives(&ones, &all, false),
            &moved,
        ),
        given(
            "stay-ring-of-eight-one-fed",
            ring(7),
            &zeros,
            &[3],
            gives(&ones, &all, true),
            &moved,
        ),
        given(
            "stay-ring-of-eight-broken",
            broken.clone(),
            &zeros,
            &[],
            gives(&zeros, &[], true),
            &stayed,
        ),
        given(
            "stay-ring-of-eight-broken-and-fed",
            broken,
            &zeros,
            &[7],
            gives(&ones, &all[..7], true),
            &moved,
        ),
    ]
}
