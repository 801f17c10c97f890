//! Checks and rewritings of a file.

use crate::compare::{part, row_of, Calls, Part};
use crate::family::{self, Subject};
use crate::hand;
use std::hint::black_box;

/// Both of them.
pub fn files() -> Part {
    let check = |label: &str, family: &[Subject]| row_of(label, family, check_calls);
    let rewriting = |label: &str, family: &[Subject]| row_of(label, family, rewrite_calls);
    part(
        "files",
        "a file",
        vec![
            check("check, everyday charts (1 to 4)", &family::everyday()),
            check("check, 8 charts, 128 transitions", &family::hard()),
            check("check, 64 nodes", &[family::nodes(0, 64)]),
            rewriting(
                "rewriting, everyday charts with slaves",
                &family::everyday_with_slaves(),
            ),
            rewriting("rewriting, 8 charts without slaves", &family::hard()),
        ],
    )
}

/// The three checks of a file.
fn check_calls(subject: &Subject) -> Calls<'_> {
    let file = &subject.file[..];
    assert_eq!(mestecur::check(file), Ok(()));
    assert_eq!((hand::check(file), reference::check(file)), (0, 0));
    Calls {
        engine: Box::new(move || {
            let _ = black_box(mestecur::check(black_box(file)));
        }),
        hand: Box::new(move || {
            black_box(hand::check(black_box(file)));
        }),
        reference: Some(Box::new(move || {
            black_box(reference::check(black_box(file)));
        })),
    }
}

/// The three rewritings of a file.
fn rewrite_calls(subject: &Subject) -> Calls<'_> {
    let file = &subject.file[..];
    let room = 2 * file.len() + 4_000;
    let (mut one, mut other, mut third) = (vec![0; room], vec![0; room], vec![0; room]);
    let (refusal, length) = hand::rewrite(file, &mut other);
    assert_eq!(
        (refusal, mestecur::rewrite(file, &mut one)),
        (0, Ok(length))
    );
    assert_eq!(reference::rewrite(file, &mut third).length, length);
    assert_eq!((&one, &other), (&third, &third));
    Calls {
        engine: Box::new(move || {
            let _ = black_box(mestecur::rewrite(black_box(file), &mut one));
        }),
        hand: Box::new(move || {
            black_box(hand::rewrite(black_box(file), &mut other));
        }),
        reference: Some(Box::new(move || {
            black_box(reference::rewrite(black_box(file), &mut third));
        })),
    }
}
