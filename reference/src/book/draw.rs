//! Random postings, the same for the same seed: books of any size, with right and wrong records, and
//! days with entries in any order.

use super::Post;
use crate::generate::{
    bounded, configuration, input, room, seldom_damaged, tried, wrong_configuration, Files, Random,
    Shape, Size,
};
use crate::limits::*;
use crate::model::Model;
use crate::posting::{CaseRecord, Entry};
use crate::set::Set;
use crate::walk::from_any_state;

/// The most choices of all steps of a posting together.
const CHOICES: usize = 5_000;
/// Numbers of cases, those at the limits among them.
const BOOKS: [usize; 16] = [1, 1, 1, 2, 2, 2, 3, 3, 4, 5, 7, 0, 63, 64, 65, 70];
/// Numbers of last rows, those at a byte's end and at the limit among them.
const LAST_ROWS: [u32; 8] = [0, 1, 11, 255, 65_535, 16_777_215, 999_999, LAST_ROW - 1];
/// Numbers of cases that no book has, those among them that lose their high bytes to be one of it.
const NO_CASES: [u64; 6] = [64, 256, 65_536, 1 << 32, 1 << 63, u64::MAX];

/// One random posting with a file.
pub fn post(random: &mut Random, files: Files, name: &str) -> Post {
    let count = random.pick(&BOOKS);
    let bytes = random.pick(&[300, 500, 800]);
    let (shape, model, mut cases) = loop {
        let (shape, model) = bounded(random, files, bytes);
        if files.size == Size::Small && from_any_state(&model) * count > CHOICES {
            continue;
        }
        let cases: Vec<CaseRecord> = (0..count).map(|_| case(random, &shape, &model)).collect();
        let choices = cases.iter().map(|c| tried(&model, &c.configuration()));
        if choices.sum::<u64>() <= CHOICES as u64 {
            break (shape, model, cases);
        }
    };
    if random.chance(25) {
        spoil_cases(random, &model, &mut cases);
    }
    let entries = entries(random, &shape, count);
    let needed = count * (POSTED_HEAD_BYTES + model.charts.len());
    Post {
        name: name.to_string(),
        file: seldom_damaged(random, &model, 8),
        cases,
        entries,
        room: room(random, needed),
    }
}

/// A record with this configuration at the front of some bytes, as far as it has room, and nothing
/// carried.
pub fn record(random: &mut Random, configuration: &[u8]) -> CaseRecord {
    let mut config = [0; CASE_CONFIGURATION].map(|_| random.bits() as u8);
    for (byte, &state) in config.iter_mut().zip(configuration) {
        *byte = state;
    }
    CaseRecord {
        carried: Set::EMPTY,
        last_row: random.pick(&LAST_ROWS),
        length: configuration.len() as u8,
        config,
    }
}

/// A case in order; it may carry something.
fn case(random: &mut Random, shape: &Shape, model: &Model) -> CaseRecord {
    let at = configuration(random, model);
    let mut case = record(random, &at);
    if random.chance(50) {
        case.carried = input(random, shape);
    }
    case
}

/// Makes one or two records wrong.
fn spoil_cases(random: &mut Random, model: &Model, cases: &mut [CaseRecord]) {
    if cases.is_empty() {
        return;
    }
    for _ in 0..random.between(1, 2) {
        let place = random.below(cases.len());
        let spoiled = wrong_configuration(random, model);
        match random.below(4) {
            0 => cases[place].last_row = LAST_ROW,
            1 => cases[place].length = random.pick(&[0, 15, 16, 17, 255]),
            _ => {
                let carried = cases[place].carried;
                cases[place] = record(random, &spoiled);
                cases[place].carried = carried;
            }
        }
    }
}

/// A day's entries, in any order; seldom one for a case that is not in the book.
fn entries(random: &mut Random, shape: &Shape, cases: usize) -> Vec<Entry> {
    let count = random.pick(&[0, 1, 2, 3, 8, 40]);
    let wrong = random.chance(10).then(|| random.below(count + 1));
    let entry = |place: usize| Entry {
        number: match (cases, Some(place) == wrong) {
            (0, _) | (_, true) => random.pick(&[&NO_CASES[..], &[cases as u64]].concat()),
            _ => random.below(cases) as u64,
        },
        signals: input(random, shape),
    };
    (0..count).map(entry).collect()
}
