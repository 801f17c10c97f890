//! A posting made in the proved engine: by its own function, and through its binding for Rust.

use super::{pattern, MARGIN};
use crate::book::{Post, PostCall};
use crate::command::hex;
use crate::posting::{CaseRecord, Entry};
use crate::set::Set;
use mestecur::raw::mestecur_post;
use mestecur::{Case, Refusal};

/// A posting by the engine's own function.
pub fn raw(file: &[u8], cases: &mut [CaseRecord], entries: &[Entry], rows: &mut [u8]) -> u8 {
    made(file, cases, entries, rows, |file, cases, entries, rows| {
        // SAFETY: each pointer is that of a slice with the length beside it; what is written overlaps
        // nothing else.
        unsafe {
            mestecur_post(
                file.as_ptr(),
                file.len(),
                cases.as_mut_ptr(),
                cases.len(),
                entries.as_ptr(),
                entries.len(),
                rows.as_mut_ptr(),
                rows.len(),
            )
        }
    })
}

/// A posting through the binding.
pub fn binding(file: &[u8], cases: &mut [CaseRecord], entries: &[Entry], rows: &mut [u8]) -> u8 {
    made(file, cases, entries, rows, |file, cases, entries, rows| {
        mestecur::post(file, cases, entries, rows).map_or_else(Refusal::number, |()| 0)
    })
}

/// Makes a posting with the engine's types, among cases and bytes that it may not touch.
fn made(
    file: &[u8],
    cases: &mut [CaseRecord],
    entries: &[Entry],
    rows: &mut [u8],
    call: impl Fn(&[u8], &mut [Case], &[mestecur::Entry], &mut [u8]) -> u8,
) -> u8 {
    let day: Vec<mestecur::Entry> = entries.iter().map(entry_there).collect();
    let mut book = Lent::new(cases.iter().map(case_there).collect(), |_| spare_case());
    let mut bytes = Lent::new(rows.to_vec(), pattern);
    let refusal = call(file, book.own(), &day, bytes.own());
    assert!(book.is_kept_around(), "a case outside the book has changed");
    assert!(
        bytes.is_kept_around(),
        "a byte outside the buffer has changed"
    );
    rows.copy_from_slice(bytes.own());
    for (case, after) in cases.iter_mut().zip(book.own()) {
        *case = case_here(after);
    }
    refusal
}

/// What is lent to a call, with a margin before and after it.
struct Lent<T> {
    all: Vec<T>,
    around: fn(usize) -> T,
}

impl<T: Clone + PartialEq> Lent<T> {
    /// This list, within margins of such values.
    fn new(own: Vec<T>, around: fn(usize) -> T) -> Lent<T> {
        let mut all: Vec<T> = (0..own.len() + 2 * MARGIN).map(around).collect();
        all[MARGIN..MARGIN + own.len()].clone_from_slice(&own);
        Lent { all, around }
    }

    /// The list itself.
    fn own(&mut self) -> &mut [T] {
        let end = self.all.len() - MARGIN;
        &mut self.all[MARGIN..end]
    }

    /// Whether both margins are as they were.
    fn is_kept_around(&self) -> bool {
        let end = self.all.len() - MARGIN;
        let mut margins = (0..MARGIN).chain(end..self.all.len());
        margins.all(|place| self.all[place] == (self.around)(place))
    }
}

/// A case that is not in the book; a posting would change it.
fn spare_case() -> Case {
    Case::new(&[0]).expect("a short configuration")
}

/// A case in the engine's type.
fn case_there(case: &CaseRecord) -> Case {
    Case {
        carried: mestecur::Set(case.carried.0),
        last_row: case.last_row,
        length: case.length,
        config: case.config,
    }
}

/// A case in this engine's type.
fn case_here(case: &Case) -> CaseRecord {
    CaseRecord {
        carried: Set(case.carried.0),
        last_row: case.last_row,
        length: case.length,
        config: case.config,
    }
}

/// An entry in the engine's type.
fn entry_there(entry: &Entry) -> mestecur::Entry {
    mestecur::Entry {
        number: entry.number,
        signals: mestecur::Set(entry.signals.0),
    }
}

/// Makes one posting here, in the engine and through its binding for Rust.
pub fn compare(post: &Post) -> Result<(), String> {
    let expected = post.posted();
    for (who, call) in [
        ("engine", raw as PostCall),
        ("binding", binding as PostCall),
    ] {
        let told = post.posted_by(call);
        if told != expected {
            let lines = [post.line(&expected), format!("{who}: {}", post.line(&told))];
            let recorded = hex(&post.encode());
            return Err(format!("fuzz: {}recorded form: {recorded}", lines.concat()));
        }
    }
    Ok(())
}
