//! The proved engine compared with this one: random calls are made in both, and what each tells is
//! compared, refusal, answers and every byte of the buffer.

pub mod engine;
pub mod post;
pub mod same;

use crate::cases::charts::{longest, whole_case};
use crate::cases::run::rows_bytes;
use crate::command::{hex, Call, Command, Numbers, Op};
use crate::draw::Draw;
use crate::generate::Random;
use crate::limits::*;
use crate::notation::write::written;
use crate::Set;

// The limits that the binding has under its own names are those of RULES.
const _: () = {
    assert!(mestecur::CHARTS == CHARTS);
    assert!(mestecur::OPEN_CHOICES == OPEN_CHOICES);
    assert!(mestecur::CASES == CASES);
    assert!(mestecur::CONFIGURATION == CASE_CONFIGURATION);
    assert!(mestecur::FILE_BYTES == FILE_ROOM);
    assert!(mestecur::TEXT_BYTES == TEXT_ROOM);
};

/// The bytes around a buffer, before it and after it; the engine may not touch them.
const MARGIN: usize = 21;

/// What a call tells: its refusal, the numbers that it answers, and all bytes of the buffer and
/// around it.
#[derive(Clone, PartialEq, Eq, Debug)]
pub struct Told {
    pub refusal: u8,
    pub numbers: Numbers,
    pub bytes: Vec<u8>,
}

/// After how many random calls there is a posting.
const POSTS: usize = 10;

/// The inputs of a run that is longer than the day program's can be.
const LONG_RUN: usize = 8_189;

/// How many brackets and transitions the long texts have.
const BRACKETS: usize = 250_000;
const TYPED_TRANSITIONS: usize = 65_536;

/// Makes a long run, reads long texts, writes and reads the longest file, and makes so many random calls and
/// postings in both engines; the first one that differs, in words. Gives the number of postings.
pub fn agree(seed: u64, count: usize) -> Result<usize, String> {
    compare(&long_run(seed))?;
    hold_longest()?;
    for text in long_texts() {
        compare(&Command::read("long-text", text.into_bytes(), 8))?;
    }
    let mut draw = Draw::new(seed);
    for place in 0..count {
        let command = draw.command(&format!("fuzz-{seed}-{place}"));
        compare(&command)?;
    }
    let posts = count.div_ceil(POSTS);
    for place in 0..posts {
        post::compare(&draw.post(&format!("fuzz-{seed}-post-{place}")))?;
    }
    Ok(posts)
}

/// A run of the whole case under random inputs.
fn long_run(seed: u64) -> Command {
    let mut random = Random::new(seed);
    let inputs: Vec<Set> = (0..LONG_RUN).map(|_| Set(random.bits() & 3)).collect();
    let room = rows_bytes(LONG_RUN, 1);
    Command::run("long-run", whole_case().file(), &[0], &inputs, room)
}

/// The longest file is written as its text and read from it, in the buffers that are always enough; so does the
/// binding, in a buffer of its own.
fn hold_longest() -> Result<(), String> {
    let (file, text) = (longest().file(), written(&longest()));
    compare(&Command::write("longest", file.clone(), TEXT_ROOM))?;
    compare(&Command::read(
        "longest-text",
        text.clone().into_bytes(),
        FILE_ROOM,
    ))?;
    match mestecur::text(&file) == Ok(text) {
        true => Ok(()),
        false => Err("the binding has another text of the longest file".to_string()),
    }
}

/// Long texts: brackets that are open, closed, and closed once too often; more transitions in
/// a chart and in two charts than their counts have bytes for.
fn long_texts() -> Vec<String> {
    let (open, closed) = ("[".repeat(BRACKETS), "]".repeat(BRACKETS));
    let (chart, list) = (
        "(c0,{q0},q0,{},{})",
        ["(q0,q0,/{}),"; TYPED_TRANSITIONS].concat(),
    );
    let with = |name: &str, more: &str| format!("({name},{{q0}},q0,{{}},{{{list}{more}}})");
    vec![
        open.clone(),
        "(".repeat(BRACKETS),
        format!("{open}{chart}{closed}"),
        format!("{open}{chart}{closed}]"),
        format!("{open}{chart}{}", &closed[1..]),
        with("c0", "(q0,q0,/{})"),
        with("c0", ""),
        format!(
            "{}|{{}}|{}",
            with("c0", "(q0,q0,/{})"),
            with("c1", "(q0,q0,/{})")
        ),
        format!("(c0,{{{}q0}},q0,{{}},{{}})", "q0,".repeat(BRACKETS / 3)),
    ]
}

/// Makes one call here, in the engine and through its binding for Rust.
fn compare(command: &Command) -> Result<(), String> {
    let expected = tell(command, Command::call);
    let lent = command.clone();
    for (who, call) in [
        ("engine", engine::raw as Call),
        ("binding", engine::binding as Call),
    ] {
        let told = tell(command, call);
        if told != expected || lent != *command {
            return Err(difference(command, &expected, who, &told));
        }
    }
    Ok(())
}

/// Makes a call with a buffer that has a pattern in it and around it.
fn tell(command: &Command, call: Call) -> Told {
    let mut bytes: Vec<u8> = (0..command.room + 2 * MARGIN).map(pattern).collect();
    let lent = &mut bytes[MARGIN..MARGIN + command.room];
    let (refusal, numbers) = call(command, lent);
    Told {
        refusal,
        numbers,
        bytes,
    }
}

/// What a byte is before a call: seldom the same as its neighbours, seldom small.
fn pattern(place: usize) -> u8 {
    (place as u8).wrapping_mul(37) ^ 0xA5
}

/// A difference in words, with the call in its recorded form if it has one; `xxd -r -p` makes bytes of
/// that, which `reference show` reads and `tests/recorded` can record.
fn difference(command: &Command, expected: &Told, who: &str, told: &Told) -> String {
    let lines = [
        format!("fuzz: {} {:?} differs", command.name, command.op),
        format!("reference: {}", words(expected)),
        format!("{who}: {}", words(told)),
        format!(
            "room {}, configuration {:?}",
            command.room, command.configuration
        ),
        format!(
            "carried {:x?}, inputs {:x?}",
            command.carried, command.inputs
        ),
        match command.op {
            Op::Read => format!("the text begins with {:?}", beginning(&command.file)),
            _ => format!("a file of {} bytes", command.file.len()),
        },
        match command.can_be_recorded() {
            true => format!("recorded form: {}", hex(&command.encode())),
            false => "too large to be recorded".to_string(),
        },
    ];
    lines.join("\n")
}

/// The first bytes of a text, to be shown.
fn beginning(text: &[u8]) -> String {
    let most = text.len().min(200);
    String::from_utf8_lossy(&text[..most]).into_owned()
}

/// What was told, on a line.
fn words(told: &Told) -> String {
    let [one, other] = told.numbers.two;
    let (places, open) = (hex(&told.numbers.places), told.numbers.open);
    let (refusal, bytes) = (told.refusal, hex(&told.bytes));
    format!(
        "refusal {refusal}, numbers {one:x} {other:x}, places {places}, {open} open, lent {bytes}"
    )
}
