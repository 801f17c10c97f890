//! One posting as recorded bytes, and its answer as a line of text (docs/CASES.md, Postings).
//!
//! A posting is a header of 20 bytes, numbers little-endian: length of the name (1 byte), three zero
//! bytes, length of the file (4), number of cases (4), number of entries (4), room, which is the
//! length of the buffer (4). Then the name, the file, the cases (29 bytes each: carried set, last
//! row, length, configuration) and the entries (16 bytes each: number, signals). Before the call
//! each byte of the buffer is [`FILL`].

pub mod draw;
pub mod named;

use crate::command::{hex, take, FILL, MOST_BYTES};
use crate::generate::{Files, Random, Size};
use crate::limits::CASE_CONFIGURATION;
use crate::model::Edition;
use crate::posting::{post, CaseRecord, Entry};
use crate::set::Set;

/// The bytes of a posting's header.
const HEADER_BYTES: usize = 20;
/// The bytes of a case in a recording: its fields without the gaps that a C compiler leaves.
const CASE_BYTES: usize = 8 + 4 + 1 + CASE_CONFIGURATION;
/// The bytes of an entry in a recording.
const ENTRY_BYTES: usize = 16;
/// The most cases and the most entries of a recorded posting.
const MOST: usize = 4_096;

/// One posting, with all that is passed to it.
#[derive(Clone, PartialEq, Eq, Debug)]
pub struct Post {
    pub name: String,
    pub file: Vec<u8>,
    pub cases: Vec<CaseRecord>,
    pub entries: Vec<Entry>,
    pub room: usize,
}

/// How an engine posts: it changes the cases and the buffer, and gives the refusal.
pub type PostCall = fn(&[u8], &mut [CaseRecord], &[Entry], &mut [u8]) -> u8;

/// What a posting tells: its refusal, all case records and all bytes of the buffer after it.
#[derive(Clone, PartialEq, Eq, Debug)]
pub struct Posted {
    pub refusal: u8,
    pub cases: Vec<CaseRecord>,
    pub rows: Vec<u8>,
}

impl Post {
    /// What an engine tells of this posting.
    pub fn posted_by(&self, call: PostCall) -> Posted {
        let (mut cases, mut rows) = (self.cases.clone(), vec![FILL; self.room]);
        let refusal = call(&self.file, &mut cases, &self.entries, &mut rows);
        Posted {
            refusal,
            cases,
            rows,
        }
    }

    /// What this engine tells.
    pub fn posted(&self) -> Posted {
        self.posted_by(post)
    }

    /// The line of an answer: name, refusal, all case records, the whole buffer.
    pub fn line(&self, posted: &Posted) -> String {
        let cases: Vec<String> = posted.cases.iter().map(|c| hex(&case_bytes(c))).collect();
        let (name, refusal) = (&self.name, posted.refusal);
        let (cases, rows) = (or_dash(cases.join(",")), or_dash(hex(&posted.rows)));
        format!("{name} post {refusal} {cases} {rows}\n")
    }

    /// The posting as recorded bytes.
    pub fn encode(&self) -> Vec<u8> {
        let mut bytes = vec![u8::try_from(self.name.len()).unwrap(), 0, 0, 0];
        let counts = [
            self.file.len(),
            self.cases.len(),
            self.entries.len(),
            self.room,
        ];
        bytes.extend(counts.map(|count| (count as u32).to_le_bytes()).concat());
        bytes.extend(self.name.as_bytes());
        bytes.extend(&self.file);
        bytes.extend(self.cases.iter().flat_map(case_bytes));
        for entry in &self.entries {
            bytes.extend(entry.number.to_le_bytes());
            bytes.extend(entry.signals.bytes());
        }
        bytes
    }
}

/// A field of a line; a dash if it is empty.
fn or_dash(field: String) -> String {
    match field.is_empty() {
        true => "-".to_string(),
        false => field,
    }
}

/// A case's fields, one after the other.
fn case_bytes(case: &CaseRecord) -> Vec<u8> {
    let mut bytes = case.carried.bytes().to_vec();
    bytes.extend(case.last_row.to_le_bytes());
    bytes.push(case.length);
    bytes.extend(case.config);
    bytes
}

/// A case from its fields.
fn case_of(bytes: &[u8]) -> CaseRecord {
    CaseRecord {
        carried: Set(number(&bytes[..8])),
        last_row: number(&bytes[8..12]) as u32,
        length: bytes[12],
        config: bytes[13..].try_into().unwrap(),
    }
}

/// An entry from its fields.
fn entry_of(bytes: &[u8]) -> Entry {
    Entry {
        number: number(&bytes[..8]),
        signals: Set(number(&bytes[8..])),
    }
}

/// A little-endian number.
fn number(bytes: &[u8]) -> u64 {
    let digits = bytes.iter().rev();
    digits.fold(0, |sum, &byte| sum << 8 | u64::from(byte))
}

/// Recorded bytes as postings, or what is wrong with them.
pub fn decode_all(mut bytes: &[u8]) -> Result<Vec<Post>, String> {
    let mut posts = Vec::new();
    while !bytes.is_empty() {
        let place = posts.len();
        posts.push(decode(&mut bytes).map_err(|what| format!("posting {place}: {what}"))?);
    }
    Ok(posts)
}

/// The next recorded posting, taken off the bytes.
fn decode(bytes: &mut &[u8]) -> Result<Post, String> {
    let header = take(bytes, HEADER_BYTES)?;
    let count = |place: usize| number(&header[place..place + 4]) as usize;
    let (cases, entries, room) = (count(8), count(12), count(16));
    if cases.max(entries) > MOST || room > MOST_BYTES {
        return Err("too large".to_string());
    }
    let name = take(bytes, usize::from(header[0]))?;
    let file = take(bytes, count(4))?.to_vec();
    let cases = take(bytes, cases * CASE_BYTES)?.chunks_exact(CASE_BYTES);
    let entries = take(bytes, entries * ENTRY_BYTES)?.chunks_exact(ENTRY_BYTES);
    Ok(Post {
        name: String::from_utf8(name.to_vec()).map_err(|_| "name not text")?,
        file,
        cases: cases.map(case_of).collect(),
        entries: entries.map(entry_of).collect(),
        room,
    })
}

/// The random postings of a recording: seed, number, and which files they have.
const RANDOM: [(u64, usize, Files); 4] = [
    (0x706f_7374, 90, files(Edition::First, Size::Small)),
    (0x706f_7375, 40, files(Edition::Second, Size::Small)),
    (0x166f_7374, 20, files(Edition::First, Size::Large)),
    (0x166f_7375, 15, files(Edition::Second, Size::Large)),
];

/// Files of an edition and a size.
const fn files(edition: Edition, size: Size) -> Files {
    Files { edition, size }
}

/// All recorded postings: the named ones, then random ones.
pub fn recorded() -> Vec<Post> {
    let named = named::cases().into_iter().map(|case| case.post);
    named.chain(RANDOM.into_iter().flat_map(random)).collect()
}

/// So many random postings.
fn random((seed, count, files): (u64, usize, Files)) -> Vec<Post> {
    let mut random = Random::new(seed);
    let edition = match files.edition {
        Edition::First => "",
        Edition::Second => "edition-2-",
    };
    let size = match files.size {
        Size::Small => "",
        Size::Large => "-large",
    };
    let name = |number: usize| format!("{edition}post{size}-random-{number}");
    (0..count)
        .map(|number| draw::post(&mut random, files, &name(number)))
        .collect()
}

/// The recorded bytes of postings.
pub fn encode(posts: &[Post]) -> Vec<u8> {
    posts.iter().flat_map(Post::encode).collect()
}

/// The lines of postings as an engine makes them.
pub fn lines(posts: &[Post], call: PostCall) -> String {
    let line = |post: &Post| post.line(&post.posted_by(call));
    posts.iter().map(line).collect()
}
