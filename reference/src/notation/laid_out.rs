//! A written text laid out for a person (docs/NOTATION.md, section 7).

/// A bracket that is open, and whether it counts for the level.
type Open = (u8, bool);

/// The text with its breaks, and a line end behind it.
pub fn laid_out(text: &str) -> String {
    let bytes = text.as_bytes();
    let mut out = String::new();
    let mut open: Vec<Open> = vec![];
    let mut bars = 0;
    for (at, &byte) in bytes.iter().enumerate() {
        let before = at.checked_sub(1).map(|at| bytes[at]);
        let next = bytes.get(at + 1).copied();
        if matches!(byte, b')' | b']' | b'}') {
            open.pop();
        }
        if byte == b']' || (byte == b'}' && before == Some(b')')) {
            line(&mut out, &open);
        }
        out.push(char::from(byte));
        if matches!(byte, b'(' | b'[' | b'{') {
            open.push((byte, counts(&open, byte, next)));
        }
        bars += usize::from(byte == b'|');
        let breaks = match byte {
            b'[' => true,
            b'{' | b',' => next == Some(b'('),
            b'|' => bars % 2 == 0,
            _ => false,
        };
        if breaks {
            line(&mut out, &open);
        }
    }
    out + "\n"
}

/// Whether a bracket counts for the level. A list does, and so does every square bracket. A round
/// bracket does not if it is a chart's, or a transition's: the list that it is in is a chart's own.
fn counts(open: &[Open], bracket: u8, next: Option<u8>) -> bool {
    match bracket {
        b'{' => next == Some(b'('),
        b'(' => next != Some(b'c') && !matches!(open, [.., (b'(', false), (b'{', _)]),
        _ => true,
    }
}

/// Begins a line, with two blanks for each open bracket that counts.
fn line(out: &mut String, open: &[Open]) {
    let level = open.iter().filter(|(_, counts)| *counts).count();
    out.push('\n');
    out.push_str(&"  ".repeat(level));
}
