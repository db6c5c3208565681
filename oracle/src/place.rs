//! Where in a text a thing stands that the Rust speaks of without naming its place.
//!
//! Reading goes from left to right and gives back nothing but a separator, so each place below is the
//! only one at which the Rust can have said what it said.

use std::ops::Range;

/// Where the first number has to be: behind the blanks and one `v`.
pub fn start(text: &[u8]) -> usize {
    let blanks = run(text, 0, u8::is_ascii_whitespace);
    match text.get(blanks) {
        Some(b'v' | b'V') => blanks + 1,
        _ => blanks,
    }
}

/// One past the digits that begin at `from`.
pub fn digits_end(text: &[u8], from: usize) -> usize {
    run(text, from, u8::is_ascii_digit)
}

/// The first whole run of digits that reads `digits`.
pub fn digits(text: &[u8], digits: &[u8]) -> Option<usize> {
    let mut from = 0;
    while from < text.len() {
        let end = digits_end(text, from);
        if text[from..end] == *digits {
            return Some(from);
        }
        from = end + 1;
    }
    None
}

/// The first place of `byte`.
pub fn first(text: &[u8], byte: u8) -> Option<usize> {
    text.iter().position(|&other| other == byte)
}

/// What stands behind the first `+`, cut into segments.
pub struct Label {
    pub segments: Vec<Range<usize>>,
    /// Where a segment without a byte would begin, if the label has one; nothing is cut behind it.
    pub empty: Option<usize>,
}

/// The label of a text. Nothing but a label takes in a `+`, so if reading came past the first one,
/// the label starts there.
pub fn label(text: &[u8]) -> Option<Label> {
    let mut from = first(text, b'+')? + 1;
    let mut segments = Vec::new();
    loop {
        let end = run(text, from, u8::is_ascii_alphanumeric);
        if end == from {
            let empty = Some(from);
            return Some(Label { segments, empty });
        }
        segments.push(from..end);
        if !matches!(text.get(end), Some(b'.' | b'_' | b'-')) {
            let empty = None;
            return Some(Label { segments, empty });
        }
        from = end + 1;
    }
}

/// One past the bytes from `from` on that are of a kind.
fn run(text: &[u8], from: usize, of_a_kind: fn(&u8) -> bool) -> usize {
    from + text[from..]
        .iter()
        .take_while(|byte| of_a_kind(byte))
        .count()
}
