//! The three bounds that the port has and the Rust has not, found by counting in the text.

use crate::place;
use crate::reading::Refusal;

pub const LONGEST_TEXT: usize = 1024;
pub const MOST_NUMBERS: usize = 16;
pub const MOST_SEGMENTS: usize = 16;

/// The refusals that come of a cap: too long a text, too many release numbers, too many segments.
pub const NUMBERS: [u8; 3] = [8, 9, 10];

/// The cap that decides over a text, given the Rust's own refusal of it, if any.
///
/// A text that is too long is refused before it is read. The other two come up in reading, and the
/// Rust's refusal stands unless the cap comes further left. Where both have the same place it is a
/// release number that is too big, which shows before the number is counted. An empty segment does
/// not count as one, so the seventeenth can be refused as empty and not as one too many.
pub fn deciding(text: &[u8], refused: Option<&Refusal>) -> Option<Refusal> {
    if text.len() > LONGEST_TEXT {
        return Some(Refusal {
            number: 8,
            place: LONGEST_TEXT,
        });
    }
    let numbers = first_number_too_many(text).map(|place| Refusal { number: 9, place });
    let segments = first_segment_too_many(text).map(|place| Refusal { number: 10, place });
    let cap = numbers.or(segments)?;
    match refused {
        Some(refusal) if refusal.place <= cap.place => None,
        _ => Some(cap),
    }
}

/// Where the seventeenth release number begins, if the text has one.
fn first_number_too_many(text: &[u8]) -> Option<usize> {
    let start = place::start(text);
    let behind_first = place::digits_end(text, start);
    let mut from = match text.get(behind_first) {
        Some(b'!') => behind_first + 1,
        _ => start,
    };
    for _ in 0..MOST_NUMBERS {
        let end = place::digits_end(text, from);
        if end == from || text.get(end) != Some(&b'.') {
            return None;
        }
        from = end + 1;
    }
    text.get(from).filter(|byte| byte.is_ascii_digit())?;
    Some(from)
}

/// Where the seventeenth segment of the label begins, if the text has one.
fn first_segment_too_many(text: &[u8]) -> Option<usize> {
    let label = place::label(text)?;
    Some(label.segments.get(MOST_SEGMENTS)?.start)
}
