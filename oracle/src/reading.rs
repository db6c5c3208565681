//! What the Rust says of one text, with the caps put over it.

use std::fmt;

use crate::caps;
use crate::place;
use crate::the_rust::{self, ErrorKind, PatternErrorKind, Version};

pub struct Accepted {
    pub version: Version,
    pub wildcard: bool,
}

#[derive(Clone, Copy)]
pub struct Refusal {
    pub number: u8,
    pub place: usize,
}

impl fmt::Display for Refusal {
    fn fmt(&self, f: &mut fmt::Formatter) -> fmt::Result {
        write!(f, "{} {}", self.number, self.place)
    }
}

/// The text read as a version.
pub fn version(text: &[u8]) -> Result<Accepted, Refusal> {
    let read = the_rust::read(text).map(|version| Accepted {
        version,
        wildcard: false,
    });
    capped(
        text,
        read.map_err(|error| refusal(text, the_rust::error(&error))),
    )
}

/// The text read as a pattern.
pub fn pattern(text: &[u8]) -> Result<Accepted, Refusal> {
    let read = the_rust::read_pattern(text).map(|pattern| Accepted {
        version: pattern.version().clone(),
        wildcard: pattern.is_wildcard(),
    });
    capped(
        text,
        read.map_err(|error| pattern_refusal(text, the_rust::pattern_error(&error))),
    )
}

fn capped(text: &[u8], read: Result<Accepted, Refusal>) -> Result<Accepted, Refusal> {
    match caps::deciding(text, read.as_ref().err()) {
        Some(cap) => Err(cap),
        None => read,
    }
}

/// The number of the Rust's error, and its place.
///
/// The Rust itself tells the place of 5 alone: it carries the text that was read before. Of the others
/// it tells the kind, which leaves one place in the text:
/// - 1: where the first number has to be;
/// - 2: behind the first `!`, since nothing but an epoch takes one in;
/// - 3: the first run of digits that reads like the one it carries, since an equal run further left
///   would have been read, and refused, before;
/// - 4: the first segment without a byte, and the byte before it has to be the one that the Rust names;
/// - 6 and 7: at the first `*`, since nothing but a wildcard takes one in.
fn refusal(text: &[u8], error: &ErrorKind) -> Refusal {
    let (number, place) = match error {
        ErrorKind::NoLeadingNumber => (1, place::start(text)),
        ErrorKind::NoLeadingReleaseNumber => (2, found(place::first(text, b'!')) + 1),
        ErrorKind::NumberTooBig { bytes } => (3, found(place::digits(text, bytes))),
        ErrorKind::LocalEmpty { precursor } => (4, empty_segment(text, *precursor)),
        ErrorKind::UnexpectedEnd { version, .. } => (5, version.len()),
        ErrorKind::Wildcard => (6, found(place::first(text, b'*')) - 1),
        ErrorKind::InvalidDigit { .. } => panic!("the Rust reads a number from digits alone"),
    };
    Refusal { number, place }
}

fn pattern_refusal(text: &[u8], error: &PatternErrorKind) -> Refusal {
    match error {
        PatternErrorKind::Version(error) => refusal(text, the_rust::error(error)),
        PatternErrorKind::WildcardNotTrailing => Refusal {
            number: 7,
            place: found(place::first(text, b'*')) + 1,
        },
    }
}

fn empty_segment(text: &[u8], precursor: char) -> usize {
    let place = found(place::label(text).and_then(|label| label.empty));
    assert_eq!(
        char::from(text[place - 1]),
        precursor,
        "the byte before an empty segment"
    );
    place
}

/// The place of what has to be in the text, going by what the Rust said. Were it not there, the rules
/// in `place` would be wrong for this Rust, and nothing compared could be trusted.
fn found(place: Option<usize>) -> usize {
    place.expect("what the Rust speaks of stands in the text")
}
