//! Asks the Rust a question and writes what it knows in the protocol's form.

use std::cmp::Ordering;
use std::ops::Range;

use crate::caps;
use crate::place;
use crate::question::{hex, Question};
use crate::reading::{self, Accepted, Refusal};
use crate::the_rust::{self, LocalSegment, Version};

/// What a lent buffer is filled with beforehand.
const FILL: u8 = 0xa5;

pub struct Answer {
    pub line: String,
    /// The number of the cap that decided, if one did: there the port is meant to depart from the Rust.
    pub cap: Option<u8>,
}

pub fn answer(question: &Question) -> Answer {
    match question {
        Question::Read(text) => answer_about(
            reading::version(text),
            |accepted| fields(text, &accepted),
            |refusal| format!("no {refusal}"),
        ),
        Question::Pattern(text) => answer_about(
            reading::pattern(text),
            |accepted| fields(text, &accepted),
            |refusal| format!("no {refusal}"),
        ),
        Question::Segment(text, index) => answer_about(
            reading::version(text),
            |accepted| segment(text, &accepted.version, *index),
            |_| hex(&[]),
        ),
        Question::Normal(text, room) => answer_about(
            reading::version(text),
            |accepted| normal(&accepted.version, *room),
            |refusal| format!("no {refusal} {}", hex(&vec![FILL; *room])),
        ),
        Question::Compare(first, second) => compare(first, second),
        Question::Word(text) => answer_about(
            reading::version(text),
            |accepted| word(&accepted.version),
            |refusal| format!("no {refusal}"),
        ),
    }
}

/// The one line for an accepted text, the other for a refused one.
fn answer_about(
    read: Result<Accepted, Refusal>,
    if_accepted: impl FnOnce(Accepted) -> String,
    if_refused: impl FnOnce(Refusal) -> String,
) -> Answer {
    match read {
        Ok(accepted) => Answer {
            line: if_accepted(accepted),
            cap: None,
        },
        Err(refusal) => refused(if_refused(refusal), refusal),
    }
}

fn refused(line: String, refusal: Refusal) -> Answer {
    Answer {
        line,
        cap: caps::NUMBERS
            .contains(&refusal.number)
            .then_some(refusal.number),
    }
}

fn fields(text: &[u8], accepted: &Accepted) -> String {
    let version = &accepted.version;
    format!(
        "{} {} {} {} {} {} {}",
        if accepted.wildcard { "ok*" } else { "ok" },
        version.epoch(),
        joined(version.release(), "."),
        or_dash(version.pre()),
        or_dash(version.post()),
        or_dash(version.dev()),
        local(text, version),
    )
}

/// The label: a number with its value, a text with its place in the input.
fn local(text: &[u8], version: &Version) -> String {
    if version.local().is_empty() {
        return "-".to_string();
    }
    let segments: Vec<String> = segments(text, version)
        .map(|(place, segment)| match segment {
            LocalSegment::Number(number) => format!("n{number}"),
            LocalSegment::String(_) => format!("t{}:{}", place.start, place.end),
        })
        .collect();
    joined(&segments, ",")
}

/// The segment's own bytes; none for a number or a segment that is not there.
fn segment(text: &[u8], version: &Version, index: u64) -> String {
    let asked = usize::try_from(index).unwrap_or(usize::MAX);
    match segments(text, version).nth(asked) {
        Some((place, LocalSegment::String(_))) => hex(&text[place]),
        _ => hex(&[]),
    }
}

/// The segments of an accepted text, each with its place. The Rust keeps the segments and not their
/// places, so what stands at each place is held against the Rust's segment.
fn segments<'a>(
    text: &[u8],
    version: &'a Version,
) -> impl Iterator<Item = (Range<usize>, &'a LocalSegment)> {
    let places = place::label(text).map_or(Vec::new(), |label| label.segments);
    assert_eq!(places.len(), version.local().len(), "segments of a label");
    for (place, segment) in places.iter().zip(version.local()) {
        assert!(reads_as(&text[place.clone()], segment), "a segment's place");
    }
    places.into_iter().zip(version.local())
}

fn reads_as(bytes: &[u8], segment: &LocalSegment) -> bool {
    let lower = bytes.to_ascii_lowercase();
    match segment {
        LocalSegment::String(string) => lower == string.as_bytes(),
        LocalSegment::Number(number) => {
            String::from_utf8(lower).is_ok_and(|digits| digits.parse() == Ok(*number))
        }
    }
}

fn normal(version: &Version, room: usize) -> String {
    let text = version.to_string();
    let mut buffer = vec![FILL; room];
    if room < text.len() {
        return format!("no 11 {} {}", text.len(), hex(&buffer));
    }
    buffer[..text.len()].copy_from_slice(text.as_bytes());
    format!("ok {} {}", text.len(), hex(&buffer))
}

fn word(version: &Version) -> String {
    match the_rust::word(version) {
        Some(word) => format!("word {word:016x}"),
        None => "none".to_string(),
    }
}

/// The first text is judged first.
fn compare(first: &[u8], second: &[u8]) -> Answer {
    let left = match reading::version(first) {
        Ok(accepted) => accepted.version,
        Err(refusal) => return refused(format!("first {refusal}"), refusal),
    };
    answer_about(
        reading::version(second),
        |right| order(left.cmp(&right.version)).to_string(),
        |refusal| format!("second {refusal}"),
    )
}

fn order(order: Ordering) -> &'static str {
    match order {
        Ordering::Less => "less",
        Ordering::Equal => "equal",
        Ordering::Greater => "greater",
    }
}

fn joined<T: ToString>(items: &[T], between: &str) -> String {
    let words: Vec<String> = items.iter().map(T::to_string).collect();
    words.join(between)
}

fn or_dash<T: ToString>(item: Option<T>) -> String {
    item.map_or("-".to_string(), |item| item.to_string())
}
