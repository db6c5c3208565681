//! Made texts: versions from the grammar, texts around the caps, wildcards, and damaged copies.

use crate::caps::{LONGEST_TEXT, MOST_NUMBERS, MOST_SEGMENTS};
use crate::grammar::{parts, segment, EDGE_NUMBERS, END, FRONT, LABEL, RELEASE};
use crate::question::Text;
use crate::random::Random;
use crate::short::ALPHABET;

const SEED: u64 = 440;

/// The first `count` made texts; they are the same in each run.
pub fn texts(count: usize) -> impl Iterator<Item = Text> {
    let mut random = Random::new(SEED);
    (0..count).map(move |_| text(&mut random))
}

/// Made pairs: by turns two texts of their own, and a text with its damaged copy. The second sort
/// agrees for long and so is decided late.
pub fn pairs(count: usize) -> impl Iterator<Item = (Text, Text)> {
    let mut random = Random::new(SEED + 1);
    (0..count).map(move |index| {
        let first = text(&mut random);
        let second = match index % 2 {
            0 => text(&mut random),
            _ => damaged(&mut random, &first),
        };
        (first, second)
    })
}

fn text(random: &mut Random) -> Text {
    let text = match random.below(12) {
        0 => long_release(random),
        1 => long_label(random),
        2 => near_the_limit(random),
        3 => wildcard(random),
        4 => out_of_order(random),
        _ => parts(random).concat(),
    };
    if random.one_in(3) {
        damaged(random, &text)
    } else {
        text
    }
}

/// A number of things that is 1, or at most two away from the most that there may be.
fn count_around(random: &mut Random, most: usize) -> usize {
    random.pick(&[1, most - 1, most, most + 1, most + 2])
}

/// One of the last three of `count` places.
fn late_place(random: &mut Random, count: usize) -> usize {
    count - 1 - random.below(count.min(3))
}

/// A release around its cap, in some with a late number on an edge of its own.
fn long_release(random: &mut Random) -> Text {
    let count = count_around(random, MOST_NUMBERS);
    let mut numbers: Vec<Text> = (0..count)
        .map(|_| random.below(300).to_string().into())
        .collect();
    if random.one_in(3) {
        numbers[late_place(random, count)] = random.pick(&EDGE_NUMBERS).into();
    }
    let mut parts = parts(random);
    parts[RELEASE] = numbers.join(&b'.');
    parts.concat()
}

/// A label around its cap, in some with a late segment empty.
fn long_label(random: &mut Random) -> Text {
    let count = count_around(random, MOST_SEGMENTS);
    let mut segments: Vec<Text> = (0..count).map(|_| segment(random)).collect();
    if random.one_in(3) {
        segments[late_place(random, count)].clear();
    }
    let separator = random.pick(b"._-");
    let mut parts = parts(random);
    parts[LABEL] = [b"+".to_vec(), segments.join(&separator)].concat();
    parts.concat()
}

/// A text of about the greatest length, filled up with blanks, zeros, release numbers, or a label of
/// letters, digits or many segments.
fn near_the_limit(random: &mut Random) -> Text {
    let length = LONGEST_TEXT - 4 + random.below(11);
    let mut parts = parts(random);
    let (part, fill) = random.pick(&[
        (FRONT, " "),
        (END, "\n"),
        (RELEASE, "0"),
        (RELEASE, "1."),
        (LABEL, "aB"),
        (LABEL, "9"),
        (LABEL, "b-"),
    ]);
    if part == LABEL {
        parts[LABEL] = b"+".to_vec();
    }
    let room = length.saturating_sub(parts.concat().len());
    let fill: Text = fill.bytes().cycle().take(room).collect();
    match part {
        LABEL => parts[LABEL].extend(fill),
        _ => drop(parts[part].splice(0..0, fill)),
    }
    parts.concat()
}

/// A release with `.*` behind it, and in some the rest of a version behind that.
fn wildcard(random: &mut Random) -> Text {
    let mut parts = parts(random);
    parts[RELEASE].extend(b".*");
    let kept = random.pick(&[RELEASE + 1, RELEASE + 1, parts.len()]);
    parts[..kept].concat()
}

/// A version with two parts exchanged, or with one in the place of another.
fn out_of_order(random: &mut Random) -> Text {
    let mut parts = parts(random);
    let (one, other) = (random.below(parts.len()), random.below(parts.len()));
    if random.one_in(2) {
        parts.swap(one, other);
    } else {
        parts[one] = parts[other].clone();
    }
    parts.concat()
}

/// A copy with one or two faults.
fn damaged(random: &mut Random, text: &[u8]) -> Text {
    let mut copy = text.to_vec();
    for _ in 0..1 + random.below(2) {
        if !copy.is_empty() {
            add_fault(random, &mut copy);
        }
    }
    copy
}

/// A byte changed, dropped, doubled or exchanged with the next one, or the rest cut off.
fn add_fault(random: &mut Random, text: &mut Text) {
    let place = random.below(text.len());
    let next = (place + 1).min(text.len() - 1);
    match random.below(6) {
        0 => drop(text.splice(place..=place, random.pick(&ALPHABET).iter().copied())),
        1 => text[place] = random.below(256) as u8,
        2 => drop(text.remove(place)),
        3 => text.insert(place, text[place]),
        4 => text.swap(place, next),
        _ => text.truncate(place),
    }
}
