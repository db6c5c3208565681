//! The parts of a version, made at random: every rule, every spelling in any case, every separator.

use crate::question::Text;
use crate::random::Random;

const BLANKS: [&str; 5] = [" ", "\t", "\n", "\x0c", "\r"];
const SEPARATORS: [&str; 3] = [".", "_", "-"];
pub const PRE: [&str; 8] = ["alpha", "beta", "preview", "pre", "rc", "a", "b", "c"];
pub const POST: [&str; 3] = ["post", "rev", "r"];
pub const DEV: [&str; 1] = ["dev"];

/// Numbers on the edges: zeros in front, the bounds of the packed word, 2^64 from both sides.
pub const EDGE_NUMBERS: [&str; 16] = [
    "00",
    "007",
    "255",
    "256",
    "65535",
    "65536",
    "2097151",
    "2097152",
    "4294967296",
    "9999999999999999999",
    "18446744073709551615",
    "18446744073709551616",
    "00000000000000000001",
    "00018446744073709551615",
    "00018446744073709551616",
    "99999999999999999999",
];

/// The places of some parts among those of a version.
pub const FRONT: usize = 0;
pub const RELEASE: usize = 1;
pub const LABEL: usize = 5;
pub const END: usize = 6;

/// The parts of a version from left to right; any but the release may be empty.
pub fn parts(random: &mut Random) -> Vec<Text> {
    vec![
        front(random),
        release(random),
        sometimes(random, 3, |random| spelled(random, &PRE)),
        sometimes(random, 3, post),
        sometimes(random, 3, |random| spelled(random, &DEV)),
        sometimes(random, 4, label),
        blanks(random),
    ]
}

fn sometimes(random: &mut Random, one_in: usize, part: impl Fn(&mut Random) -> Text) -> Text {
    if random.one_in(one_in) {
        part(random)
    } else {
        Text::new()
    }
}

fn blanks(random: &mut Random) -> Text {
    let count = random.pick(&[0, 0, 0, 0, 0, 1, 2]);
    (0..count)
        .flat_map(|_| random.pick(&BLANKS).bytes())
        .collect()
}

/// Blanks, `v` and an epoch.
fn front(random: &mut Random) -> Text {
    let v = sometimes(random, 5, |random| in_some_case(random, "v"));
    let epoch = sometimes(random, 5, |random| [number(random), b"!".to_vec()].concat());
    [blanks(random), v, epoch].concat()
}

fn release(random: &mut Random) -> Text {
    let count = 1 + random.below(5);
    let numbers: Vec<Text> = (0..count).map(|_| number(random)).collect();
    numbers.join(&b'.')
}

pub fn number(random: &mut Random) -> Text {
    match random.below(8) {
        0 => random.pick(&EDGE_NUMBERS).into(),
        1 => random.below(100_000).to_string().into(),
        _ => random.below(12).to_string().into(),
    }
}

/// A spelling with or without a separator on either side and a number.
fn spelled(random: &mut Random, spellings: &[&str]) -> Text {
    let before = sometimes(random, 2, separator);
    let spelling = random.pick(spellings);
    let spelling = in_some_case(random, spelling);
    let behind = sometimes(random, 3, separator);
    let number = sometimes(random, 2, number);
    [before, spelling, behind, number].concat()
}

fn post(random: &mut Random) -> Text {
    if random.one_in(4) {
        [b"-".to_vec(), number(random)].concat()
    } else {
        spelled(random, &POST)
    }
}

fn separator(random: &mut Random) -> Text {
    random.pick(&SEPARATORS).into()
}

fn in_some_case(random: &mut Random, letters: &str) -> Text {
    let mut letters = Text::from(letters);
    for letter in &mut letters {
        if random.one_in(3) {
            letter.make_ascii_uppercase();
        }
    }
    letters
}

fn label(random: &mut Random) -> Text {
    let mut label = [b"+".to_vec(), segment(random)].concat();
    for _ in 0..random.below(4) {
        label.extend(separator(random));
        label.extend(segment(random));
    }
    label
}

pub fn segment(random: &mut Random) -> Text {
    match random.below(4) {
        0 => number(random),
        1 => [number(random), in_some_case(random, "a")].concat(),
        2 => in_some_case(random, "abc"),
        _ => in_some_case(random, "z"),
    }
}
