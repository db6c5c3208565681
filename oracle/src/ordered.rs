//! Versions that between them meet every rule of the order.

use crate::question::Text;

/// Suffixes of every kind, with and without post and development release, and with the least and the
/// greatest numbers.
#[rustfmt::skip]
const SUFFIXES: [&str; 31] = [
    ".dev0", ".dev1", ".dev18446744073709551615", "a0.dev0", "a0.dev18446744073709551614",
    "a0.dev18446744073709551615", "a0", "a0.post0.dev0", "a0.post0", "a0.post1", "a1.dev0", "a1",
    "a2097152", "a18446744073709551615", "b0.dev1", "b0", "b0.post18446744073709551615", "b1",
    "rc0.dev2097152", "rc0", "rc1", "rc18446744073709551615", "", ".post0.dev0",
    ".post0.dev18446744073709551615", ".post0", ".post1.dev1", ".post1", ".post2097151",
    ".post2097152", ".post18446744073709551615",
];

/// Labels: text and number, upper case, zeros in front, digits that are too many for a number, and
/// beginnings of each other.
#[rustfmt::skip]
const LABELS: [&str; 22] = [
    "", "+18446744073709551616", "+018446744073709551616", "+18446744073709551616.0", "+2a", "+a",
    "+A", "+a.a", "+a.b", "+a.0", "+a.0.a", "+a.0.0", "+a.1", "+aa", "+b", "+z", "+0", "+00",
    "+0.a", "+0.0", "+1", "+18446744073709551615",
];

/// Releases: padded with zeros, one longer than another, small enough for the packed word or not.
#[rustfmt::skip]
const RELEASES: [&str; 25] = [
    "0", "0.0", "0.0.0.0.0", "0.0.0.0.1", "0.0.0.1", "0.0.1", "0.1", "0.255", "0.256", "1", "1.0",
    "1.0.0.0", "1.0.0.0.0.0.0.0.0.0.0.0.0.0.0.0", "1.0.0.0.0.0.0.0.0.0.0.0.0.0.0.1", "1.0.0.255",
    "1.0.0.256", "1.1", "1.9", "1.10", "1.18446744073709551615", "2", "65535.255.255.255", "65536",
    "18446744073709551615", "18446744073709551615.18446744073709551615",
];

const EPOCHS: [&str; 4] = ["", "0!", "1!", "18446744073709551615!"];

/// At least 300 versions: each suffix behind a short, a padded and a long release, each label behind
/// every sort of suffix, each release in every epoch.
pub fn versions() -> Vec<Text> {
    let mut versions = joined(&["1", "1.0.0", "1.0.0.0.0", "1.1"], &SUFFIXES);
    versions.extend(joined(&["1", "1a0", "1.dev0", "1.post0"], &LABELS));
    versions.extend(joined(&EPOCHS, &RELEASES));
    versions
}

/// Each version with each.
pub fn pairs() -> Vec<(Text, Text)> {
    let versions = versions();
    let mut pairs = Vec::new();
    for first in &versions {
        for second in &versions {
            pairs.push((first.clone(), second.clone()));
        }
    }
    pairs
}

fn joined(fronts: &[&str], ends: &[&str]) -> Vec<Text> {
    let mut texts = Vec::new();
    for front in fronts {
        for end in ends {
            texts.push([*front, *end].concat().into());
        }
    }
    texts
}
