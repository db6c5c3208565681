//! Texts written by hand, on both sides of every rule, for every spelling and for every refusal.

use crate::caps::{LONGEST_TEXT, MOST_NUMBERS, MOST_SEGMENTS};
use crate::grammar::{DEV, POST, PRE};
use crate::question::Text;

#[rustfmt::skip]
const TEXTS: &[&[u8]] = &[
    // blanks and `v`; byte 11 is no blank
    b"", b" ", b" 1", b"\t1", b"\n1", b"\x0c1", b"\r1", b"\x0b1", b" \t\n\x0c\r1 \t\n\x0c\r", b"1\x0b",
    b"v", b"v1", b"V1", b"vv1", b"v 1", b" v1", b"x",
    // epoch and release
    b"1", b"0", b"01", b"1!2", b"0!2", b"1!", b"1!x", b"1! 2", b"!1", b"1!2!3", b"1.0", b"1.2.3",
    b"1.2.3.4", b"1.2.3.4.5", b"1.0.0", b"1.", b"1..2", b"1.x", b"1. 2",
    // wildcard
    b"1.*", b"1.2.*", b"v1!2.*", b"1.* ", b"1.*x", b"1.*.*", b"1*", b"*", b".*", b"1.a1.*", b"1 .*",
    // pre, post and development release, and a separator given back
    b"1.0A-", b"1-a-1", b"1_rc_2", b"1.c.3", b"1--a", b"1a--1", b"1.0-1", b"1.0-", b"1-1-1", b"1_1",
    b"1-post-1", b"1.post", b"1-r", b"1.-r", b"1.0.dev", b"1dev-7", b"1-dev_7", b"1.dev.",
    b"1a1.post2.dev3", b"1a1-2.dev3", b"1.dev3.post2", b"1.post2a1", b"1alph", b"1previe", b"1prev",
    b"1re", b"1de", b"1pos", b"1rc1r1", b"1r1rc1",
    // label
    b"1+a", b"1+A.b_C-d", b"1+0018", b"1+1a", b"1a1.post2.dev3+X.9", b"1+", b"1+.a", b"1+a.", b"1+a-",
    b"1+a..b", b"1+a+b", b"1+a b", b"1+ a", b"1+a!", b"1.+a", b"1+a.*", b"1+\xc3\xa9", b"1+a\xff",
    // bytes left over
    b"1x", b"1 x", b"1\t\x0b", b"1 1", b"1\xc3\xa9", b"\xff1", b"1.0a1x2",
    // the bounds of the packed word
    b"65535.255.255.255.post2097151", b"65535.255.255.255.post2097152", b"65535", b"65536", b"1.256",
    b"1.0.256", b"1.0.0.256", b"1a2097151", b"1b2097152", b"1.dev2097151", b"1.dev2097152", b"1a0.dev0",
    b"1.post0.dev0", b"1a0.post0",
];

/// Numbers with zeros in front, and 2^64 from both sides.
const NUMBERS: [&str; 4] = [
    "007",
    "18446744073709551615",
    "18446744073709551616",
    "00018446744073709551615",
];

/// What stands before, what fills a text up, what stands behind.
#[rustfmt::skip]
const FILLINGS: [(&str, &str, &str); 11] = [
    ("", " ", "1"), ("1", " ", ""), ("x", " ", ""), ("1.*", " ", ""), ("", "0", "1"), ("1a", "0", "3"),
    ("1", ".1", ""), ("1c+", "A", ""), ("1+", "0", "1"), ("1+", "9", ""), ("1+a", ".a", ""),
];

pub fn texts() -> Vec<Text> {
    let mut texts: Vec<Text> = TEXTS.iter().map(|text| text.to_vec()).collect();
    texts.extend(spellings());
    texts.extend(numbers());
    texts.extend(many_numbers());
    texts.extend(many_segments());
    texts.extend(long_texts());
    texts
}

/// Each spelling without a number, and in upper case with one.
fn spellings() -> Vec<Text> {
    let mut texts = Vec::new();
    for spelling in PRE.iter().chain(&POST).chain(&DEV) {
        texts.push(format!("1{spelling}").into());
        texts.push(format!("1{}2", spelling.to_uppercase()).into());
    }
    texts
}

/// Each number in each place that takes one.
fn numbers() -> Vec<Text> {
    let mut texts = Vec::new();
    for number in NUMBERS {
        texts.push(format!("{number}!1").into());
        for before in ["", "1!", "1.", "1a", "1-", "1post", "1.dev", "1+"] {
            texts.push(format!("{before}{number}").into());
        }
    }
    texts
}

/// Releases around the cap, and with the last number too big.
fn many_numbers() -> Vec<Text> {
    let mut texts = Vec::new();
    for count in MOST_NUMBERS - 1..=MOST_NUMBERS + 2 {
        let release = vec!["1"; count].join(".");
        for behind in ["", "a1+b", ".*", "x", "8446744073709551616"] {
            texts.push(format!("v2!{release}{behind}").into());
        }
    }
    texts
}

/// Labels around the cap, with an empty segment behind, with a byte left over, and where none is read.
fn many_segments() -> Vec<Text> {
    let mut texts = Vec::new();
    for count in MOST_SEGMENTS - 1..=MOST_SEGMENTS + 2 {
        let label = vec!["a"; count].join("-");
        for (before, behind) in [("1", ""), ("1", "."), ("1", "!"), ("1x", "")] {
            texts.push(format!("{before}+{label}{behind}").into());
        }
    }
    texts
}

/// Texts just within the greatest length and one byte longer.
fn long_texts() -> Vec<Text> {
    let mut texts = Vec::new();
    for (before, fill, behind) in FILLINGS {
        for length in [LONGEST_TEXT, LONGEST_TEXT + 1] {
            let room = length - before.len() - behind.len();
            let filled: Text = fill.bytes().cycle().take(room).collect();
            texts.push([before.as_bytes(), &filled, behind.as_bytes()].concat());
        }
    }
    texts
}
