//! The rows: a question, and how either side answers it from text.

use std::fmt::Write;
use std::hint::black_box;
use std::str::FromStr;

use pep440_rs::{Version, VersionSpecifiers};

use crate::timing::{measure, Measured};

/// What the rows are asked about, and what either side may prepare once.
pub struct Texts {
    texts: Vec<String>,
    lists: Vec<String>,
    tables: Vec<Vec<u8>>,
    specifiers: Vec<VersionSpecifiers>,
}

pub struct Row {
    pub name: &'static str,
    pub measure: fn(&Texts) -> Measured,
}

impl Texts {
    pub fn of(texts: Vec<String>, lists: Vec<String>) -> Texts {
        let tables = lists.iter().map(|list| compiled(list)).collect();
        let specifiers = lists.iter().map(|list| specifiers(list)).collect();
        Texts { texts, lists, tables, specifiers }
    }

    fn texts(&self) -> Vec<&str> {
        self.texts.iter().map(String::as_str).collect()
    }

    fn lists(&self) -> Vec<&str> {
        self.lists.iter().map(String::as_str).collect()
    }

    /// Each text with the place of a list.
    fn pairs(&self) -> Vec<(usize, &str)> {
        self.texts.iter().enumerate().map(|(i, text)| (i % self.lists.len(), text.as_str())).collect()
    }

    /// Each text with the next one.
    fn neighbours(&self) -> Vec<(&str, &str)> {
        let count = self.texts.len();
        (0..count).map(|i| (self.texts[i].as_str(), self.texts[(i + 1) % count].as_str())).collect()
    }
}

fn compiled(list: &str) -> Vec<u8> {
    let mut buffer = [0; 16384];
    knappulf::compile(list.as_bytes(), &mut buffer).expect("the list is accepted").to_vec()
}

fn specifiers(list: &str) -> VersionSpecifiers {
    VersionSpecifiers::from_str(list).expect("the Rust takes the list too")
}

fn version(text: &str) -> Version {
    Version::from_str(text).expect("the Rust takes the text")
}

pub const ROWS: &[Row] = &[
    Row { name: "read", measure: read },
    Row { name: "normal", measure: normal },
    Row { name: "compare", measure: compare },
    Row { name: "word", measure: word },
    Row { name: "accepts", measure: accepts },
    Row { name: "check", measure: check },
    Row { name: "compile", measure: compile },
    Row { name: "lookup", measure: lookup },
];

/// Either side over the same items, one after the other.
fn each<T: Copy>(items: &[T], mut ours: impl FnMut(T), mut theirs: impl FnMut(T)) -> Measured {
    measure(
        items.len(),
        &mut || items.iter().for_each(|item| ours(black_box(*item))),
        &mut || items.iter().for_each(|item| theirs(black_box(*item))),
    )
}

/// The Rust's side where it is asked for a version alone, or for a list.
fn reads(text: &str) {
    black_box(&version(text));
}

fn prepares(list: &str) {
    black_box(&specifiers(list));
}

fn read(texts: &Texts) -> Measured {
    each(
        &texts.texts(),
        |text| {
            black_box(&knappulf::read(text.as_bytes()).expect("accepted"));
        },
        reads,
    )
}

fn normal(texts: &Texts) -> Measured {
    let mut buffer = [0; knappulf::NORMAL_MOST];
    let mut string = String::with_capacity(knappulf::NORMAL_MOST);
    each(
        &texts.texts(),
        |text| {
            black_box(knappulf::normal(text.as_bytes(), &mut buffer).expect("accepted"));
        },
        |text| {
            string.clear();
            write!(string, "{}", version(text)).expect("a string takes it");
            black_box(&string);
        },
    )
}

fn compare(texts: &Texts) -> Measured {
    each(
        &texts.neighbours(),
        |(first, second)| {
            black_box(knappulf::compare(first.as_bytes(), second.as_bytes()).expect("accepted"));
        },
        |(first, second)| {
            black_box(version(first).cmp(&version(second)));
        },
    )
}

/// The Rust has its word where it has read a small version.
fn word(texts: &Texts) -> Measured {
    each(
        &texts.texts(),
        |text| {
            black_box(knappulf::word(text.as_bytes()).expect("accepted"));
        },
        reads,
    )
}

fn accepts(texts: &Texts) -> Measured {
    each(
        &texts.pairs(),
        |(list, text)| {
            black_box(knappulf::accepts(texts.lists[list].as_bytes(), text.as_bytes()).expect("accepted"));
        },
        |(list, text)| {
            black_box(specifiers(&texts.lists[list]).contains(&version(text)));
        },
    )
}

fn check(texts: &Texts) -> Measured {
    each(
        &texts.lists(),
        |list| {
            black_box(knappulf::check(list.as_bytes()).expect("accepted"));
        },
        prepares,
    )
}

/// The Rust has no table: it prepares a list by reading it.
fn compile(texts: &Texts) -> Measured {
    let mut buffer = [0; 16384];
    each(
        &texts.lists(),
        |list| {
            black_box(knappulf::compile(list.as_bytes(), &mut buffer).expect("accepted"));
        },
        prepares,
    )
}

fn lookup(texts: &Texts) -> Measured {
    each(
        &texts.pairs(),
        |(list, text)| {
            black_box(knappulf::lookup(&texts.tables[list], text.as_bytes()).expect("accepted"));
        },
        |(list, text)| {
            black_box(texts.specifiers[list].contains(&version(text)));
        },
    )
}
