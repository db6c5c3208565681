//! The questions of a run.

use crate::edges;
use crate::made;
use crate::ordered;
use crate::question::{Kind, Question, Text};
use crate::reading::{self, Accepted};
use crate::short;

/// How much is asked.
pub struct Extent {
    /// Every text of up to so many pieces of the alphabet.
    pub pieces: u32,
    /// So many made texts, and half as many made pairs.
    pub made_texts: usize,
}

pub const SHORT: Extent = Extent {
    pieces: 3,
    made_texts: 30_000,
};

pub const FULL: Extent = Extent {
    pieces: 4,
    made_texts: 250_000,
};

/// All questions of the kinds.
pub fn all<'a>(extent: &Extent, kinds: &'a [Kind]) -> impl Iterator<Item = Question> + 'a {
    let texts = edges::texts()
        .into_iter()
        .chain(short::texts(extent.pieces))
        .chain(made::texts(extent.made_texts));
    let pairs = neighbours(edges::texts())
        .into_iter()
        .chain(ordered::pairs())
        .chain(made::pairs(extent.made_texts / 2));
    texts
        .flat_map(|text| about(&text, kinds))
        .chain(pairs.flat_map(|pair| about_pair(pair, kinds)))
}

/// Few questions that together meet every rule and every refusal.
pub fn on_every_rule(kinds: &[Kind]) -> Vec<Question> {
    let texts = edges::texts().into_iter();
    let pairs = neighbours(edges::texts())
        .into_iter()
        .chain(neighbours(ordered::versions()));
    texts
        .flat_map(|text| about(&text, kinds))
        .chain(pairs.flat_map(|pair| about_pair(pair, kinds)))
        .collect()
}

/// Questions about made texts and pairs by turns, without an end.
pub fn made(kinds: &[Kind]) -> impl Iterator<Item = Question> + '_ {
    let texts_and_pairs = made::texts(usize::MAX).zip(made::pairs(usize::MAX));
    texts_and_pairs.flat_map(|(text, pair)| [about(&text, kinds), about_pair(pair, kinds)].concat())
}

/// The questions of the kinds about one text.
fn about(text: &Text, kinds: &[Kind]) -> Vec<Question> {
    let read = reading::version(text).ok();
    let of_kind = |kind: &Kind| match kind {
        Kind::Read => vec![Question::Read(text.clone())],
        Kind::Pattern => vec![Question::Pattern(text.clone())],
        Kind::Segment => segments(text, read.as_ref()),
        Kind::Normal => normals(text, read.as_ref()),
        Kind::Compare => vec![],
        Kind::Word => vec![Question::Word(text.clone())],
    };
    kinds.iter().flat_map(of_kind).collect()
}

/// The comparison of two texts, if that is one of the kinds.
fn about_pair((first, second): (Text, Text), kinds: &[Kind]) -> Vec<Question> {
    if kinds.contains(&Kind::Compare) {
        vec![Question::Compare(first, second)]
    } else {
        vec![]
    }
}

/// Each text with the next one.
fn neighbours(texts: Vec<Text>) -> Vec<(Text, Text)> {
    let seconds = texts.iter().skip(1).cloned();
    texts.iter().cloned().zip(seconds).collect()
}

/// Each segment of the label, the next that is missing, and with a label the greatest index.
fn segments(text: &Text, read: Option<&Accepted>) -> Vec<Question> {
    let there = read.map_or(0, |accepted| accepted.version.local().len());
    let mut indexes: Vec<u64> = (0..=there as u64).collect();
    if there > 0 {
        indexes.push(u64::MAX);
    }
    let question = |index| Question::Segment(text.clone(), index);
    indexes.into_iter().map(question).collect()
}

/// A room one byte short, one just enough and one with bytes to spare; for a refused text any room.
fn normals(text: &Text, read: Option<&Accepted>) -> Vec<Question> {
    let rooms = match read {
        None => vec![4],
        Some(accepted) => {
            let length = accepted.version.to_string().len();
            vec![length - 1, length, length + 3]
        }
    };
    let question = |room| Question::Normal(text.clone(), room);
    rooms.into_iter().map(question).collect()
}
