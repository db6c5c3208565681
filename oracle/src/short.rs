//! Every short text over a small alphabet.

use crate::question::Text;

/// What short texts are made of: digits, all bytes that a rule speaks of, the letters of the short
/// spellings, letters and bytes that no rule takes, and a character of two bytes.
#[rustfmt::skip]
pub const ALPHABET: [&[u8]; 25] = [
    b"0", b"1", b"9", b".", b"-", b"_", b"+", b"!", b"*", b" ", b"\t", b"\x0b", b"a", b"b", b"c", b"r",
    b"v", b"x", b"A", b"B", b"C", b"R", b"V", b"\xc3\xa9", b"\xff",
];

/// Every text of at most `longest` pieces of the alphabet, the shorter ones first.
pub fn texts(longest: u32) -> impl Iterator<Item = Text> {
    (0..=longest).flat_map(|pieces| {
        let count = ALPHABET.len().pow(pieces);
        (0..count).map(move |index| text(pieces, index))
    })
}

/// The text whose pieces are the digits of `index`, written to the base of the alphabet's size.
fn text(pieces: u32, mut index: usize) -> Text {
    let mut text = Text::new();
    for _ in 0..pieces {
        text.extend(ALPHABET[index % ALPHABET.len()]);
        index /= ALPHABET.len();
    }
    text
}
