//! A question of the line protocol, and its line.

use std::fmt;

pub type Text = Vec<u8>;

#[derive(Clone, Copy, PartialEq, Eq, PartialOrd, Ord)]
pub enum Kind {
    Read,
    Pattern,
    Segment,
    Normal,
    Compare,
    Word,
}

impl Kind {
    pub const ALL: [Kind; 6] = [
        Kind::Read,
        Kind::Pattern,
        Kind::Segment,
        Kind::Normal,
        Kind::Compare,
        Kind::Word,
    ];

    pub fn name(self) -> &'static str {
        match self {
            Kind::Read => "read",
            Kind::Pattern => "pattern",
            Kind::Segment => "segment",
            Kind::Normal => "normal",
            Kind::Compare => "compare",
            Kind::Word => "word",
        }
    }

    pub fn named(name: &str) -> Option<Kind> {
        Kind::ALL.into_iter().find(|kind| kind.name() == name)
    }
}

#[derive(Clone)]
pub enum Question {
    Read(Text),
    Pattern(Text),
    /// A text and the segment's index.
    Segment(Text, u64),
    /// A text and the bytes of room in the lent buffer.
    Normal(Text, usize),
    Compare(Text, Text),
    Word(Text),
}

impl Question {
    pub fn kind(&self) -> Kind {
        match self {
            Question::Read(_) => Kind::Read,
            Question::Pattern(_) => Kind::Pattern,
            Question::Segment(..) => Kind::Segment,
            Question::Normal(..) => Kind::Normal,
            Question::Compare(..) => Kind::Compare,
            Question::Word(_) => Kind::Word,
        }
    }

    /// The texts asked about: two for a comparison, otherwise one.
    pub fn texts(&self) -> Vec<&Text> {
        match self {
            Question::Read(text)
            | Question::Pattern(text)
            | Question::Segment(text, _)
            | Question::Normal(text, _)
            | Question::Word(text) => vec![text],
            Question::Compare(first, second) => vec![first, second],
        }
    }

    /// The question on a line, or none if the line is none of the six kinds.
    pub fn from_line(line: &str) -> Option<Question> {
        let words: Vec<&str> = line.split(' ').collect();
        Some(match *words.as_slice() {
            ["read", text] => Question::Read(from_hex(text)?),
            ["pattern", text] => Question::Pattern(from_hex(text)?),
            ["segment", text, index] => Question::Segment(from_hex(text)?, index.parse().ok()?),
            ["normal", text, room] => Question::Normal(from_hex(text)?, room.parse().ok()?),
            ["compare", first, second] => Question::Compare(from_hex(first)?, from_hex(second)?),
            ["word", text] => Question::Word(from_hex(text)?),
            _ => return None,
        })
    }
}

impl fmt::Display for Question {
    fn fmt(&self, f: &mut fmt::Formatter) -> fmt::Result {
        write!(f, "{}", self.kind().name())?;
        for text in self.texts() {
            write!(f, " {}", hex(text))?;
        }
        match self {
            Question::Segment(_, index) => write!(f, " {index}"),
            Question::Normal(_, room) => write!(f, " {room}"),
            _ => Ok(()),
        }
    }
}

/// Bytes as the protocol writes them: lower-case hexadecimal, `-` for none.
pub fn hex(bytes: &[u8]) -> String {
    const DIGITS: &[u8; 16] = b"0123456789abcdef";
    if bytes.is_empty() {
        return "-".to_string();
    }
    let mut word = String::with_capacity(2 * bytes.len());
    for byte in bytes {
        word.push(char::from(DIGITS[usize::from(byte >> 4)]));
        word.push(char::from(DIGITS[usize::from(byte & 15)]));
    }
    word
}

fn from_hex(word: &str) -> Option<Text> {
    if word == "-" {
        return Some(Text::new());
    }
    let digits = word.as_bytes();
    if digits.is_empty() || digits.len() % 2 == 1 {
        return None;
    }
    digits.chunks(2).map(byte_from_hex).collect()
}

fn byte_from_hex(pair: &[u8]) -> Option<u8> {
    let high = char::from(pair[0]).to_digit(16)?;
    let low = char::from(pair[1]).to_digit(16)?;
    u8::try_from(16 * high + low).ok()
}
