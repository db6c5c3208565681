//! Why a call gave no other answer.
use core::error::Error;
use core::fmt;

/// A refusal: its number, and the place that it is about, in bytes from 0.
///
/// For number 11, a buffer that is too short, the place is the length that is needed. In a register it is the index of
/// the guilty entry.
///
/// ```
/// let refusal = knappulf::read(b"1.0-").unwrap_err();
/// assert_eq!((refusal.number, refusal.place), (5, 3));
/// assert_eq!(refusal.to_string(), "refused at byte 3: bytes are left over (number 5)");
/// ```
#[derive(Clone, Copy, Debug, PartialEq, Eq, Hash)]
pub struct Refusal {
    pub number: u8,
    pub place: usize,
}

/// Which input is refused.
#[derive(Clone, Copy, Debug, PartialEq, Eq, Hash)]
pub enum Input {
    /// The first text, the list or the table.
    First,
    /// The second text, or the version.
    Second,
    /// A register, at one of its entries.
    Register,
}

/// A refusal of one of several inputs.
#[derive(Clone, Copy, Debug, PartialEq, Eq, Hash)]
pub struct Refused {
    pub input: Input,
    pub refusal: Refusal,
}

impl Refusal {
    /// The reason, in words.
    pub fn reason(self) -> &'static str {
        match self.number {
            1 => "a version begins with a number, and there is no digit",
            2 => "a release number must follow the epoch's `!`",
            3 => "a number is 2^64 or more",
            4 => "a segment of the local label has no byte",
            5 => "bytes are left over",
            6 => "a version has no wildcard `.*`",
            7 => "nothing may follow the wildcard `.*`",
            8 => "a text or list has at most 1,024 bytes",
            9 => "a release has at most 16 numbers",
            10 => "a local label has at most 16 segments",
            11 => "the buffer is too short",
            12 => "a clause is empty",
            13 => "a clause begins with one of ==, !=, ~=, <=, >=, <, >",
            14 => "only == and != take a wildcard",
            15 => "a clause's version has no local label",
            16 => "~= asks for at least two release numbers",
            17 => "a list has at most 16 clauses",
            18 => "the range table is not well formed",
            30 => "a register has at most 64 entries",
            31 => "an identifier is not 0",
            32 => "an earlier entry has the identifier",
            33 => "the table lies outside the buffer",
            _ => "the library gave a number that has no meaning",
        }
    }
}

impl fmt::Display for Refusal {
    fn fmt(&self, out: &mut fmt::Formatter<'_>) -> fmt::Result {
        let (place, reason, number) = (self.place, self.reason(), self.number);
        match number {
            11 => write!(out, "refused: {reason}, {place} bytes are needed (number {number})"),
            18 | 30..=33 => write!(out, "refused: {reason} (number {number})"),
            _ => write!(out, "refused at byte {place}: {reason} (number {number})"),
        }
    }
}

impl fmt::Display for Refused {
    fn fmt(&self, out: &mut fmt::Formatter<'_>) -> fmt::Result {
        match self.input {
            Input::First => write!(out, "the first input is {}", self.refusal),
            Input::Second => write!(out, "the second input is {}", self.refusal),
            Input::Register => write!(out, "entry {} of the register is {}", self.refusal.place, self.refusal),
        }
    }
}

impl Error for Refusal {}

impl Error for Refused {}
