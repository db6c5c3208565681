//! Versions in the style of PEP 440, whole or in lumps, lists of version clauses, the range tables compiled from them,
//! and registers of such tables.
//!
//! The work is done by a library written in Rattle, whose every function is proved to meet its contract; this crate
//! hands it slices and gives its answers types. Nothing is allocated, and texts are bytes. With the feature `std`
//! [`Fragments`] is a `std::io::Write`.
//!
//! ```
//! # fn main() -> Result<(), knappulf::Refused> {
//! assert!(knappulf::accepts(b">=4.2,!=4.3", b"4.2.1")?);
//! assert!(knappulf::compare(b"4.9", b"4.10")?.is_lt());
//! # Ok(())
//! # }
//! ```
#![no_std]

#[cfg(feature = "std")]
extern crate std;

mod ffi;
mod fragments;
mod refusal;
mod register;
mod version;

pub use fragments::Fragments;
pub use refusal::{Input, Refusal, Refused};
pub use register::{Entry, Fit, fit};
pub use version::{PreKind, Segment, Version};

use core::cmp::Ordering;
use ffi::{Answer, Counter, Judge, Reader, Writer};

/// A buffer of so many bytes holds the normal text of any version.
pub const NORMAL_MOST: usize = 1033;

/// The packed word of a small version. Words compare as their versions do.
#[derive(Clone, Copy, Debug, PartialEq, Eq, PartialOrd, Ord, Hash)]
pub struct Word(pub u64);

fn answered(number: u8, answer: Answer) -> Result<u64, Refusal> {
    match number {
        0 => Ok(answer.value),
        _ => Err(Refusal { number, place: answer.place as usize }),
    }
}

/// The same, with what is refused: the second input, or else this one.
fn answered_of(number: u8, answer: Answer, first: Input) -> Result<u64, Refused> {
    let input = if answer.of == 2 { Input::Second } else { first };
    answered(number, answer).map_err(|refusal| Refused { input, refusal })
}

/// Reads into the version, and answers with the call's value.
fn read_by(reader: Reader, version: &mut Version<'_>) -> Result<u64, Refusal> {
    let mut answer = Answer::default();
    // SAFETY: the text is alive, and the two that are written are no part of it.
    let number = unsafe { reader(version.text.as_ptr(), version.text.len(), &mut version.fields, &mut answer) };
    answered(number, answer)
}

fn write_by<'b>(writer: Writer, text: &[u8], buffer: &'b mut [u8]) -> Result<&'b [u8], Refusal> {
    let mut answer = Answer::default();
    // SAFETY: both slices are alive, and a `&mut` overlaps nothing else.
    let number = unsafe { writer(text.as_ptr(), text.len(), buffer.as_mut_ptr(), buffer.len(), &mut answer) };
    let length = answered(number, answer)?;
    Ok(&buffer[..length as usize])
}

fn judge_by(judge: Judge, first: &[u8], second: &[u8]) -> Result<u64, Refused> {
    let mut answer = Answer::default();
    // SAFETY: both slices are alive, and the answer is this function's own.
    let number = unsafe { judge(first.as_ptr(), first.len(), second.as_ptr(), second.len(), &mut answer) };
    answered_of(number, answer, Input::First)
}

fn count_by(counter: Counter, text: &[u8]) -> Result<u64, Refusal> {
    let mut answer = Answer::default();
    // SAFETY: the slice is alive, and the answer is this function's own.
    let number = unsafe { counter(text.as_ptr(), text.len(), &mut answer) };
    answered(number, answer)
}

/// Reads a version.
///
/// ```
/// assert_eq!(knappulf::read(b"v1.0-1").unwrap().post(), Some(1));
/// assert_eq!(knappulf::read(b"1.*").unwrap_err().number, 6);
/// ```
pub fn read(text: &[u8]) -> Result<Version<'_>, Refusal> {
    let mut version = Version::blank(text);
    read_by(ffi::knappulf_read, &mut version)?;
    Ok(version)
}

/// Reads a version that a wildcard `.*` may follow, and says whether it does.
///
/// ```
/// let (version, wildcard) = knappulf::pattern(b"1.2.*").unwrap();
/// assert_eq!((version.release(), wildcard), (&[1, 2][..], true));
/// ```
pub fn pattern(text: &[u8]) -> Result<(Version<'_>, bool), Refusal> {
    let mut version = Version::blank(text);
    let wildcard = read_by(ffi::knappulf_pattern, &mut version)?;
    Ok((version, wildcard != 0))
}

/// The text segment of a version's label with that index, as a part of the text: empty for a number, a missing
/// segment or a refused text.
///
/// ```
/// assert_eq!(knappulf::segment(b"1+18.Abc", 1), b"Abc");
/// assert_eq!(knappulf::segment(b"1+18.Abc", 0), b"");
/// ```
pub fn segment(text: &[u8], index: usize) -> &[u8] {
    let mut start = 0;
    // SAFETY: the slice is alive, and the place is this function's own.
    let length = unsafe { ffi::knappulf_segment(text.as_ptr(), text.len(), index, &mut start) };
    &text[start as usize..][..length]
}

/// Writes a version's normal text to the front of a buffer, and gives that part of it.
///
/// A refused call leaves the buffer as it was, and success what lies after the text.
///
/// ```
/// let mut buffer = [0; knappulf::NORMAL_MOST];
/// assert_eq!(knappulf::normal(b" V1.0-1+Ubuntu.007", &mut buffer).unwrap(), b"1.0.post1+ubuntu.7");
/// let short = knappulf::normal(b"1.0", &mut buffer[..2]).unwrap_err();
/// assert_eq!((short.number, short.place), (11, 3));
/// ```
pub fn normal<'b>(text: &[u8], buffer: &'b mut [u8]) -> Result<&'b [u8], Refusal> {
    write_by(ffi::knappulf_normal, text, buffer)
}

/// How the first version compares with the second.
///
/// ```
/// let order = knappulf::compare(b"1.0.dev1", b"1.0a1").unwrap();
/// assert!(order.is_lt());
/// ```
pub fn compare(first: &[u8], second: &[u8]) -> Result<Ordering, Refused> {
    Ok(judge_by(ffi::knappulf_compare, first, second)?.cmp(&1))
}

/// The packed word of a version; `None` where the version is not small.
///
/// ```
/// use knappulf::Word;
///
/// assert_eq!(knappulf::word(b"1.2.3"), Ok(Some(Word(0x0001_0203_00a0_0000))));
/// assert_eq!(knappulf::word(b"65536"), Ok(None));
/// ```
pub fn word(text: &[u8]) -> Result<Option<Word>, Refusal> {
    let word = count_by(ffi::knappulf_word, text)?;
    Ok((word != 0).then_some(Word(word)))
}

/// How many clauses a list has.
///
/// ```
/// assert_eq!(knappulf::check(b">=4.2, !=4.3.*"), Ok(2));
/// assert_eq!(knappulf::check(b">=4.2,").unwrap_err().to_string(), "refused at byte 6: a clause is empty (number 12)");
/// ```
pub fn check(list: &[u8]) -> Result<usize, Refusal> {
    count_by(ffi::knappulf_check, list).map(|count| count as usize)
}

/// Whether every clause of a list accepts a version.
///
/// ```
/// use knappulf::{Input, Refusal, Refused};
///
/// assert_eq!(knappulf::accepts(b"~=4.2.1", b"4.2.9"), Ok(true));
/// let refusal = Refusal { number: 1, place: 0 };
/// assert_eq!(knappulf::accepts(b"~=4.2.1", b"x"), Err(Refused { input: Input::Second, refusal }));
/// ```
pub fn accepts(list: &[u8], version: &[u8]) -> Result<bool, Refused> {
    judge_by(ffi::knappulf_accepts, list, version).map(|yes| yes != 0)
}

/// Writes the range table of a list to the front of a buffer, and gives that part of it.
///
/// A refused call leaves the buffer as it was, and success what lies after the table. A call with no buffer tells
/// how long the table is:
///
/// ```
/// assert_eq!(knappulf::compile(b">=4.2,!=4.3", &mut []).unwrap_err().place, 31);
/// let mut buffer = [0; 31];
/// let table = knappulf::compile(b">=4.2,!=4.3", &mut buffer).unwrap();
/// assert_eq!(knappulf::lookup(table, b"4.3.0+b1"), Ok(false));
/// ```
pub fn compile<'b>(list: &[u8], buffer: &'b mut [u8]) -> Result<&'b [u8], Refusal> {
    write_by(ffi::knappulf_compile, list, buffer)
}

/// Whether a range table holds a version.
///
/// ```
/// let no_table = knappulf::lookup(b"no table", b"1").unwrap_err();
/// assert_eq!(no_table.to_string(), "the first input is refused: the range table is not well formed (number 18)");
/// ```
pub fn lookup(table: &[u8], version: &[u8]) -> Result<bool, Refused> {
    judge_by(ffi::knappulf_lookup, table, version).map(|yes| yes != 0)
}
