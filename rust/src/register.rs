//! Which table of a register fits a unit.
use crate::ffi::{self, Answer};
use crate::{Input, Refused, answered_of};

/// An entry of a register: an identifier from 1 to 65535, and where its table lies in the buffer.
#[derive(Clone, Copy, Debug, Default, PartialEq, Eq, Hash)]
pub struct Entry {
    pub id: u16,
    pub start: usize,
    pub length: usize,
}

/// The identifiers whose tables hold a version.
#[derive(Clone, Copy, Debug, PartialEq, Eq, Hash)]
pub enum Fit {
    /// There is none.
    Nothing,
    /// There is this one.
    One(u16),
    /// There are several; these are the two lowest.
    Several(u16, u16),
}

/// A 65th entry is one too many, whatever follows.
const MOST_READ: usize = 65;

/// Which tables of a register hold a version.
///
/// ```
/// use knappulf::{Entry, Fit};
///
/// let mut buffer = [0; 64];
/// let low = knappulf::compile(b"<4.2", &mut buffer).unwrap().len();
/// let high = knappulf::compile(b">=4.2", &mut buffer[low..]).unwrap().len();
/// let entries = [Entry { id: 7, start: 0, length: low }, Entry { id: 3, start: low, length: high }];
/// assert_eq!(knappulf::fit(&entries, &buffer, b"4.3"), Ok(Fit::One(3)));
/// let twice = [entries[0], entries[0]];
/// assert_eq!(
///     knappulf::fit(&twice, &buffer, b"4.3").unwrap_err().to_string(),
///     "entry 1 of the register is refused: an earlier entry has the identifier (number 32)"
/// );
/// ```
pub fn fit(entries: &[Entry], buffer: &[u8], version: &[u8]) -> Result<Fit, Refused> {
    let count = entries.len().min(MOST_READ);
    let (mut ids, mut starts, mut lengths) = ([0; MOST_READ], [0; MOST_READ], [0; MOST_READ]);
    for (i, entry) in entries[..count].iter().enumerate() {
        (ids[i], starts[i], lengths[i]) = (entry.id, entry.start, entry.length);
    }
    let mut answer = Answer::default();
    let (buffer_at, version_at) = (buffer.as_ptr(), version.as_ptr());
    // SAFETY: the arrays have `count` entries and more, both slices are alive, and the answer is this function's own.
    let number = unsafe {
        ffi::knappulf_register(
            ids.as_ptr(), count, starts.as_ptr(), count, lengths.as_ptr(), count,
            buffer_at, buffer.len(), version_at, version.len(), &mut answer,
        )
    };
    let value = answered_of(number, answer, Input::Register)?;
    Ok(match ((value % 65536) as u16, (value / 65536) as u16) {
        (0, _) => Fit::Nothing,
        (lowest, 0) => Fit::One(lowest),
        (lowest, second) => Fit::Several(lowest, second),
    })
}
