//! A version that comes in lumps.
use crate::ffi::{self, Answer};
use crate::{Refusal, Version, answered};

/// What the library returns while there is no verdict: no refusal's number.
const NO_VERDICT: u8 = 255;

/// A reader of a version that comes in lumps of any length, off a bus for instance.
///
/// At the end mark it says what [`read`](crate::read) says of the uncut text. Until then there is no verdict; only a
/// text that is too long has one (number 8), as soon as a 1,025th byte comes. Nothing but a reset takes a verdict back.
///
/// ```
/// let mut fragments = knappulf::Fragments::new();
/// for lump in [&b"4."[..], b"", b"2-1"] {
///     fragments.take(lump);
///     assert!(fragments.verdict().is_none());
/// }
/// fragments.end();
/// assert_eq!(fragments.verdict().unwrap().unwrap().post(), Some(1));
///
/// // Every question about a version can be asked of the text that is held: nothing is copied.
/// let mut buffer = [0; knappulf::NORMAL_MOST];
/// assert_eq!(knappulf::normal(fragments.text(), &mut buffer), Ok(&b"4.2.post1"[..]));
///
/// fragments.reset();
/// assert!(fragments.take(&[b'1'; 1025]));
/// assert_eq!(fragments.verdict().unwrap().unwrap_err().number, 8);
/// ```
#[derive(Clone)]
pub struct Fragments {
    reader: ffi::Lumps,
}

impl Fragments {
    /// A reader that holds nothing.
    pub const fn new() -> Self {
        Fragments { reader: ffi::Lumps { bytes: [0; 1027] } }
    }

    /// Takes the next lump, in time that goes by its length, and says whether there is a verdict.
    pub fn take(&mut self, lump: &[u8]) -> bool {
        // SAFETY: the lump is alive, and a `&mut` overlaps nothing else.
        unsafe { ffi::knappulf_reader_take(&mut self.reader, lump.as_ptr(), lump.len()) != 0 }
    }

    /// The end mark: nothing of the text is missing.
    pub fn end(&mut self) {
        // SAFETY: the reader is this value's own.
        unsafe { ffi::knappulf_reader_end(&mut self.reader) }
    }

    /// Makes this a new reader.
    pub fn reset(&mut self) {
        // SAFETY: the reader is this value's own.
        unsafe { ffi::knappulf_reader_reset(&mut self.reader) }
    }

    /// What is said of the text; `None` while there is no verdict.
    pub fn verdict(&self) -> Option<Result<Version<'_>, Refusal>> {
        let mut version = Version::blank(self.text());
        let mut answer = Answer::default();
        // SAFETY: the reader is alive, and the two that are written are no part of it.
        let number = unsafe { ffi::knappulf_reader_verdict(&self.reader, &mut version.fields, &mut answer) };
        (number != NO_VERDICT).then(|| answered(number, answer).map(|_| version))
    }

    /// The text that came, for every question about a version. It is empty before the verdict, and of one that is too
    /// long there are 1,025 bytes, so that it is refused wherever it is put.
    pub fn text(&self) -> &[u8] {
        // SAFETY: the reader is alive.
        let length = unsafe { ffi::knappulf_reader_held(&self.reader) };
        &self.reader.bytes[..length]
    }
}

impl Default for Fragments {
    fn default() -> Self {
        Self::new()
    }
}

/// Every byte is taken, and no write fails: whether the text is too long is the verdict's to say. Flushing is no end mark.
///
/// ```
/// use std::io::Write;
///
/// let mut fragments = knappulf::Fragments::new();
/// write!(fragments, "{}.{}", 4, 2).unwrap();
/// fragments.end();
/// assert_eq!(fragments.verdict().unwrap().unwrap().release(), [4, 2]);
/// ```
#[cfg(feature = "std")]
impl std::io::Write for Fragments {
    fn write(&mut self, lump: &[u8]) -> std::io::Result<usize> {
        self.take(lump);
        Ok(lump.len())
    }

    fn flush(&mut self) -> std::io::Result<()> {
        Ok(())
    }
}
