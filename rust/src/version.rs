//! What a version says.
use crate::ffi::{Fields, SegmentField};
use core::fmt;

/// The fields of a version, and the text that they were read from. Nothing is copied but numbers.
///
/// ```
/// use knappulf::{PreKind, Segment};
///
/// let version = knappulf::read(b"1!2.0rc3.dev4+Ubuntu.007").unwrap();
/// assert_eq!((version.epoch(), version.release()), (1, &[2, 0][..]));
/// assert_eq!(version.pre(), Some((PreKind::Candidate, 3)));
/// assert_eq!((version.post(), version.dev()), (None, Some(4)));
/// let label: Vec<_> = version.label().collect();
/// assert_eq!(label, [Segment::Text(b"Ubuntu"), Segment::Number(7)]);
/// ```
#[derive(Clone, Copy)]
pub struct Version<'a> {
    pub(crate) text: &'a [u8],
    pub(crate) fields: Fields,
}

/// The kind of a pre-release.
#[derive(Clone, Copy, Debug, PartialEq, Eq, PartialOrd, Ord, Hash)]
pub enum PreKind {
    Alpha,
    Beta,
    Candidate,
}

/// A segment of a local label. Text is a part of the text that was read, in the case in which it stands there.
#[derive(Clone, Copy, Debug, PartialEq, Eq, Hash)]
pub enum Segment<'a> {
    Number(u64),
    Text(&'a [u8]),
}

fn part(there: u64, number: u64) -> Option<u64> {
    (there != 0).then_some(number)
}

impl<'a> Version<'a> {
    /// No fields yet: the text is still to be read.
    pub(crate) fn blank(text: &'a [u8]) -> Self {
        Version { text, fields: Fields::default() }
    }

    pub fn epoch(&self) -> u64 {
        self.fields.epoch
    }

    /// The release numbers: at most 16.
    pub fn release(&self) -> &[u64] {
        &self.fields.release[..self.fields.release_count as usize]
    }

    pub fn pre(&self) -> Option<(PreKind, u64)> {
        let kind = match self.fields.pre_kind {
            1 => PreKind::Alpha,
            2 => PreKind::Beta,
            3 => PreKind::Candidate,
            _ => return None,
        };
        Some((kind, self.fields.pre_number))
    }

    pub fn post(&self) -> Option<u64> {
        part(self.fields.has_post, self.fields.post_number)
    }

    pub fn dev(&self) -> Option<u64> {
        part(self.fields.has_dev, self.fields.dev_number)
    }

    /// The segments of the local label: at most 16.
    pub fn label(&self) -> impl Iterator<Item = Segment<'a>> + '_ {
        let text = self.text;
        self.spans().map(move |span| match span.is_text {
            0 => Segment::Number(span.number),
            _ => Segment::Text(&text[span.start as usize..span.end as usize]),
        })
    }

    fn spans(&self) -> impl Iterator<Item = &SegmentField> {
        self.fields.segments[..self.fields.segment_count as usize].iter()
    }
}

impl fmt::Debug for Version<'_> {
    fn fmt(&self, out: &mut fmt::Formatter<'_>) -> fmt::Result {
        out.debug_struct("Version")
            .field("epoch", &self.epoch())
            .field("release", &self.release())
            .field("pre", &self.pre())
            .field("post", &self.post())
            .field("dev", &self.dev())
            .field("segments", &self.fields.segment_count)
            .finish()
    }
}
