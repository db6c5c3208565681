//! Stands in for the crate of this name: what the Rust's specifiers use of it, and no slower.

/// A text, and how far it was read.
pub struct Scanner<'a> {
    text: &'a str,
    at: usize,
}

/// Which characters are meant: those of an array, or by a test.
pub trait Pattern {
    fn fits(&mut self, c: char) -> bool;
}

impl<const N: usize> Pattern for [char; N] {
    #[inline]
    fn fits(&mut self, c: char) -> bool {
        self.contains(&c)
    }
}

impl<F: FnMut(char) -> bool> Pattern for F {
    #[inline]
    fn fits(&mut self, c: char) -> bool {
        self(c)
    }
}

impl<'a> Scanner<'a> {
    #[inline]
    pub fn new(text: &'a str) -> Self {
        Scanner { text, at: 0 }
    }

    #[inline]
    pub fn after(&self) -> &'a str {
        &self.text[self.at..]
    }

    #[inline]
    pub fn done(&self) -> bool {
        self.at == self.text.len()
    }

    /// The characters from here on that are meant; they count as read.
    #[inline]
    pub fn eat_while(&mut self, mut pattern: impl Pattern) -> &'a str {
        let rest = self.after();
        let end = rest.char_indices().find(|&(_, c)| !pattern.fits(c)).map_or(rest.len(), |(i, _)| i);
        self.at += end;
        &rest[..end]
    }
}
