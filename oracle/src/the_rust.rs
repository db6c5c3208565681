//! The Rust itself: its file is taken in where it lies, with no byte changed. What stands below is in
//! the same module, and so can reach what the Rust keeps private.

include!(concat!(env!("PEP440_RS_SRC"), "/version.rs"));

/// Reads a version. The Rust's `from_str` takes UTF-8 alone and hands its bytes to the parser; bytes
/// that are not UTF-8 go to the parser at once.
pub fn read(text: &[u8]) -> Result<Version, VersionParseError> {
    match std::str::from_utf8(text) {
        Ok(text) => text.parse(),
        Err(_) => Parser::new(text).parse(),
    }
}

/// Reads a pattern, in the same way.
pub fn read_pattern(text: &[u8]) -> Result<VersionPattern, VersionPatternParseError> {
    match std::str::from_utf8(text) {
        Ok(text) => text.parse(),
        Err(_) => Parser::new(text).parse_pattern(),
    }
}

/// The packed word, where the Rust holds the version in its small form.
pub fn word(version: &Version) -> Option<u64> {
    match *version.inner {
        VersionInner::Small { ref small } => Some(small.repr),
        VersionInner::Full { .. } => None,
    }
}

/// Why a version was refused.
pub fn error(refused: &VersionParseError) -> &ErrorKind {
    &refused.kind
}

/// Why a pattern was refused.
pub fn pattern_error(refused: &VersionPatternParseError) -> &PatternErrorKind {
    &refused.kind
}
