//! The errors of builds and of searches.
use crate::search::MatchKind;
use std::{error::Error, fmt};

/// The reason why a searcher was not built.
#[derive(Clone, Debug, PartialEq, Eq)]
pub struct BuildError {
    text: String,
}

impl BuildError {
    pub(crate) fn of(text: String) -> BuildError {
        BuildError { text }
    }

    pub(crate) fn out_of_memory() -> BuildError {
        BuildError::of(String::from("out of memory"))
    }
}

impl fmt::Display for BuildError {
    fn fmt(&self, to: &mut fmt::Formatter<'_>) -> fmt::Result {
        to.write_str(&self.text)
    }
}

impl Error for BuildError {}

/// The error of a search that the searcher does not support.
#[derive(Clone, Debug, PartialEq, Eq)]
pub struct MatchError(Box<MatchErrorKind>);

/// The reason why a search was refused.
#[derive(Clone, Debug, PartialEq, Eq)]
#[non_exhaustive]
pub enum MatchErrorKind {
    /// The search is anchored, and the searcher was built for unanchored searches only.
    InvalidInputAnchored,
    /// The search is unanchored, and the searcher was built for anchored searches only.
    InvalidInputUnanchored,
    /// The call searches streams with the standard kind only: see `AhoCorasick::streams`.
    UnsupportedStream {
        /// The match kind of the searcher.
        got: MatchKind,
    },
    /// Overlapping matches are listed with the standard kind only.
    UnsupportedOverlapping {
        /// The match kind of the searcher.
        got: MatchKind,
    },
    /// A stream cannot be searched for an empty pattern.
    UnsupportedEmpty,
}

impl MatchError {
    /// Returns the error with this kind.
    pub fn new(kind: MatchErrorKind) -> MatchError {
        MatchError(Box::new(kind))
    }

    /// Returns the kind of the error.
    pub fn kind(&self) -> &MatchErrorKind {
        &self.0
    }

    /// Returns the error of an anchored search that is not supported.
    pub fn invalid_input_anchored() -> MatchError {
        MatchError::new(MatchErrorKind::InvalidInputAnchored)
    }

    /// Returns the error of an unanchored search that is not supported.
    pub fn invalid_input_unanchored() -> MatchError {
        MatchError::new(MatchErrorKind::InvalidInputUnanchored)
    }

    /// Returns the error of a stream with a match kind that is not supported.
    pub fn unsupported_stream(got: MatchKind) -> MatchError {
        MatchError::new(MatchErrorKind::UnsupportedStream { got })
    }

    /// Returns the error of an overlapping search with a match kind that is not supported.
    pub fn unsupported_overlapping(got: MatchKind) -> MatchError {
        MatchError::new(MatchErrorKind::UnsupportedOverlapping { got })
    }

    /// Returns the error of a stream that is searched for an empty pattern.
    pub fn unsupported_empty() -> MatchError {
        MatchError::new(MatchErrorKind::UnsupportedEmpty)
    }
}

impl fmt::Display for MatchError {
    fn fmt(&self, to: &mut fmt::Formatter<'_>) -> fmt::Result {
        match self.kind() {
            MatchErrorKind::InvalidInputAnchored => to.write_str("anchored searches are not supported or enabled"),
            MatchErrorKind::InvalidInputUnanchored => to.write_str("unanchored searches are not supported or enabled"),
            MatchErrorKind::UnsupportedStream { got } => write!(to, "match kind {got:?} does not support stream searching"),
            MatchErrorKind::UnsupportedOverlapping { got } => write!(to, "match kind {got:?} does not support overlapping searches"),
            MatchErrorKind::UnsupportedEmpty => to.write_str("matching with an empty pattern string is not supported for this operation"),
        }
    }
}

impl Error for MatchError {}
