//! Errors of a build and of a search.
use crate::ffi::Refusal;
use crate::search::MatchKind;
use std::error::Error;
use std::fmt;

/// Why no searcher could be built.
#[derive(Clone, Debug)]
pub struct BuildError {
    is_memory: bool,
}

impl BuildError {
    pub(crate) fn of(refusal: Refusal) -> BuildError {
        match refusal {
            Refusal::Memory => BuildError { is_memory: true },
            Refusal::Limit => BuildError { is_memory: false },
            _ => unreachable!("a build isn't refused for {refusal:?}"),
        }
    }
}

impl fmt::Display for BuildError {
    fn fmt(&self, f: &mut fmt::Formatter<'_>) -> fmt::Result {
        f.write_str(if self.is_memory {
            "there is no memory for the searcher"
        } else {
            "too many patterns, a pattern too long, or too many states"
        })
    }
}

impl Error for BuildError {}

/// Why a searcher refuses a search. It depends on the settings of the searcher and of the [`Input`](crate::Input), and not
/// on the haystack.
///
/// ```
/// use aho_corasick_rattle::{AhoCorasick, MatchError, MatchErrorKind};
/// # fn main() -> Result<(), Box<dyn std::error::Error>> {
///
/// let error = AhoCorasick::new([""])?.try_stream_find_iter("a".as_bytes()).unwrap_err();
/// assert_eq!(error.kind(), &MatchErrorKind::UnsupportedEmpty);
/// assert_eq!(error, MatchError::unsupported_empty());
/// # Ok(())
/// # }
/// ```
#[derive(Clone, Debug, PartialEq, Eq)]
pub struct MatchError(MatchErrorKind);

/// The reasons for a [`MatchError`].
#[non_exhaustive]
#[derive(Clone, Debug, PartialEq, Eq)]
pub enum MatchErrorKind {
    /// An anchored search was asked for and isn't supported.
    InvalidInputAnchored,
    /// An unanchored search was asked for and isn't supported.
    InvalidInputUnanchored,
    /// An overlapping search was asked for, and the match kind isn't [`MatchKind::Standard`].
    UnsupportedOverlapping {
        /// The searcher's match kind.
        got: MatchKind,
    },
    /// A search of a text in pieces was asked for, and isn't supported for the match kind. All kinds support it here, so no
    /// search has this error.
    UnsupportedStream {
        /// The searcher's match kind.
        got: MatchKind,
    },
    /// A search of a text in pieces was asked for, and a pattern is empty.
    UnsupportedEmpty,
}

impl MatchError {
    /// The error of a searcher of a match kind.
    pub(crate) fn of(refusal: Refusal, got: MatchKind) -> MatchError {
        MatchError(match refusal {
            Refusal::Anchored => MatchErrorKind::InvalidInputAnchored,
            Refusal::Unanchored => MatchErrorKind::InvalidInputUnanchored,
            Refusal::Overlapping => MatchErrorKind::UnsupportedOverlapping { got },
            Refusal::EmptyPattern => MatchErrorKind::UnsupportedEmpty,
            _ => unreachable!("a search isn't refused for {refusal:?}"),
        })
    }

    /// Returns an error for this reason.
    pub fn new(kind: MatchErrorKind) -> MatchError {
        MatchError(kind)
    }

    /// Returns an error of [`MatchErrorKind::InvalidInputAnchored`].
    pub fn invalid_input_anchored() -> MatchError {
        MatchError(MatchErrorKind::InvalidInputAnchored)
    }

    /// Returns an error of [`MatchErrorKind::InvalidInputUnanchored`].
    pub fn invalid_input_unanchored() -> MatchError {
        MatchError(MatchErrorKind::InvalidInputUnanchored)
    }

    /// Returns an error of [`MatchErrorKind::UnsupportedStream`], of a searcher of this match kind.
    pub fn unsupported_stream(got: MatchKind) -> MatchError {
        MatchError(MatchErrorKind::UnsupportedStream { got })
    }

    /// Returns an error of [`MatchErrorKind::UnsupportedOverlapping`], of a searcher of this match kind.
    pub fn unsupported_overlapping(got: MatchKind) -> MatchError {
        MatchError(MatchErrorKind::UnsupportedOverlapping { got })
    }

    /// Returns an error of [`MatchErrorKind::UnsupportedEmpty`].
    pub fn unsupported_empty() -> MatchError {
        MatchError(MatchErrorKind::UnsupportedEmpty)
    }

    /// Returns the reason.
    pub fn kind(&self) -> &MatchErrorKind {
        &self.0
    }
}

impl fmt::Display for MatchError {
    fn fmt(&self, f: &mut fmt::Formatter<'_>) -> fmt::Result {
        match self.0 {
            MatchErrorKind::InvalidInputAnchored => f.write_str("the searcher doesn't support anchored searches"),
            MatchErrorKind::InvalidInputUnanchored => f.write_str("the searcher doesn't support unanchored searches"),
            MatchErrorKind::UnsupportedOverlapping { got } => {
                write!(f, "overlapping searches need MatchKind::Standard, and the searcher has {got:?}")
            }
            MatchErrorKind::UnsupportedStream { got } => {
                write!(f, "a searcher with {got:?} doesn't support texts in pieces")
            }
            MatchErrorKind::UnsupportedEmpty => f.write_str("a text in pieces can't be searched for an empty pattern"),
        }
    }
}

impl Error for MatchError {}
