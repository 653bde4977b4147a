//! Searches for many patterns at once. The searcher is a static library in which every function is proved; this crate is
//! safe Rust over it, with the names and calls of the crate `aho-corasick` 1.1.5.
//!
//! ```
//! use aho_corasick_rattle::AhoCorasick;
//!
//! let searcher = AhoCorasick::new(["apple", "maple", "Snapple"])?;
//! let text = "Nobody likes maple in their apple flavored Snapple.";
//! let found: Vec<_> = searcher.find_iter(text).map(|m| (m.pattern().as_usize(), &text[m.range()])).collect();
//! assert_eq!(found, [(1, "maple"), (0, "apple"), (2, "Snapple")]);
//! # Ok::<(), aho_corasick_rattle::BuildError>(())
//! ```
//!
//! What differs from that crate:
//!
//! - [`AhoCorasickBuilder::build`] returns an error where there is no memory for the searcher.
//! - An iterator looks for up to 128 matches at once, so its first item may come after most of the haystack was read. For
//!   one match use [`AhoCorasick::find`]. Between two such batches as many bytes as the longest pattern has may be read again.
//! - With `earliest` each match kind picks what [`MatchKind::Standard`] does, prefilter or not.
//! - Under a leftmost kind an empty pattern is picked like any other. An anchored walk may pass one byte after it.
//! - [`AhoCorasick::is_match`] panics wherever [`AhoCorasick::find`] does, whatever the engine.
//! - [`AhoCorasick::stream_find_iter`], [`AhoCorasick::try_stream_replace_all`] and those beside them serve each match kind.
//!   They give a match, and write what lies before it, before more is read than it takes to know it. After an error of the
//!   reader an iterator ends, but a read that was interrupted is made again.
//! - `find_overlapping` with its state, the modules of the engines and `packed` are absent. The figures of
//!   [`AhoCorasick::memory_usage`] and the texts of errors and of `Debug` are others.
#![deny(unsafe_code)]
#![warn(missing_docs, missing_debug_implementations)]

mod ahocorasick;
mod error;
#[allow(unsafe_code)]
mod ffi;
mod iter;
mod replace;
mod search;
mod stream;

pub use crate::ahocorasick::{AhoCorasick, AhoCorasickBuilder, AhoCorasickKind};
pub use crate::error::{BuildError, MatchError, MatchErrorKind};
pub use crate::iter::{FindIter, FindOverlappingIter};
pub use crate::search::{Anchored, Input, Match, MatchKind, PatternID, PatternIDError, Span, StartKind};
pub use crate::stream::StreamFindIter;
