//! What goes into a search, and what comes out.
use crate::ffi;
use std::error::Error;
use std::fmt;
use std::ops::{Bound, Index, Range, RangeBounds};

/// A place in a haystack: from byte `start` up to byte `end`.
#[derive(Clone, Copy, Debug, PartialEq, Eq, Hash)]
pub struct Span {
    /// Where it starts.
    pub start: usize,
    /// Where it ends; the byte here is outside.
    pub end: usize,
}

impl Span {
    /// The same as a range.
    pub fn range(&self) -> Range<usize> {
        self.start..self.end
    }

    /// Whether no byte is inside.
    pub fn is_empty(&self) -> bool {
        self.start >= self.end
    }

    /// How many bytes are inside.
    pub fn len(&self) -> usize {
        self.end.saturating_sub(self.start)
    }

    /// Whether the byte at `offset` is inside.
    pub fn contains(&self, offset: usize) -> bool {
        self.range().contains(&offset)
    }

    /// The span that lies `offset` bytes further on.
    pub fn offset(&self, offset: usize) -> Span {
        Span { start: self.start + offset, end: self.end + offset }
    }
}

impl From<Range<usize>> for Span {
    fn from(range: Range<usize>) -> Span {
        Span { start: range.start, end: range.end }
    }
}

impl From<Span> for Range<usize> {
    fn from(span: Span) -> Range<usize> {
        span.range()
    }
}

impl PartialEq<Range<usize>> for Span {
    fn eq(&self, range: &Range<usize>) -> bool {
        self.range() == *range
    }
}

impl PartialEq<Span> for Range<usize> {
    fn eq(&self, span: &Span) -> bool {
        *self == span.range()
    }
}

impl Index<Span> for [u8] {
    type Output = [u8];
    fn index(&self, span: Span) -> &[u8] {
        &self[span.range()]
    }
}

impl Index<Span> for str {
    type Output = str;
    fn index(&self, span: Span) -> &str {
        &self[span.range()]
    }
}

/// The number of a pattern: its place in the list that a searcher was built from.
#[derive(Clone, Copy, Debug, Default, PartialEq, Eq, PartialOrd, Ord, Hash)]
pub struct PatternID(u32);

impl PatternID {
    /// The greatest number.
    pub const MAX: PatternID = PatternID(i32::MAX as u32 - 1);

    /// A number, which is at most [`PatternID::MAX`].
    pub fn new(number: usize) -> Result<PatternID, PatternIDError> {
        match u32::try_from(number) {
            Ok(small) if small <= PatternID::MAX.0 => Ok(PatternID(small)),
            _ => Err(PatternIDError { attempted: number as u64 }),
        }
    }

    /// The same, which panics where the number is too large.
    pub fn must(number: usize) -> PatternID {
        PatternID::new(number).expect("the number of a pattern")
    }

    /// The number as a `usize`.
    pub fn as_usize(&self) -> usize {
        self.0 as usize
    }

    /// The number as a `u32`.
    pub fn as_u32(&self) -> u32 {
        self.0
    }
}

/// A number that is too large for a pattern.
#[derive(Clone, Debug, PartialEq, Eq)]
pub struct PatternIDError {
    attempted: u64,
}

impl PatternIDError {
    /// That number.
    pub fn attempted(&self) -> u64 {
        self.attempted
    }
}

impl fmt::Display for PatternIDError {
    fn fmt(&self, f: &mut fmt::Formatter<'_>) -> fmt::Result {
        write!(f, "{} is too large for the number of a pattern", self.attempted)
    }
}

impl Error for PatternIDError {}

/// A match: the number of a pattern, and where it was found.
#[derive(Clone, Copy, Debug, PartialEq, Eq, Hash)]
pub struct Match {
    pattern: PatternID,
    span: Span,
}

impl Match {
    /// A match of a pattern in a span. Panics where the span starts past its end.
    pub fn new<S: Into<Span>>(pattern: PatternID, span: S) -> Match {
        let span = span.into();
        assert!(span.start <= span.end, "the span of a match starts past its end");
        Match { pattern, span }
    }

    /// The same by the pattern's number. Panics, too, where that is too large.
    pub fn must<S: Into<Span>>(pattern: usize, span: S) -> Match {
        Match::new(PatternID::must(pattern), span)
    }

    /// A match that the library found: its number is that of a pattern, and it starts no later than it ends.
    #[inline]
    pub(crate) fn found(found: ffi::Match) -> Match {
        Match { pattern: PatternID(found.pattern as u32), span: Span { start: found.start, end: found.end } }
    }

    /// The number of the pattern.
    #[inline]
    pub fn pattern(&self) -> PatternID {
        self.pattern
    }

    /// Where the match starts.
    #[inline]
    pub fn start(&self) -> usize {
        self.span.start
    }

    /// Where the match ends.
    #[inline]
    pub fn end(&self) -> usize {
        self.span.end
    }

    /// Where the match is, as a range.
    #[inline]
    pub fn range(&self) -> Range<usize> {
        self.span.range()
    }

    /// Where the match is.
    #[inline]
    pub fn span(&self) -> Span {
        self.span
    }

    /// Whether the pattern is the empty one.
    #[inline]
    pub fn is_empty(&self) -> bool {
        self.span.is_empty()
    }

    /// How long the match is.
    #[inline]
    pub fn len(&self) -> usize {
        self.span.len()
    }

    /// The match that lies `offset` bytes further on.
    pub fn offset(&self, offset: usize) -> Match {
        Match { pattern: self.pattern, span: self.span.offset(offset) }
    }
}

/// Which of several overlapping occurrences is picked. Of equal ones it is the first in the list.
#[non_exhaustive]
#[derive(Clone, Copy, Debug, Default, PartialEq, Eq)]
pub enum MatchKind {
    /// The one that ends first; of these the one that starts first.
    #[default]
    Standard,
    /// The one that starts first; of these the first in the list.
    LeftmostFirst,
    /// The one that starts first; of these the longest.
    LeftmostLongest,
}

/// Which searches a searcher supports.
#[derive(Clone, Copy, Debug, Default, PartialEq, Eq)]
pub enum StartKind {
    /// Anchored and unanchored ones.
    Both,
    /// Unanchored ones.
    #[default]
    Unanchored,
    /// Anchored ones.
    Anchored,
}

/// Whether a match has to begin where the search does.
#[derive(Clone, Copy, Debug, PartialEq, Eq)]
pub enum Anchored {
    /// It may begin anywhere in the span.
    No,
    /// It has to begin at the span's start; in a walk, where the match before ended.
    Yes,
}

impl Anchored {
    /// Whether it is `Yes`.
    pub fn is_anchored(&self) -> bool {
        *self == Anchored::Yes
    }
}

/// A haystack, the span of it that is searched, and how.
///
/// ```
/// use aho_corasick_rattle::{AhoCorasick, Input, Match};
///
/// let searcher = AhoCorasick::new(["abc"])?;
/// assert_eq!(searcher.find(Input::new("xabcx").range(1..)), Some(Match::must(0, 1..4)));
/// assert_eq!(searcher.find(Input::new("xabcx").range(2..)), None);
/// # Ok::<(), aho_corasick_rattle::BuildError>(())
/// ```
#[derive(Clone)]
pub struct Input<'h> {
    haystack: &'h [u8],
    span: Span,
    anchored: Anchored,
    earliest: bool,
}

impl<'h> Input<'h> {
    /// The whole of a haystack, unanchored.
    pub fn new<H: ?Sized + AsRef<[u8]>>(haystack: &'h H) -> Input<'h> {
        let haystack = haystack.as_ref();
        Input { haystack, span: Span::from(0..haystack.len()), anchored: Anchored::No, earliest: false }
    }

    /// Sets the span. Panics where its end lies past the haystack, or its start more than one past its end.
    pub fn span<S: Into<Span>>(mut self, span: S) -> Input<'h> {
        self.set_span(span);
        self
    }

    /// Sets the span by a range. Panics as [`Input::span`] does.
    pub fn range<R: RangeBounds<usize>>(mut self, range: R) -> Input<'h> {
        self.set_range(range);
        self
    }

    /// Sets whether the search is anchored.
    pub fn anchored(mut self, anchored: Anchored) -> Input<'h> {
        self.set_anchored(anchored);
        self
    }

    /// Sets whether the search picks as [`MatchKind::Standard`] does: what is known to match first.
    pub fn earliest(mut self, yes: bool) -> Input<'h> {
        self.set_earliest(yes);
        self
    }

    /// [`Input::span`], in place.
    pub fn set_span<S: Into<Span>>(&mut self, span: S) {
        let span = span.into();
        let is_inside = span.end <= self.haystack.len() && (span.start <= span.end || span.start - 1 == span.end);
        assert!(is_inside, "no span {span:?} in a haystack of length {}", self.haystack.len());
        self.span = span;
    }

    /// [`Input::range`], in place.
    pub fn set_range<R: RangeBounds<usize>>(&mut self, range: R) {
        let start = match range.start_bound() {
            Bound::Included(&at) => at,
            Bound::Excluded(&at) => at.checked_add(1).expect("a range that starts in the haystack"),
            Bound::Unbounded => 0,
        };
        let end = match range.end_bound() {
            Bound::Included(&at) => at.checked_add(1).expect("a range that ends in the haystack"),
            Bound::Excluded(&at) => at,
            Bound::Unbounded => self.haystack.len(),
        };
        self.set_span(start..end);
    }

    /// Sets where the span starts. Panics as [`Input::span`] does.
    pub fn set_start(&mut self, start: usize) {
        self.set_span(start..self.end());
    }

    /// Sets where the span ends. Panics as [`Input::span`] does.
    pub fn set_end(&mut self, end: usize) {
        self.set_span(self.start()..end);
    }

    /// [`Input::anchored`], in place.
    pub fn set_anchored(&mut self, anchored: Anchored) {
        self.anchored = anchored;
    }

    /// [`Input::earliest`], in place.
    pub fn set_earliest(&mut self, yes: bool) {
        self.earliest = yes;
    }

    /// All of the haystack.
    pub fn haystack(&self) -> &'h [u8] {
        self.haystack
    }

    /// Where the span starts.
    pub fn start(&self) -> usize {
        self.span.start
    }

    /// Where the span ends.
    pub fn end(&self) -> usize {
        self.span.end
    }

    /// The span.
    pub fn get_span(&self) -> Span {
        self.span
    }

    /// The span as a range.
    pub fn get_range(&self) -> Range<usize> {
        self.span.range()
    }

    /// Whether the search is anchored.
    pub fn get_anchored(&self) -> Anchored {
        self.anchored
    }

    /// Whether the search is an earliest one.
    pub fn get_earliest(&self) -> bool {
        self.earliest
    }

    /// Whether the span starts past its end, so that nothing occurs in it, not even an empty pattern.
    pub fn is_done(&self) -> bool {
        self.span.start > self.span.end
    }

    /// The span for the library, which knows none that starts past its end: that of a done input is empty.
    #[inline]
    pub(crate) fn raw_span(&self) -> ffi::Span {
        ffi::Span {
            start: self.span.start.min(self.span.end),
            end: self.span.end,
            anchored: self.anchored.is_anchored().into(),
            earliest: self.earliest.into(),
        }
    }
}

impl fmt::Debug for Input<'_> {
    fn fmt(&self, f: &mut fmt::Formatter<'_>) -> fmt::Result {
        f.debug_struct("Input")
            .field("haystack", &String::from_utf8_lossy(self.haystack))
            .field("span", &self.span)
            .field("anchored", &self.anchored)
            .field("earliest", &self.earliest)
            .finish()
    }
}

impl<'h, H: ?Sized + AsRef<[u8]>> From<&'h H> for Input<'h> {
    fn from(haystack: &'h H) -> Input<'h> {
        Input::new(haystack)
    }
}
