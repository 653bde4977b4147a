//! The searcher and its builder.
use crate::error::{BuildError, MatchError};
use crate::ffi::{self, Facts, Handle, Mode, Refusal, Stream};
use crate::iter::{FindIter, FindOverlappingIter};
use crate::search::{Anchored, Input, Match, MatchKind, StartKind};
use std::fmt;
use std::io;
use std::sync::Arc;

/// Which engine a searcher uses. It changes no answer.
#[non_exhaustive]
#[derive(Clone, Copy, Debug, PartialEq, Eq)]
pub enum AhoCorasickKind {
    /// A trie with failure links, quick to build.
    NoncontiguousNFA,
    /// The same, packed into words. It takes the least memory.
    ContiguousNFA,
    /// A table of all transitions. It is the fastest, and takes the most memory.
    DFA,
}

/// The settings of a searcher.
#[derive(Clone, Debug)]
pub struct AhoCorasickBuilder {
    options: ffi::Options,
}

impl Default for AhoCorasickBuilder {
    fn default() -> AhoCorasickBuilder {
        AhoCorasickBuilder::new()
    }
}

impl AhoCorasickBuilder {
    /// Returns the default settings: [`MatchKind::Standard`], [`StartKind::Unanchored`], case matters, and the builder chooses
    /// the engine.
    pub fn new() -> AhoCorasickBuilder {
        let options = ffi::Options {
            match_kind: 0,
            start_kind: 0,
            engine: 0,
            ignore_case: 0,
            prefilter: 1,
            byte_classes: 1,
            dense_depth: 2,
        };
        AhoCorasickBuilder { options }
    }

    /// Builds a searcher, which keeps a copy of the patterns. It is an error if there are too many patterns, if one is too
    /// long, if there would be too many states, or if there is no memory.
    pub fn build<I, P>(&self, patterns: I) -> Result<AhoCorasick, BuildError>
    where
        I: IntoIterator<Item = P>,
        P: AsRef<[u8]>,
    {
        let (mut bytes, mut ends) = (Vec::new(), Vec::new());
        for pattern in patterns {
            bytes.extend_from_slice(pattern.as_ref());
            ends.push(bytes.len());
        }
        let handle = Handle::open(&self.options, &bytes, &ends).map_err(BuildError::of)?;
        Ok(AhoCorasick { facts: handle.facts(), handle: Arc::new(handle) })
    }

    /// Sets which of several overlapping occurrences is the match.
    pub fn match_kind(&mut self, kind: MatchKind) -> &mut AhoCorasickBuilder {
        self.options.match_kind = match kind {
            MatchKind::Standard => 0,
            MatchKind::LeftmostFirst => 1,
            MatchKind::LeftmostLongest => 2,
        };
        self
    }

    /// Sets which searches are supported.
    pub fn start_kind(&mut self, kind: StartKind) -> &mut AhoCorasickBuilder {
        self.options.start_kind = match kind {
            StartKind::Unanchored => 0,
            StartKind::Anchored => 1,
            StartKind::Both => 2,
        };
        self
    }

    /// Sets whether the two cases of an ASCII letter count as one.
    pub fn ascii_case_insensitive(&mut self, yes: bool) -> &mut AhoCorasickBuilder {
        self.options.ignore_case = yes.into();
        self
    }

    /// Sets the engine. With `None` it depends on the number of patterns.
    pub fn kind(&mut self, kind: Option<AhoCorasickKind>) -> &mut AhoCorasickBuilder {
        self.options.engine = match kind {
            None => 0,
            Some(AhoCorasickKind::NoncontiguousNFA) => 1,
            Some(AhoCorasickKind::ContiguousNFA) => 2,
            Some(AhoCorasickKind::DFA) => 3,
        };
        self
    }

    /// Sets whether a search may skip to where a match can begin. It changes no answer.
    pub fn prefilter(&mut self, yes: bool) -> &mut AhoCorasickBuilder {
        self.options.prefilter = yes.into();
        self
    }

    /// Sets below which depth the states of a contiguous NFA are dense. It changes no answer.
    pub fn dense_depth(&mut self, depth: usize) -> &mut AhoCorasickBuilder {
        self.options.dense_depth = depth;
        self
    }

    /// Sets whether bytes that no pattern distinguishes share their transitions. It changes no answer.
    pub fn byte_classes(&mut self, yes: bool) -> &mut AhoCorasickBuilder {
        self.options.byte_classes = yes.into();
        self
    }
}

/// A searcher for many patterns at once. A clone is cheap: both share one engine. Threads may share a searcher, and search
/// with it at once:
///
/// ```
/// use aho_corasick_rattle::AhoCorasick;
/// use std::sync::LazyLock;
///
/// static FRUIT: LazyLock<AhoCorasick> = LazyLock::new(|| AhoCorasick::new(["apple", "maple"]).unwrap());
///
/// let counting = std::thread::spawn(|| FRUIT.find_iter("maple, apple").count());
/// assert!(FRUIT.is_match("an apple"));
/// assert_eq!(counting.join().unwrap(), 2);
/// ```
///
/// An iterator borrows the searcher and the haystack:
///
/// ```compile_fail,E0505
/// let searcher = aho_corasick_rattle::AhoCorasick::new(["a"]).unwrap();
/// let mut matches = searcher.find_iter("a");
/// drop(searcher);
/// matches.next();
/// ```
#[derive(Clone)]
pub struct AhoCorasick {
    handle: Arc<Handle>,
    facts: Facts,
}

impl AhoCorasick {
    /// Builds a searcher with the default settings.
    pub fn new<I, P>(patterns: I) -> Result<AhoCorasick, BuildError>
    where
        I: IntoIterator<Item = P>,
        P: AsRef<[u8]>,
    {
        AhoCorasickBuilder::new().build(patterns)
    }

    /// Returns a builder with the default settings.
    pub fn builder() -> AhoCorasickBuilder {
        AhoCorasickBuilder::new()
    }

    /// Returns whether a pattern occurs in the input. Panics where [`AhoCorasick::try_find`] would return an error.
    pub fn is_match<'h, I: Into<Input<'h>>>(&self, input: I) -> bool {
        let input = input.into();
        let answer = self.handle.is_match(input.haystack(), &input.raw_span());
        self.supported(answer.map_err(|refusal| self.error(refusal))) && !input.is_done()
    }

    /// Returns the match that the match kind picks, or `None` where no pattern occurs. Panics where
    /// [`AhoCorasick::try_find`] returns an error.
    pub fn find<'h, I: Into<Input<'h>>>(&self, input: I) -> Option<Match> {
        self.supported(self.try_find(input))
    }

    /// Returns an iterator over matches that don't overlap: the one that is picked, then the one that is picked after it, and
    /// so on. Panics where [`AhoCorasick::try_find_iter`] returns an error.
    pub fn find_iter<'a, 'h, I: Into<Input<'h>>>(&'a self, input: I) -> FindIter<'a, 'h> {
        self.supported(self.try_find_iter(input))
    }

    /// Returns an iterator over all occurrences. Panics where [`AhoCorasick::try_find_overlapping_iter`] returns an error.
    pub fn find_overlapping_iter<'a, 'h, I: Into<Input<'h>>>(&'a self, input: I) -> FindOverlappingIter<'a, 'h> {
        self.supported(self.try_find_overlapping_iter(input))
    }

    /// Returns what [`AhoCorasick::find`] does. It is an error if the start kind doesn't support the input: an anchored or an
    /// unanchored one.
    pub fn try_find<'h, I: Into<Input<'h>>>(&self, input: I) -> Result<Option<Match>, MatchError> {
        let input = input.into();
        let found = self.handle.find(input.haystack(), &input.raw_span()).map_err(|refusal| self.error(refusal))?;
        Ok(found.filter(|_| !input.is_done()).map(Match::found))
    }

    /// Returns what [`AhoCorasick::find_iter`] does. The errors are those of [`AhoCorasick::try_find`].
    pub fn try_find_iter<'a, 'h, I: Into<Input<'h>>>(&'a self, input: I) -> Result<FindIter<'a, 'h>, MatchError> {
        let input = input.into();
        self.check_start(&input)?;
        Ok(FindIter::new(&self.handle, &input))
    }

    /// Returns what [`AhoCorasick::find_overlapping_iter`] does. The errors are those of [`AhoCorasick::try_find`]; it is
    /// also an error if the match kind isn't [`MatchKind::Standard`], or if the input is anchored.
    pub fn try_find_overlapping_iter<'a, 'h, I: Into<Input<'h>>>(
        &'a self,
        input: I,
    ) -> Result<FindOverlappingIter<'a, 'h>, MatchError> {
        let input = input.into();
        self.check_start(&input)?;
        if self.match_kind() != MatchKind::Standard {
            return Err(self.error(Refusal::Overlapping));
        }
        if input.get_anchored().is_anchored() {
            return Err(self.error(Refusal::Anchored));
        }
        Ok(FindOverlappingIter::new(&self.handle, &input))
    }

    /// Returns the engine that the searcher uses.
    pub fn kind(&self) -> AhoCorasickKind {
        match self.facts.engine {
            1 => AhoCorasickKind::NoncontiguousNFA,
            2 => AhoCorasickKind::ContiguousNFA,
            _ => AhoCorasickKind::DFA,
        }
    }

    /// Returns which searches are supported.
    pub fn start_kind(&self) -> StartKind {
        match self.facts.start_kind {
            0 => StartKind::Unanchored,
            1 => StartKind::Anchored,
            _ => StartKind::Both,
        }
    }

    /// Returns which of several overlapping occurrences is the match.
    pub fn match_kind(&self) -> MatchKind {
        match self.facts.match_kind {
            0 => MatchKind::Standard,
            1 => MatchKind::LeftmostFirst,
            _ => MatchKind::LeftmostLongest,
        }
    }

    /// Returns the length of the shortest pattern, or `usize::MAX` where there is none.
    pub fn min_pattern_len(&self) -> usize {
        self.facts.shortest
    }

    /// Returns the length of the longest pattern, or 0 where there is none.
    pub fn max_pattern_len(&self) -> usize {
        self.facts.longest
    }

    /// Returns the number of patterns.
    pub fn patterns_len(&self) -> usize {
        self.facts.patterns
    }

    /// Returns how many bytes of memory the searcher takes, about.
    pub fn memory_usage(&self) -> usize {
        self.facts.memory
    }

    /// Refuses what the library refuses. An iterator is checked here: it first calls the library for its first match.
    fn check_start(&self, input: &Input<'_>) -> Result<(), MatchError> {
        match (self.start_kind(), input.get_anchored()) {
            (StartKind::Unanchored, Anchored::Yes) => Err(self.error(Refusal::Anchored)),
            (StartKind::Anchored, Anchored::No) => Err(self.error(Refusal::Unanchored)),
            _ => Ok(()),
        }
    }

    /// Begins a walk over a text that comes in pieces. The outer error says that the searcher has no such walk, the inner one
    /// that there is no memory.
    pub(crate) fn begin_walk(&self) -> Result<io::Result<Stream>, MatchError> {
        match Stream::open(&self.handle, Mode::Walk) {
            Ok(stream) => Ok(Ok(stream)),
            Err(Refusal::Memory) => Ok(Err(io::ErrorKind::OutOfMemory.into())),
            Err(refusal) => Err(self.error(refusal)),
        }
    }

    fn error(&self, refusal: Refusal) -> MatchError {
        MatchError::of(refusal, self.match_kind())
    }

    /// What a call without `try_` makes of an error: a panic.
    #[track_caller]
    pub(crate) fn supported<T>(&self, answer: Result<T, MatchError>) -> T {
        answer.unwrap_or_else(|error| panic!("{error}"))
    }
}

impl fmt::Debug for AhoCorasick {
    fn fmt(&self, f: &mut fmt::Formatter<'_>) -> fmt::Result {
        f.debug_struct("AhoCorasick")
            .field("kind", &self.kind())
            .field("match_kind", &self.match_kind())
            .field("start_kind", &self.start_kind())
            .field("patterns_len", &self.patterns_len())
            .finish_non_exhaustive()
    }
}
