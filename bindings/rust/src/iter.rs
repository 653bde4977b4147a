//! Iterators over the matches of a search, which the library finds in batches.
#[cfg(doc)]
use crate::AhoCorasick;
use crate::ffi::{self, Cursor, Facts, Handle, Mode, Refusal, Stream};
use crate::search::{Input, Match};

/// How many matches one call of the library may find. The cost of a call is then small beside theirs.
const BATCH: usize = 128;

/// A search of the rest of a haystack by a stream, which reads no byte twice, however many batches it has.
#[derive(Debug)]
struct Rest {
    stream: Stream,
    /// The offset from which the stream counts.
    base: usize,
    /// Up to where it was fed.
    at: usize,
}

impl Rest {
    /// Returns how many of the matches up to `end` it wrote to `out`. Fewer than there is room for are all that are left.
    fn fill(&mut self, haystack: &[u8], end: usize, out: &mut [ffi::Match]) -> Result<usize, Refusal> {
        let (taken, mut filled) = self.stream.feed(&haystack[self.at..end], out)?;
        self.at += taken;
        if filled < out.len() {
            filled += self.stream.end(&mut out[filled..])?;
        }
        for found in &mut out[..filled] {
            found.start += self.base;
            found.end += self.base;
        }
        Ok(filled)
    }
}

#[derive(Debug)]
struct Batches<'a, 'h> {
    handle: &'a Handle,
    mode: Mode,
    haystack: &'h [u8],
    span: ffi::Span,
    /// How far the last batch has come.
    cursor: Cursor,
    /// Whether more matches may follow those of the batch.
    goes_on: bool,
    /// How many bytes the last batch came on.
    moved: usize,
    /// None before the second batch, where a stream would save little, and in searches that no stream makes.
    rest: Option<Rest>,
    taken: usize,
    filled: usize,
    batch: [ffi::Match; BATCH],
}

/// A clone goes on from the same match, by a stream of its own.
impl Clone for Batches<'_, '_> {
    fn clone(&self) -> Self {
        Batches { rest: None, ..*self }
    }
}

impl<'a, 'h> Batches<'a, 'h> {
    /// A search that the searcher supports, of which nothing was found yet.
    fn new(handle: &'a Handle, mode: Mode, input: &Input<'h>) -> Batches<'a, 'h> {
        let span = input.raw_span();
        Batches {
            handle,
            mode,
            haystack: input.haystack(),
            span,
            cursor: Cursor { at: span.start, given: 0 },
            goes_on: !input.is_done(),
            moved: 0,
            rest: None,
            taken: 0,
            filled: 0,
            batch: [ffi::Match::default(); BATCH],
        }
    }

    #[inline]
    fn next(&mut self) -> Option<Match> {
        if self.taken == self.filled && !self.refill() {
            return None;
        }
        self.taken += 1;
        Some(Match::found(self.batch[self.taken - 1]))
    }

    /// Looks for the next matches, and returns whether there are any.
    #[cold]
    fn refill(&mut self) -> bool {
        if !self.goes_on {
            return false;
        }
        let from = self.cursor.at;
        if self.cursor.given > 0 {
            self.choose();
        }
        let filled = match &mut self.rest {
            Some(rest) => rest.fill(self.haystack, self.span.end, &mut self.batch),
            None => self.fill(),
        };
        self.filled = filled.expect("a search that is supported");
        self.taken = 0;
        self.goes_on = self.filled == BATCH;
        if self.rest.is_some() {
            self.move_on();
        }
        self.moved = self.cursor.at - from;
        self.filled > 0
    }

    /// Chooses how the next batch is found. By the cursor as many bytes as the longest pattern has may be read again. Where
    /// the last batch came as far, that is cheaper than a stream, which has no prefilter.
    fn choose(&mut self) {
        let facts = self.handle.facts();
        if facts.longest <= self.moved {
            self.rest = None;
        } else if self.rest.is_none() {
            self.rest = self.begin_rest(&facts);
        }
    }

    /// Fills the batch by the cursor.
    fn fill(&mut self) -> Result<usize, Refusal> {
        let Batches { handle, haystack, ref span, ref mut cursor, ref mut batch, .. } = *self;
        match self.mode {
            Mode::Walk => handle.walk(haystack, span, cursor, batch),
            Mode::Listing => handle.overlapping(haystack, span, cursor, batch),
        }
    }

    /// Moves the cursor past the matches of the batch.
    fn move_on(&mut self) {
        let found = &self.batch[..self.filled];
        let Some(last) = found.last() else { return };
        let ending = found.iter().rev().take_while(|m| m.end == last.end).count();
        let before = if self.cursor.at == last.end { self.cursor.given } else { 0 };
        self.cursor = Cursor { at: last.end, given: before + ending };
    }

    /// A stream that goes on from the cursor: none for a search that no stream makes, or where there is no memory for one. Then
    /// the cursor serves, by which each batch begins anew.
    fn begin_rest(&self, facts: &Facts) -> Option<Rest> {
        // By a cursor a walk reads no byte twice either where the first match found is given.
        let is_short = facts.match_kind == 0 || self.span.earliest != 0;
        if self.span.anchored != 0 || (self.mode == Mode::Walk && is_short) {
            return None;
        }
        let mut stream = Stream::open(self.handle, self.mode).ok()?;
        let base = match self.mode {
            Mode::Walk => self.cursor.at,
            Mode::Listing => self.cursor.at.saturating_sub(facts.longest).max(self.span.start),
        };
        if self.mode == Mode::Listing {
            pass(&mut stream, &self.haystack[base..self.cursor.at], self.cursor.given).ok()?;
        }
        Some(Rest { stream, base, at: self.cursor.at })
    }
}

/// Passes over the occurrences of a piece that end before its last byte does, and over so many that end with it.
fn pass(stream: &mut Stream, piece: &[u8], mut given: usize) -> Result<(), Refusal> {
    let mut passed = [ffi::Match::default(); BATCH];
    let (mut before, mut last) = piece.split_at(piece.len().saturating_sub(1));
    loop {
        let (taken, filled) = stream.feed(before, &mut passed)?;
        before = &before[taken..];
        if filled < BATCH {
            break;
        }
    }
    while given > 0 {
        let (taken, filled) = stream.feed(last, &mut passed[..given.min(BATCH)])?;
        assert!(filled > 0, "what was given is found again");
        last = &last[taken..];
        given -= filled;
    }
    Ok(())
}

/// The matches of [`AhoCorasick::find_iter`], in order.
#[derive(Clone, Debug)]
pub struct FindIter<'a, 'h>(Batches<'a, 'h>);

impl<'a, 'h> FindIter<'a, 'h> {
    pub(crate) fn new(handle: &'a Handle, input: &Input<'h>) -> FindIter<'a, 'h> {
        FindIter(Batches::new(handle, Mode::Walk, input))
    }
}

impl Iterator for FindIter<'_, '_> {
    type Item = Match;

    #[inline]
    fn next(&mut self) -> Option<Match> {
        self.0.next()
    }

    /// If no match was taken yet, the library counts them without writing them down.
    fn count(self) -> usize {
        let Batches { handle, haystack, ref span, filled, goes_on, .. } = self.0;
        if filled == 0 && goes_on {
            handle.count(haystack, span).expect("a search that is supported")
        } else {
            self.fold(0, |count, _| count + 1)
        }
    }
}

/// The matches of [`AhoCorasick::find_overlapping_iter`], by end, then start, then number.
#[derive(Clone, Debug)]
pub struct FindOverlappingIter<'a, 'h>(Batches<'a, 'h>);

impl<'a, 'h> FindOverlappingIter<'a, 'h> {
    pub(crate) fn new(handle: &'a Handle, input: &Input<'h>) -> FindOverlappingIter<'a, 'h> {
        FindOverlappingIter(Batches::new(handle, Mode::Listing, input))
    }
}

impl Iterator for FindOverlappingIter<'_, '_> {
    type Item = Match;

    #[inline]
    fn next(&mut self) -> Option<Match> {
        self.0.next()
    }
}

#[cfg(test)]
mod tests {
    use super::*;
    use crate::{AhoCorasick, MatchKind};

    fn found(batches: &Batches<'_, '_>, filled: usize) -> Vec<Match> {
        batches.batch[..filled].iter().map(|found| Match::found(*found)).collect()
    }

    /// After each batch the cursor finds the same batch as a stream does. Returns how many batches came by a stream.
    fn check_batches(mut batches: Batches<'_, '_>) -> usize {
        let mut streamed = 0;
        while batches.refill() {
            streamed += usize::from(batches.rest.is_some());
            let (mut by_cursor, mut by_stream) = (batches.clone(), batches.clone());
            let filled = by_cursor.fill().unwrap();
            let wanted = if by_stream.refill() { by_stream.filled } else { 0 };
            assert_eq!(found(&by_cursor, filled), found(&by_stream, wanted));
        }
        streamed
    }

    #[test]
    fn where_there_is_no_memory_for_a_stream_the_cursor_goes_on() {
        let text = "abbabaab".repeat(80) + "b";
        let patterns = ["ab", "a", "babaab", "abba", "a", &"c".repeat(700)];
        let searcher = AhoCorasick::new(patterns).unwrap();
        assert_eq!(check_batches(searcher.find_iter(&text).0), 0);
        assert!(check_batches(searcher.find_overlapping_iter(Input::new(&text).range(3..)).0) > 5);
        for kind in [MatchKind::LeftmostFirst, MatchKind::LeftmostLongest] {
            let searcher = AhoCorasick::builder().match_kind(kind).build(patterns).unwrap();
            assert!(check_batches(searcher.find_iter(Input::new(&text).range(3..)).0) > 0);
        }
    }

    /// A batch that came far has the cursor find the next one, and one that didn't a stream.
    #[test]
    fn streams_are_for_batches_that_come_less_far_than_a_pattern() {
        let near = "ab".repeat(300);
        let text = format!("{near}{}{near}", "x".repeat(400));
        for (longest, wanted) in [(256, [false; 6]), (257, [false, true, true, false, true, true])] {
            let patterns = ["ab", &"c".repeat(longest)];
            let searcher = AhoCorasick::builder().match_kind(MatchKind::LeftmostFirst).build(patterns).unwrap();
            let mut batches = searcher.find_iter(&text).0;
            for is_stream in wanted {
                assert!(!batches.goes_on || batches.refill());
                assert_eq!(batches.rest.is_some(), is_stream, "{longest}");
            }
        }
    }
}
