//! Searches of a text that a reader gives.
use crate::ahocorasick::AhoCorasick;
use crate::error::MatchError;
use crate::ffi::{self, Stream};
use crate::search::Match;
#[cfg(doc)]
use crate::search::MatchKind;
use std::fmt;
use std::io::{Error, ErrorKind, Read};
use std::iter::FusedIterator;
use std::marker::PhantomData;
use std::ops::Range;

/// How many bytes one read may give, or more where more of them are kept.
const READ: usize = 64 * 1024;

/// How many matches one call of the library may find.
const BATCH: usize = 32;

/// A walk over a text that a reader gives. The text is read when no match is left that the bytes before have settled.
pub(crate) struct Reading<R> {
    reader: R,
    stream: Stream,
    /// Bytes of the text, of which the first has the offset `base`. So many as `read` were read, and `fed` of these were fed.
    buffer: Vec<u8>,
    base: usize,
    read: usize,
    fed: usize,
    /// How many of the bytes that were read stay in the buffer when more are read.
    kept: usize,
    /// Whether the text has ended, or a read has failed. Then nothing more is read.
    is_over: bool,
    /// Whether more matches than those of the batch may be settled.
    goes_on: bool,
    given: usize,
    found: usize,
    batch: [ffi::Match; BATCH],
}

impl<R: Read> Reading<R> {
    /// A walk of which nothing was read. The outer error says that the searcher has no such walk, the inner one that there is
    /// no memory for it.
    pub(crate) fn begin(searcher: &AhoCorasick, reader: R, kept: usize) -> Result<Result<Self, Error>, MatchError> {
        Ok(searcher.begin_walk()?.map(|stream| Reading {
            reader,
            stream,
            buffer: vec![0; kept + READ.max(kept)],
            base: 0,
            read: 0,
            fed: 0,
            kept,
            is_over: false,
            goes_on: false,
            given: 0,
            found: 0,
            batch: [ffi::Match::default(); BATCH],
        }))
    }

    /// The next match that is settled by what was read. If there is none, the text has to be read on.
    pub(crate) fn settled(&mut self) -> Option<Match> {
        if self.given == self.found && self.goes_on {
            self.search();
        }
        if self.given == self.found {
            return None;
        }
        self.given += 1;
        Some(Match::found(self.batch[self.given - 1]))
    }

    /// Fills the batch, which all was given.
    fn search(&mut self) {
        let found = if self.is_over {
            self.stream.end(&mut self.batch)
        } else {
            let answer = self.stream.feed(&self.buffer[self.fed..self.read], &mut self.batch);
            answer.map(|(taken, found)| {
                self.fed += taken;
                found
            })
        };
        self.found = found.expect("a stream that takes more");
        self.given = 0;
        self.goes_on = self.found == BATCH;
    }

    /// Reads on, where nothing is settled and the text isn't over. If that fails the text is over, and nothing is settled.
    pub(crate) fn read(&mut self) -> Result<(), Error> {
        self.make_room();
        let room = &mut self.buffer[self.read..];
        let read = loop {
            match self.reader.read(room) {
                Ok(read) => break read,
                Err(error) if error.kind() == ErrorKind::Interrupted => {}
                Err(error) => {
                    self.is_over = true;
                    return Err(error);
                }
            }
        };
        assert!(read <= room.len(), "the reader gave {read} bytes where {} were asked for", room.len());
        self.read += read;
        self.is_over = read == 0;
        self.goes_on = true;
        Ok(())
    }

    /// Moves what is kept to the front, if that is no more than what comes before it.
    fn make_room(&mut self) {
        if self.read >= 2 * self.kept {
            let from = self.read - self.kept;
            self.buffer.copy_within(from..self.read, 0);
            (self.base, self.read, self.fed) = (self.base + from, self.kept, self.kept);
        }
    }

    /// Whether the text has ended, or a read has failed.
    pub(crate) fn is_over(&self) -> bool {
        self.is_over
    }

    /// Where what is kept begins: at the end, if the text is over.
    pub(crate) fn passed(&self) -> usize {
        self.base + if self.is_over { self.read } else { self.read.saturating_sub(self.kept) }
    }

    /// Bytes of the text that are in the buffer.
    pub(crate) fn text(&self, range: Range<usize>) -> &[u8] {
        &self.buffer[range.start - self.base..range.end - self.base]
    }
}

/// The matches of [`AhoCorasick::stream_find_iter`], in order. Each is given before more is read than it takes to know it.
///
/// An error of the reader is given after the matches that were settled by what it gave before; matches that weren't settled
/// are left out. After an error, and after the end of the text, nothing is read, and all that follows is `None`. It is
/// 1.1.5's `StreamFindIter`.
///
/// ```
/// use aho_corasick_rattle::AhoCorasick;
/// # fn main() -> Result<(), Box<dyn std::error::Error>> {
///
/// let searcher = AhoCorasick::new(["ab"])?;
/// let endless = std::io::Read::chain("xab".as_bytes(), std::io::repeat(b'b'));
/// assert_eq!(searcher.stream_find_iter(endless).next().unwrap()?.range(), 1..3);
/// # Ok(())
/// # }
/// ```
pub struct StreamFindIter<'a, R> {
    /// Or the error that is given next, where there was no memory.
    reading: Result<Reading<R>, Option<ErrorKind>>,
    searcher: PhantomData<&'a AhoCorasick>,
}

impl<R: Read> Iterator for StreamFindIter<'_, R> {
    type Item = Result<Match, Error>;

    fn next(&mut self) -> Option<Result<Match, Error>> {
        let reading = match &mut self.reading {
            Ok(reading) => reading,
            Err(kind) => return kind.take().map(|kind| Err(kind.into())),
        };
        loop {
            if let Some(found) = reading.settled() {
                return Some(Ok(found));
            }
            if reading.is_over() {
                return None;
            }
            if let Err(error) = reading.read() {
                return Some(Err(error));
            }
        }
    }
}

impl<R: Read> FusedIterator for StreamFindIter<'_, R> {}

impl<R: fmt::Debug> fmt::Debug for StreamFindIter<'_, R> {
    fn fmt(&self, f: &mut fmt::Formatter<'_>) -> fmt::Result {
        let mut shown = f.debug_struct("StreamFindIter");
        match &self.reading {
            Ok(reading) => shown.field("reader", &reading.reader).field("read", &(reading.base + reading.read)),
            Err(kind) => shown.field("error", kind),
        };
        shown.finish_non_exhaustive()
    }
}

impl AhoCorasick {
    /// Returns an iterator over the matches of the text that a reader gives: those that [`AhoCorasick::find_iter`] has in the
    /// whole text, with offsets in bytes from its beginning. Each item is a match or an error of the reader, as
    /// [`StreamFindIter`] says.
    ///
    /// It reads at most 64 KiB at once, into one buffer, so the reader needs none of its own. A read that gives
    /// [`ErrorKind::Interrupted`] is made again. If there is no memory for the search, the only item is an
    /// [`ErrorKind::OutOfMemory`].
    ///
    /// It is 1.1.5's `stream_find_iter`, and serves each [`MatchKind`], where that takes [`MatchKind::Standard`] only.
    ///
    /// # Panics
    ///
    /// Where [`AhoCorasick::try_stream_find_iter`] returns an error. An item panics if the reader says that it gave more bytes
    /// than it was asked for.
    ///
    /// # Example
    ///
    /// ```
    /// use aho_corasick_rattle::{AhoCorasick, Match};
    /// # fn main() -> Result<(), Box<dyn std::error::Error>> {
    ///
    /// let searcher = AhoCorasick::new(["maple", "apple"])?;
    /// let reader = "apple, maple".as_bytes();
    /// let found: Vec<Match> = searcher.stream_find_iter(reader).collect::<Result<_, _>>()?;
    /// assert_eq!(found, [Match::must(1, 0..5), Match::must(0, 7..12)]);
    /// # Ok(())
    /// # }
    /// ```
    pub fn stream_find_iter<'a, R: Read>(&'a self, rdr: R) -> StreamFindIter<'a, R> {
        self.supported(self.try_stream_find_iter(rdr))
    }

    /// Returns what [`AhoCorasick::stream_find_iter`] does. It is 1.1.5's `try_stream_find_iter`.
    ///
    /// # Errors
    ///
    /// [`MatchErrorKind::InvalidInputUnanchored`](crate::MatchErrorKind::InvalidInputUnanchored) if the searcher supports
    /// anchored searches only; else [`MatchErrorKind::UnsupportedEmpty`](crate::MatchErrorKind::UnsupportedEmpty) if a pattern
    /// is empty. Nothing was read then.
    ///
    /// # Example
    ///
    /// ```
    /// use aho_corasick_rattle::{AhoCorasick, MatchKind};
    /// # fn main() -> Result<(), Box<dyn std::error::Error>> {
    ///
    /// let searcher = AhoCorasick::builder().match_kind(MatchKind::LeftmostLongest).build(["Sam", "Samwise"])?;
    /// for found in searcher.try_stream_find_iter("Samwise".as_bytes())? {
    ///     assert_eq!(found?.range(), 0..7);
    /// }
    /// assert!(AhoCorasick::new([""])?.try_stream_find_iter("Samwise".as_bytes()).is_err());
    /// # Ok(())
    /// # }
    /// ```
    pub fn try_stream_find_iter<'a, R: Read>(&'a self, rdr: R) -> Result<StreamFindIter<'a, R>, MatchError> {
        let reading = Reading::begin(self, rdr, 0)?.map_err(|error| Some(error.kind()));
        Ok(StreamFindIter { reading, searcher: PhantomData })
    }
}

#[cfg(test)]
mod tests {
    use super::*;

    #[test]
    fn where_there_is_no_memory_the_error_is_the_only_item() {
        let reading: Result<Reading<&[u8]>, _> = Err(Some(ErrorKind::OutOfMemory));
        let mut matches = StreamFindIter { reading, searcher: PhantomData };
        assert_eq!(matches.next().unwrap().unwrap_err().kind(), ErrorKind::OutOfMemory);
        assert!(matches.next().is_none() && matches.next().is_none());
    }
}
