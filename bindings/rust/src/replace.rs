//! Replacement of the matches of a walk. Each call without `try_` panics where the one with it returns an error.
use crate::ahocorasick::AhoCorasick;
use crate::error::MatchError;
use crate::search::Match;
use crate::stream::Reading;
use std::io::{Error, Read, Write};

impl AhoCorasick {
    /// Returns the haystack with each match replaced by the text of its pattern. Matches that begin or end inside a character
    /// are not replaced; only an empty pattern, or one that isn't UTF-8, has such. Panics if there aren't as many texts as
    /// patterns.
    ///
    /// ```
    /// use aho_corasick_rattle::AhoCorasick;
    ///
    /// let searcher = AhoCorasick::new(["fox", "brown", "quick"])?;
    /// let sloth = searcher.replace_all("The quick brown fox.", &["sloth", "grey", "slow"]);
    /// assert_eq!(sloth, "The slow grey sloth.");
    /// # Ok::<(), aho_corasick_rattle::BuildError>(())
    /// ```
    pub fn replace_all<B: AsRef<str>>(&self, haystack: &str, replace_with: &[B]) -> String {
        self.supported(self.try_replace_all(haystack, replace_with))
    }

    /// Returns the haystack with each match replaced by the bytes of its pattern. Panics if there aren't as many of these as
    /// patterns.
    pub fn replace_all_bytes<B: AsRef<[u8]>>(&self, haystack: &[u8], replace_with: &[B]) -> Vec<u8> {
        self.supported(self.try_replace_all_bytes(haystack, replace_with))
    }

    /// Appends the haystack to `dst`, but calls the closure in place of each match, with the text that matched. Once it
    /// returns false the rest is appended unchanged. Matches that begin or end inside a character are not replaced.
    pub fn replace_all_with<F>(&self, haystack: &str, dst: &mut String, replace_with: F)
    where
        F: FnMut(&Match, &str, &mut String) -> bool,
    {
        self.supported(self.try_replace_all_with(haystack, dst, replace_with))
    }

    /// Does the same with bytes. All matches are replaced.
    pub fn replace_all_with_bytes<F>(&self, haystack: &[u8], dst: &mut Vec<u8>, replace_with: F)
    where
        F: FnMut(&Match, &[u8], &mut Vec<u8>) -> bool,
    {
        self.supported(self.try_replace_all_with_bytes(haystack, dst, replace_with))
    }

    /// [`AhoCorasick::replace_all`]. It is an error if the searcher supports anchored searches only.
    pub fn try_replace_all<B: AsRef<str>>(&self, haystack: &str, replace_with: &[B]) -> Result<String, MatchError> {
        let mut replaced = String::with_capacity(haystack.len());
        let texts = self.texts(replace_with);
        self.try_replace_all_with(haystack, &mut replaced, |found, _, dst| {
            dst.push_str(texts[found.pattern().as_usize()].as_ref());
            true
        })?;
        Ok(replaced)
    }

    /// [`AhoCorasick::replace_all_bytes`]. It is an error if the searcher supports anchored searches only.
    pub fn try_replace_all_bytes<B: AsRef<[u8]>>(
        &self,
        haystack: &[u8],
        replace_with: &[B],
    ) -> Result<Vec<u8>, MatchError> {
        let mut replaced = Vec::with_capacity(haystack.len());
        let texts = self.texts(replace_with);
        self.try_replace_all_with_bytes(haystack, &mut replaced, |found, _, dst| {
            dst.extend_from_slice(texts[found.pattern().as_usize()].as_ref());
            true
        })?;
        Ok(replaced)
    }

    /// [`AhoCorasick::replace_all_with`]. It is an error if the searcher supports anchored searches only.
    pub fn try_replace_all_with<F>(
        &self,
        haystack: &str,
        dst: &mut String,
        mut replace_with: F,
    ) -> Result<(), MatchError>
    where
        F: FnMut(&Match, &str, &mut String) -> bool,
    {
        let mut copied = 0;
        for found in self.try_find_iter(haystack)? {
            if !haystack.is_char_boundary(found.start()) || !haystack.is_char_boundary(found.end()) {
                continue;
            }
            dst.push_str(&haystack[copied..found.start()]);
            copied = found.end();
            if !replace_with(&found, &haystack[found.range()], dst) {
                break;
            }
        }
        dst.push_str(&haystack[copied..]);
        Ok(())
    }

    /// [`AhoCorasick::replace_all_with_bytes`]. It is an error if the searcher supports anchored searches only.
    pub fn try_replace_all_with_bytes<F>(
        &self,
        haystack: &[u8],
        dst: &mut Vec<u8>,
        mut replace_with: F,
    ) -> Result<(), MatchError>
    where
        F: FnMut(&Match, &[u8], &mut Vec<u8>) -> bool,
    {
        let mut copied = 0;
        for found in self.try_find_iter(haystack)? {
            dst.extend_from_slice(&haystack[copied..found.start()]);
            copied = found.end();
            if !replace_with(&found, &haystack[found.range()], dst) {
                break;
            }
        }
        dst.extend_from_slice(&haystack[copied..]);
        Ok(())
    }

    /// Copies the text that a reader gives to a writer, with each match replaced by the bytes of its pattern. The matches are
    /// those of [`AhoCorasick::stream_find_iter`]. It is 1.1.5's `try_stream_replace_all`.
    ///
    /// # Errors
    ///
    /// Those of [`AhoCorasick::try_stream_replace_all_with`].
    ///
    /// # Panics
    ///
    /// If there aren't as many texts as patterns.
    ///
    /// # Example
    ///
    /// ```
    /// use aho_corasick_rattle::AhoCorasick;
    /// # fn main() -> Result<(), Box<dyn std::error::Error>> {
    ///
    /// let searcher = AhoCorasick::new(["fox", "brown", "quick"])?;
    /// let mut sloth = Vec::new();
    /// searcher.try_stream_replace_all("The quick brown fox.".as_bytes(), &mut sloth, &["sloth", "grey", "slow"])?;
    /// assert_eq!(sloth, b"The slow grey sloth.");
    /// # Ok(())
    /// # }
    /// ```
    pub fn try_stream_replace_all<R, W, B>(&self, rdr: R, wtr: W, replace_with: &[B]) -> Result<(), Error>
    where
        R: Read,
        W: Write,
        B: AsRef<[u8]>,
    {
        let texts = self.texts(replace_with);
        self.try_stream_replace_all_with(rdr, wtr, |found, _, wtr| {
            wtr.write_all(texts[found.pattern().as_usize()].as_ref())
        })
    }

    /// Copies the text that a reader gives to a writer, but calls the closure in place of each match, with the bytes that
    /// matched. The matches are those of [`AhoCorasick::stream_find_iter`], and the text is read as there. What is known to lie
    /// outside of all matches is written before more is read; the writer isn't flushed. It is 1.1.5's
    /// `try_stream_replace_all_with`, and serves each match kind.
    ///
    /// The buffer has room for the longest pattern and 64 KiB, or for twice that pattern if that is more.
    ///
    /// # Errors
    ///
    /// An error of the reader, the writer or the closure, where it ends: what was written by then stays written. A reader's
    /// [`ErrorKind::Interrupted`](std::io::ErrorKind::Interrupted) is no error; the read is made again. An
    /// [`ErrorKind::OutOfMemory`](std::io::ErrorKind::OutOfMemory) if there is no memory for the search. An
    /// [`ErrorKind::Other`](std::io::ErrorKind::Other) over the [`MatchError`] that [`AhoCorasick::try_stream_find_iter`]
    /// returns: then nothing was read or written.
    ///
    /// # Example
    ///
    /// ```
    /// use aho_corasick_rattle::AhoCorasick;
    /// use std::io::Write;
    /// # fn main() -> Result<(), Box<dyn std::error::Error>> {
    ///
    /// let searcher = AhoCorasick::new(["fox", "brown", "quick"])?;
    /// let mut loud = Vec::new();
    /// searcher.try_stream_replace_all_with("The quick brown fox.".as_bytes(), &mut loud, |found, bytes, wtr| {
    ///     write!(wtr, "{}:", found.start())?;
    ///     wtr.write_all(&bytes.to_ascii_uppercase())
    /// })?;
    /// assert_eq!(loud, b"The 4:QUICK 10:BROWN 16:FOX.");
    /// # Ok(())
    /// # }
    /// ```
    pub fn try_stream_replace_all_with<R, W, F>(&self, rdr: R, mut wtr: W, mut replace_with: F) -> Result<(), Error>
    where
        R: Read,
        W: Write,
        F: FnMut(&Match, &[u8], &mut W) -> Result<(), Error>,
    {
        // Of the bytes that were read, a match that isn't settled has none but the last, as many as the longest pattern has.
        let mut reading = Reading::begin(self, rdr, self.max_pattern_len()).map_err(Error::other)??;
        let mut copied = 0;
        loop {
            while let Some(found) = reading.settled() {
                wtr.write_all(reading.text(copied..found.start()))?;
                copied = found.end();
                replace_with(&found, reading.text(found.range()), &mut wtr)?;
            }
            let passed = reading.passed().max(copied);
            wtr.write_all(reading.text(copied..passed))?;
            copied = passed;
            if reading.is_over() {
                return Ok(());
            }
            reading.read()?;
        }
    }

    /// Checks that there is a text for each pattern.
    fn texts<'t, B>(&self, replace_with: &'t [B]) -> &'t [B] {
        assert_eq!(replace_with.len(), self.patterns_len(), "replacement needs one text for each pattern");
        replace_with
    }
}
