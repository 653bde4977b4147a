//! Texts that a reader gives, however few bytes at once, beside searches of the whole text.
mod common;

use aho_corasick_rattle::MatchKind::{LeftmostFirst, LeftmostLongest, Standard};
use aho_corasick_rattle::{AhoCorasick, Match, MatchError, MatchErrorKind, MatchKind, StartKind};
use common::searchers;
use std::cell::Cell;
use std::collections::VecDeque;
use std::io::{BufRead, BufReader, Error, ErrorKind, Read, Write};
use std::panic::{AssertUnwindSafe, catch_unwind};

const KINDS: [MatchKind; 3] = [Standard, LeftmostFirst, LeftmostLongest];
/// How many bytes one read asks for.
const READ: usize = 64 * 1024;
const LISTS: [&[&str]; 6] = [
    &["a", "abab", "b"],
    &["aab", "ab", "b", "abba"],
    &["aaaab", "aa", "a"],
    &["ab", "ab"],
    &["abaaba", "ba", "abaab"],
    &[],
];

/// A reader that gives a piece for each read, or an error. Once the text is over, by its end or an error, it may not be read.
#[derive(Debug)]
struct Pieces<'t> {
    left: VecDeque<Result<&'t [u8], ErrorKind>>,
    is_over: bool,
    reads: &'t Cell<usize>,
}

impl Read for Pieces<'_> {
    fn read(&mut self, buffer: &mut [u8]) -> Result<usize, Error> {
        assert!(!self.is_over, "a text that is over is read");
        self.reads.set(self.reads.get() + 1);
        let piece = self.left.pop_front().unwrap_or(Ok(b""));
        self.is_over = piece.is_ok_and(<[u8]>::is_empty) || piece.is_err_and(|kind| kind != ErrorKind::Interrupted);
        buffer[..piece?.len()].copy_from_slice(piece?);
        Ok(piece?.len())
    }
}

fn pieces<'t>(left: impl IntoIterator<Item = Result<&'t str, ErrorKind>>, reads: &'t Cell<usize>) -> Pieces<'t> {
    reads.set(0);
    Pieces { left: left.into_iter().map(|piece| piece.map(str::as_bytes)).collect(), is_over: false, reads }
}

/// The pieces of a text that is cut before each byte whose bit is set.
fn cut(text: &str, cuts: usize) -> Vec<Result<&str, ErrorKind>> {
    let mut all = Vec::new();
    let mut start = 0;
    for at in 1..=text.len() {
        if at == text.len() || cuts >> (at - 1) & 1 == 1 {
            all.push(Ok(&text[start..at]));
            start = at;
        }
    }
    all
}

/// A text in pieces of so many bytes, by turns.
fn sips<'t>(text: &'t str, lens: &[usize]) -> Vec<Result<&'t str, ErrorKind>> {
    let mut left = text;
    let mut all = Vec::new();
    for len in lens.iter().cycle() {
        if left.is_empty() {
            break;
        }
        let (piece, rest) = left.split_at(left.len().min(*len));
        all.push(Ok(piece));
        left = rest;
    }
    all
}

/// All texts of so many of the letters a and b.
fn texts(len: usize) -> impl Iterator<Item = String> {
    (0..1 << len).map(move |number: usize| (0..len).map(|bit| if number >> bit & 1 == 0 { 'a' } else { 'b' }).collect())
}

fn some_searchers(patterns: &[&str], kind: MatchKind) -> Vec<AhoCorasick> {
    let all = searchers(patterns, |builder| {
        builder.match_kind(kind);
    });
    all.into_iter().step_by(7).collect()
}

/// What a replacement writes: the number of the pattern and what matched.
fn replaced(searcher: &AhoCorasick, reader: impl Read) -> Result<Vec<u8>, Error> {
    let mut all = Vec::new();
    searcher.try_stream_replace_all_with(reader, &mut all, |found, bytes, wtr: &mut &mut Vec<u8>| {
        assert_eq!(found.len(), bytes.len());
        write!(wtr, "<{}:", found.pattern().as_usize())?;
        wtr.write_all(bytes)
    })?;
    Ok(all)
}

/// The same of the whole text.
fn replaced_whole(searcher: &AhoCorasick, text: &str) -> Vec<u8> {
    let mut all = Vec::new();
    searcher.replace_all_with_bytes(text.as_bytes(), &mut all, |found, bytes, dst| {
        dst.extend_from_slice(format!("<{}:", found.pattern().as_usize()).as_bytes());
        dst.extend_from_slice(bytes);
        true
    });
    all
}

#[track_caller]
fn check(searcher: &AhoCorasick, text: &str, left: &[Result<&str, ErrorKind>]) {
    let reads = Cell::new(0);
    let mut matches = searcher.stream_find_iter(pieces(left.iter().copied(), &reads));
    let found: Vec<Match> = matches.by_ref().take(text.len() + 1).collect::<Result<_, _>>().unwrap();
    assert!(searcher.find_iter(text).eq(found), "{left:?} by {searcher:?}");
    assert_eq!(reads.get(), left.len() + 1);
    assert!(matches.next().is_none() && matches.next().is_none());
    let all = replaced(searcher, pieces(left.iter().copied(), &reads)).unwrap();
    assert_eq!(all, replaced_whole(searcher, text), "{left:?} by {searcher:?}");
    assert_eq!(reads.get(), left.len() + 1);
}

#[test]
fn each_cut_has_the_matches_of_the_whole() {
    for (kind, patterns) in KINDS.into_iter().flat_map(|kind| LISTS.map(|list| (kind, list))) {
        for searcher in some_searchers(patterns, kind) {
            for text in (0..5).flat_map(texts) {
                for cuts in 0..1 << text.len().saturating_sub(1) {
                    check(&searcher, &text, &cut(&text, cuts));
                }
            }
        }
    }
}

#[test]
fn readers_give_few_bytes() {
    let text: String = texts(6).collect();
    for (kind, patterns) in KINDS.into_iter().flat_map(|kind| LISTS.map(|list| (kind, list))) {
        for searcher in some_searchers(patterns, kind) {
            for lens in [&[1][..], &[2], &[3], &[1, 2, 3], &[7, 1]] {
                let mut left = sips(&text, lens);
                check(&searcher, &text, &left);
                for at in (0..left.len()).step_by(3).rev() {
                    left.insert(at, Err(ErrorKind::Interrupted));
                }
                check(&searcher, &text, &left);
            }
        }
    }
}

#[test]
fn an_error_follows_what_is_settled() {
    let text = "abababbaaaabaababba";
    for (kind, patterns) in KINDS.into_iter().flat_map(|kind| LISTS.map(|list| (kind, list))) {
        for searcher in some_searchers(patterns, kind) {
            let whole: Vec<Match> = searcher.find_iter(text).collect();
            let longest = searcher.max_pattern_len();
            for (read, len) in (0..=text.len()).flat_map(|read| [1, 2, 3, 64].map(|len| (read, len))) {
                let reads = Cell::new(0);
                let mut left = sips(&text[..read], &[len]);
                left.push(Err(ErrorKind::ConnectionReset));
                let mut matches = searcher.stream_find_iter(pieces(left.clone(), &reads));
                let mut found = Vec::new();
                let error = loop {
                    match matches.next().unwrap() {
                        Ok(one) => {
                            found.push(one);
                            assert!(whole.starts_with(&found));
                        }
                        Err(error) => break error,
                    }
                };
                assert_eq!(error.kind(), ErrorKind::ConnectionReset);
                assert!(matches.next().is_none() && matches.next().is_none());
                let reach = if kind == Standard { 0 } else { longest };
                assert!(whole[found.len()..].iter().all(|left| left.end() + reach > read), "{read} by {searcher:?}");
                let error = replaced(&searcher, pieces(left, &reads)).unwrap_err();
                assert_eq!(error.kind(), ErrorKind::ConnectionReset);
            }
        }
    }
}

/// After how many reads each match is given.
fn reads_of_matches(kind: MatchKind, patterns: &[&str], left: &[&str]) -> Vec<usize> {
    let reads = Cell::new(0);
    let searcher = AhoCorasick::builder().match_kind(kind).build(patterns).unwrap();
    let matches = searcher.stream_find_iter(pieces(left.iter().copied().map(Ok), &reads));
    matches
        .take(left.concat().len() + 1)
        .map(|found| {
            found.unwrap();
            reads.get()
        })
        .collect()
}

#[test]
fn nothing_is_read_before_it_is_needed() {
    assert_eq!(reads_of_matches(Standard, &["ab"], &["xab", "ab", "y"]), [1, 2]);
    assert_eq!(reads_of_matches(Standard, &["a"], &["x", "a", "y"]), [2]);
    assert_eq!(reads_of_matches(LeftmostFirst, &["a", "abc"], &["xab", "a", "c", "y"]), [1, 3]);
    assert_eq!(reads_of_matches(LeftmostLongest, &["a", "abc"], &["xab", "a", "b", "x"]), [2, 4]);
    assert_eq!(reads_of_matches(LeftmostLongest, &["a", "abc"], &["xab", "a", "b"]), [2, 4]);
    for count in [1, 31, 32, 33, 63, 64, 65, 127, 128, 129, 256, 1000] {
        for kind in KINDS {
            let text = "ab".repeat(count) + "x";
            assert_eq!(reads_of_matches(kind, &["ab"], &[&text, "x"]), vec![1; count]);
            let reads = Cell::new(0);
            let searcher = AhoCorasick::builder().match_kind(kind).build(["ab"]).unwrap();
            assert_eq!(searcher.stream_find_iter(pieces([Ok(&*text)], &reads)).count(), count);
            assert_eq!(reads.get(), 2);
        }
    }
    let reads = Cell::new(0);
    let searcher = AhoCorasick::new(["a"]).unwrap();
    drop(searcher.stream_find_iter(pieces([Ok("a")], &reads)));
    assert_eq!(reads.get(), 0);
}

/// A reader that gives at most so many bytes, and notes the fewest and the most that it was asked for.
struct Asked<'t> {
    left: &'t [u8],
    most: usize,
    asked: &'t Cell<(usize, usize)>,
}

impl Read for Asked<'_> {
    fn read(&mut self, buffer: &mut [u8]) -> Result<usize, Error> {
        let (fewest, most) = self.asked.get();
        self.asked.set((fewest.min(buffer.len()), most.max(buffer.len())));
        let room = buffer.len().min(self.most);
        self.left.read(&mut buffer[..room])
    }
}

/// Searches and replaces in a text, and checks how much the reader is asked for. A few bytes are kept in a replacement.
#[track_caller]
fn check_asked(searcher: &AhoCorasick, text: &str, most: usize) {
    let (longest, none) = (searcher.max_pattern_len(), (usize::MAX, 0));
    let asked = Cell::new(none);
    let found = searcher.stream_find_iter(Asked { left: text.as_bytes(), most, asked: &asked });
    assert!(searcher.find_iter(text).eq(found.map(Result::unwrap)));
    assert_eq!(asked.replace(none), (READ, READ));
    let all = replaced(searcher, Asked { left: text.as_bytes(), most, asked: &asked }).unwrap();
    assert!(all == replaced_whole(searcher, text));
    assert!(asked.get().0 > READ - longest && asked.get().1 == READ + longest);
}

#[test]
fn texts_longer_than_the_buffer() {
    for len in [READ - 1, READ, READ + 1, 2 * READ - 1, 2 * READ, 2 * READ + 1, 5 * READ + 7] {
        let mut text = "xay".repeat(len / 3 + 3);
        for at in (READ - 2..len).step_by(READ / 2 - 1) {
            text.replace_range(at..at + 5, "abcde");
        }
        text.truncate(len);
        for kind in KINDS {
            let searcher = AhoCorasick::builder().match_kind(kind).build(["abcde", "abcx", "ya"]).unwrap();
            check_asked(&searcher, &text, usize::MAX);
            check_asked(&searcher, &text, 1000);
        }
    }
}

#[test]
fn patterns_longer_than_a_read() {
    for len in [64 * 1024 - 1, 64 * 1024, 64 * 1024 + 1, 200_000] {
        let long = "ab".repeat(len / 2) + "c";
        let text = format!("{long}ab{}{}{long}a{long}", &long[1..], &long[..len - 1]);
        for kind in KINDS {
            let searcher = AhoCorasick::builder().match_kind(kind).build([&long, "ca", "bcb"]).unwrap();
            for most in [1000, len, usize::MAX] {
                let reader = BufReader::with_capacity(most.min(text.len()), text.as_bytes());
                let all = replaced(&searcher, Buffered(reader)).unwrap();
                assert!(all == replaced_whole(&searcher, &text), "{len} {most} {kind:?}");
            }
        }
    }
}

/// A reader that gives what its buffer has, and no more.
struct Buffered<B>(B);

impl<B: BufRead> Read for Buffered<B> {
    fn read(&mut self, buffer: &mut [u8]) -> Result<usize, Error> {
        let mut piece = self.0.fill_buf()?;
        let read = piece.read(buffer)?;
        self.0.consume(read);
        Ok(read)
    }
}

/// A writer that takes one byte at a time, with interruptions, and fails after so many bytes. It notes how many it has.
struct Sink<'t> {
    bytes: Vec<u8>,
    most: usize,
    is_ready: bool,
    written: &'t Cell<usize>,
}

impl Write for Sink<'_> {
    fn write(&mut self, bytes: &[u8]) -> Result<usize, Error> {
        assert!(!bytes.is_empty());
        self.is_ready = !self.is_ready;
        if !self.is_ready {
            return Err(ErrorKind::Interrupted.into());
        }
        if self.bytes.len() == self.most {
            return Err(ErrorKind::BrokenPipe.into());
        }
        self.bytes.push(bytes[0]);
        self.written.set(self.bytes.len());
        Ok(1)
    }

    fn flush(&mut self) -> Result<(), Error> {
        panic!("the writer isn't flushed")
    }
}

fn sink(most: usize, written: &Cell<usize>) -> Sink<'_> {
    Sink { bytes: Vec::new(), most, is_ready: false, written }
}

#[test]
fn writers_take_few_bytes_and_fail() {
    let (reads, written) = (Cell::new(0), Cell::new(0));
    let (text, texts) = ("xabyaabab", ["<>", "", "[[["]);
    for kind in KINDS {
        let searcher = AhoCorasick::builder().match_kind(kind).build(["a", "ab", "b"]).unwrap();
        let whole = searcher.replace_all_bytes(text.as_bytes(), &texts);
        for most in 0..=whole.len() {
            let mut all = sink(most, &written);
            let answer = searcher.try_stream_replace_all(pieces(sips(text, &[2]), &reads), &mut all, &texts);
            assert_eq!(
                answer.map_err(|error| error.kind()),
                if most < whole.len() { Err(ErrorKind::BrokenPipe) } else { Ok(()) }
            );
            assert_eq!(all.bytes, whole[..most]);
        }
    }
}

#[test]
fn an_error_of_the_closure_ends_it() {
    let reads = Cell::new(0);
    let searcher = AhoCorasick::new(["b", "c"]).unwrap();
    let mut all = Vec::new();
    let reader = pieces([Ok("abab"), Ok("acac"), Ok("x")], &reads);
    let answer = searcher.try_stream_replace_all_with(reader, &mut all, |found, _, wtr| match found.start() {
        5 => Err(ErrorKind::AddrInUse.into()),
        _ => wtr.write_all(b"-"),
    });
    assert_eq!((answer.unwrap_err().kind(), &all[..], reads.get()), (ErrorKind::AddrInUse, &b"a-a-a"[..], 2));
}

/// Random numbers, the same in every run.
struct Numbers(u64);

impl Numbers {
    fn below(&mut self, bound: usize) -> usize {
        self.0 = self.0.wrapping_mul(6364136223846793005).wrapping_add(1442695040888963407);
        (self.0 >> 33) as usize % bound
    }

    fn word(&mut self, letters: &str, least: usize, bound: usize) -> String {
        let letters: Vec<char> = letters.chars().collect();
        (0..least + self.below(bound)).map(|_| letters[self.below(letters.len())]).collect()
    }
}

/// What was written where a read failed begins the result, and has all that is settled by the bytes that were read.
#[track_caller]
fn check_failure(searcher: &AhoCorasick, text: &str, texts: &[String], mut left: Vec<Result<&str, ErrorKind>>) {
    let (reads, mut all) = (Cell::new(0), Vec::new());
    let read = left.iter().flatten().map(|piece| piece.len()).sum::<usize>();
    left.push(Err(ErrorKind::ConnectionReset));
    let error = searcher.try_stream_replace_all(pieces(left, &reads), &mut all, texts).unwrap_err();
    assert_eq!(error.kind(), ErrorKind::ConnectionReset);
    assert!(searcher.replace_all_bytes(text.as_bytes(), texts).starts_with(&all));
    let passed = read.saturating_sub(searcher.max_pattern_len());
    let settled =
        searcher.find_iter(text).map(|found| found.end()).take_while(|end| *end <= passed).last().unwrap_or(0);
    let mut wanted = searcher.replace_all_bytes(&text.as_bytes()[..settled], texts);
    if searcher.find_iter(text).all(|found| found.end() <= settled || found.start() >= passed) {
        wanted.extend_from_slice(&text.as_bytes()[settled..passed]);
    }
    assert!(all.starts_with(&wanted), "{read} of {text:?} by {searcher:?}");
}

#[test]
fn random_lists_of_texts_replace_as_in_the_whole() {
    let (mut numbers, reads) = (Numbers(1), Cell::new(0));
    for turn in 0..3000 {
        let letters = ["ab", "abAB", "ab\0"][numbers.below(3)];
        let count = numbers.below(6);
        let patterns: Vec<String> = (0..count).map(|_| numbers.word(letters, 1, 5)).collect();
        let texts: Vec<String> = (0..count).map(|_| numbers.word(letters, 0, 6)).collect();
        let text = numbers.word(letters, 0, 80);
        let mut builder = AhoCorasick::builder();
        builder
            .match_kind(KINDS[turn % 3])
            .ascii_case_insensitive(numbers.below(2) == 0)
            .prefilter(numbers.below(2) == 0);
        let searcher = builder.build(&patterns).unwrap();
        let whole = searcher.replace_all_bytes(text.as_bytes(), &texts);
        let lens: Vec<usize> = (0..=numbers.below(5)).map(|_| 1 + numbers.below(9)).collect();
        let (mut left, mut all) = (sips(&text, &lens), Vec::new());
        searcher.try_stream_replace_all(pieces(left.clone(), &reads), &mut all, &texts).unwrap();
        assert_eq!(all, whole, "{patterns:?} in {text:?}, {texts:?}, {searcher:?}");
        assert_eq!(reads.get(), left.len() + 1);
        left.truncate(numbers.below(left.len() + 1));
        check_failure(&searcher, &text, &texts, left);
    }
}

/// A reader that checks how much was written before each read.
struct Watched<'t> {
    left: VecDeque<(&'t str, usize)>,
    written: &'t Cell<usize>,
}

impl Read for Watched<'_> {
    fn read(&mut self, buffer: &mut [u8]) -> Result<usize, Error> {
        let Some((piece, wanted)) = self.left.pop_front() else { return Ok(0) };
        assert_eq!(self.written.get(), wanted, "before {piece}");
        buffer[..piece.len()].copy_from_slice(piece.as_bytes());
        Ok(piece.len())
    }
}

#[test]
fn what_is_known_is_written_before_more_is_read() {
    let written = Cell::new(0);
    let left = [("xxx", 0), ("xxxxabc", 0), ("d", 6), ("abcdxy", 9), ("", 11)].into();
    let searcher = AhoCorasick::new(["abcd"]).unwrap();
    let mut all = sink(usize::MAX, &written);
    searcher.try_stream_replace_all(Watched { left, written: &written }, &mut all, &["--"]).unwrap();
    assert_eq!(all.bytes, b"xxxxxxx----xy");
}

#[test]
fn refusals_read_nothing() {
    use MatchErrorKind::{InvalidInputUnanchored, UnsupportedEmpty};
    let reads = Cell::new(0);
    let starts = [StartKind::Unanchored, StartKind::Anchored, StartKind::Both];
    for (kind, start_kind) in KINDS.into_iter().flat_map(|kind| starts.map(|start_kind| (kind, start_kind))) {
        for (patterns, is_empty) in [(&["a", "b"], false), (&["a", ""], true)] {
            let searcher = AhoCorasick::builder().match_kind(kind).start_kind(start_kind).build(patterns).unwrap();
            let wanted = match (start_kind, is_empty) {
                (StartKind::Anchored, _) => Some(MatchError::new(InvalidInputUnanchored)),
                (_, true) => Some(MatchError::new(UnsupportedEmpty)),
                _ => None,
            };
            let text = || pieces([Ok("a")], &reads);
            assert_eq!(searcher.try_stream_find_iter(text()).err(), wanted);
            let panics = catch_unwind(AssertUnwindSafe(|| searcher.stream_find_iter(text()).count())).is_err();
            assert_eq!(panics, wanted.is_some());
            let mut all = Vec::new();
            let error = searcher.try_stream_replace_all(text(), &mut all, &["x", "y"]).err();
            let inner = error.map(|error| (error.kind(), error.downcast::<MatchError>().unwrap()));
            assert_eq!(inner, wanted.clone().map(|wanted| (ErrorKind::Other, wanted)));
            assert_eq!((reads.get() == 0, all.is_empty()), (wanted.is_some(), wanted.is_some()));
        }
    }
}

#[test]
fn errors_have_kinds_and_texts() {
    let all = [
        (MatchError::invalid_input_anchored(), MatchErrorKind::InvalidInputAnchored, "anchored"),
        (MatchError::invalid_input_unanchored(), MatchErrorKind::InvalidInputUnanchored, "unanchored"),
        (MatchError::unsupported_stream(Standard), MatchErrorKind::UnsupportedStream { got: Standard }, "Standard"),
        (
            MatchError::unsupported_overlapping(LeftmostFirst),
            MatchErrorKind::UnsupportedOverlapping { got: LeftmostFirst },
            "LeftmostFirst",
        ),
        (MatchError::unsupported_empty(), MatchErrorKind::UnsupportedEmpty, "empty"),
    ];
    for (error, kind, text) in all {
        assert_eq!((error.kind(), error.clone()), (&kind, MatchError::new(kind.clone())));
        assert!(error.to_string().contains(text), "{error}");
    }
}

/// A reader that says that it gave more than it was asked for.
struct Liar;

impl Read for Liar {
    fn read(&mut self, buffer: &mut [u8]) -> Result<usize, Error> {
        Ok(buffer.len() + 1)
    }
}

#[track_caller]
fn check_panic<T>(call: impl FnOnce() -> T) {
    let panic = catch_unwind(AssertUnwindSafe(call)).err().unwrap();
    assert_eq!(panic.downcast_ref::<String>().unwrap(), "the reader gave 65537 bytes where 65536 were asked for");
}

#[test]
fn a_reader_that_lies_has_a_panic() {
    let searcher = AhoCorasick::new([""; 0]).unwrap();
    let mut matches = searcher.stream_find_iter(Liar);
    check_panic(|| matches.next());
    check_panic(|| matches.next());
    check_panic(|| searcher.try_stream_replace_all(Liar, Vec::new(), &[""; 0]));
}

#[test]
fn there_is_one_text_for_each_pattern() {
    let searcher = AhoCorasick::new(["a", "b"]).unwrap();
    for texts in [&[][..], &["x"], &["x", "y", "z"]] {
        let call = || searcher.try_stream_replace_all("a".as_bytes(), Vec::new(), texts);
        assert!(catch_unwind(AssertUnwindSafe(call)).is_err());
    }
}

#[test]
fn readers_and_writers_may_be_lent() {
    let searcher = AhoCorasick::new(["b"]).unwrap();
    let (mut reader, mut all) = ("abc".as_bytes(), Vec::new());
    assert_eq!(searcher.stream_find_iter((&mut reader).take(2)).count(), 1);
    let shown = format!("{:?}", searcher.stream_find_iter(reader));
    assert!(shown.contains("StreamFindIter") && shown.contains("99") && shown.len() < 100, "{shown}");
    searcher.try_stream_replace_all(&mut reader, &mut all, &["x"]).unwrap();
    assert_eq!((reader, &all[..]), (&b""[..], &b"c"[..]));
}
