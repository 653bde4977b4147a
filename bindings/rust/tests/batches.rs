//! Iterators over more matches than one batch has, beside searches that find one match at a time.
mod common;

use aho_corasick_rattle::MatchKind::{LeftmostFirst, LeftmostLongest, Standard};
use aho_corasick_rattle::{AhoCorasick, Anchored, Input, Match, MatchKind, StartKind};
use common::searchers;
use std::ops::Range;

const KINDS: [MatchKind; 3] = [Standard, LeftmostFirst, LeftmostLongest];

/// Around these numbers of matches a batch ends.
const EDGES: [usize; 12] = [0, 1, 127, 128, 129, 255, 256, 257, 383, 384, 385, 500];

/// Two letters in an order that doesn't repeat, and a gap among them.
fn letters(len: usize) -> String {
    let letter = |at: usize| if at.count_ones() % 2 == 0 { 'a' } else { 'b' };
    let (one, two) = (0..len / 2, len / 2..len);
    one.map(letter).chain(std::iter::repeat_n('x', 410)).chain(two.map(letter)).collect()
}

/// A walk by one search for each match.
fn walk(searcher: &AhoCorasick, input: &Input<'_>) -> Vec<Match> {
    let (mut all, mut input): (Vec<Match>, _) = (Vec::new(), input.clone());
    while let Some(found) = searcher.find(input.clone()) {
        let is_again = found.is_empty() && all.last().is_some_and(|last| last.end() == found.end());
        if !is_again {
            all.push(found);
        }
        input.set_start(found.end() + usize::from(is_again));
    }
    all
}

/// All occurrences, by end, then start, then number.
fn listing(patterns: &[&str], text: &str, span: Range<usize>) -> Vec<Match> {
    let mut all = Vec::new();
    for end in span.start..=span.end {
        let here = |start| patterns.iter().enumerate().filter(move |&(_, pattern)| text[start..end] == **pattern);
        all.extend((span.start..=end).flat_map(|start| here(start).map(move |(i, _)| Match::must(i, start..end))));
    }
    all
}

/// What follows each number of matches, also in a clone, in a clone of that, and in a count.
#[track_caller]
fn check_parts<I: Iterator<Item = Match> + Clone>(matches: I, wanted: &[Match]) {
    assert!(matches.clone().eq(wanted.iter().copied()));
    for taken in EDGES.into_iter().filter(|&taken| taken <= wanted.len()) {
        let mut rest = matches.clone();
        assert!(rest.by_ref().take(taken).eq(wanted[..taken].iter().copied()));
        let copy = rest.clone();
        let mut second = copy.clone();
        let some = second.by_ref().take(130).count();
        assert!(second.clone().eq(wanted[taken + some..].iter().copied()), "a clone after {taken} and {some}");
        assert!(second.eq(wanted[taken + some..].iter().copied()), "after {taken} and {some}");
        assert!(copy.eq(wanted[taken..].iter().copied()), "a clone after {taken}");
        assert_eq!(rest.clone().count(), wanted.len() - taken);
        assert!(rest.by_ref().eq(wanted[taken..].iter().copied()), "after {taken}");
        assert_eq!((rest.next(), rest.next()), (None, None));
    }
}

fn spans(text: &str) -> [Range<usize>; 5] {
    let len = text.len();
    [0..len, 7..len, 9..len - 5, len..len, 3..3]
}

/// Searchers whose batches go on by a cursor, and others by a stream, since they also have a long pattern.
fn some_searchers(patterns: &[&str], kind: MatchKind) -> Vec<AhoCorasick> {
    let mut some = Vec::new();
    for longest in [None, Some("c".repeat(150)), Some("c".repeat(400))] {
        let patterns: Vec<&str> = patterns.iter().copied().chain(longest.as_deref()).collect();
        let all = searchers(&patterns, |builder| {
            builder.match_kind(kind).start_kind(StartKind::Both);
        });
        some.extend(all.into_iter().step_by(13));
    }
    some
}

#[test]
fn walks_go_on_after_each_batch() {
    let text = letters(600);
    let lists: [&[&str]; 4] = [&["a", "ab", "bba"], &["abba", "b", "a", "abbabaab"], &["aab", "ba", "b"], &["", "ba"]];
    for (kind, patterns) in KINDS.into_iter().flat_map(|kind| lists.map(|list| (kind, list))) {
        for searcher in some_searchers(patterns, kind) {
            for span in spans(&text) {
                for (anchored, earliest) in [(Anchored::No, false), (Anchored::No, true), (Anchored::Yes, false)] {
                    let input = Input::new(&text).range(span.clone()).anchored(anchored).earliest(earliest);
                    check_parts(searcher.find_iter(input.clone()), &walk(&searcher, &input));
                }
            }
        }
    }
}

#[test]
fn listings_go_on_after_each_batch() {
    let text = letters(300);
    let lists: [&[&str]; 5] =
        [&["a", "ab", "bba"], &["abba", "b", "a", "abbabaab"], &["ab"; 3], &["", "ba", "b"], &["a", "b"]];
    for patterns in lists {
        for span in spans(&text) {
            let wanted = listing(patterns, &text, span.clone());
            for searcher in some_searchers(patterns, Standard) {
                for earliest in [false, true] {
                    let input = Input::new(&text).range(span.clone()).earliest(earliest);
                    check_parts(searcher.find_overlapping_iter(input), &wanted);
                }
            }
        }
    }
}

#[test]
fn batches_end_within_one_offset() {
    for copies in [1, 2, 64, 127, 128, 129, 256, 300] {
        let mut patterns = vec!["ab"; copies];
        patterns.extend(["xab", "abxabxab"]);
        let searcher = AhoCorasick::new(&patterns).unwrap();
        let text = "xabxab".repeat(2) + "xab";
        for span in [0..text.len(), 1..text.len(), 2..text.len() - 1] {
            let wanted = listing(&patterns, &text, span.clone());
            check_parts(searcher.find_overlapping_iter(Input::new(&text).range(span)), &wanted);
        }
    }
}

#[test]
fn a_long_pattern_has_more_than_a_batch_inside() {
    let text = "a".repeat(700);
    let patterns = ["a", &text[..300], "aa", "aaaaaaa"];
    let searcher = AhoCorasick::new(patterns).unwrap();
    for span in [0..text.len(), 5..text.len() - 5] {
        let wanted = listing(&patterns, &text, span.clone());
        check_parts(searcher.find_overlapping_iter(Input::new(&text).range(span)), &wanted);
    }
}

#[test]
fn as_many_matches_as_batches_have() {
    for count in EDGES {
        let text = format!("xxab{}xab", "ab".repeat(count));
        let last = text.len() - 2;
        let mut wanted: Vec<Match> = (0..count).map(|i| Match::must(0, 4 + 2 * i..6 + 2 * i)).collect();
        for searcher in KINDS.into_iter().flat_map(|kind| some_searchers(&["ab", "abc"], kind)) {
            let input = Input::new(&text).range(4..);
            check_parts(searcher.find_iter(input.clone().anchored(Anchored::Yes)), &wanted);
            check_parts(searcher.find_iter(input.clone().range(4..last + 1)), &wanted);
            wanted.push(Match::must(0, last..last + 2));
            check_parts(searcher.find_iter(input), &wanted);
            wanted.pop();
        }
    }
}
