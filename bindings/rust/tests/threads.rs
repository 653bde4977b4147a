//! Searchers that threads share.
use aho_corasick_rattle::{
    AhoCorasick, AhoCorasickBuilder, AhoCorasickKind, BuildError, FindIter, FindOverlappingIter, Input, Match,
    MatchError, MatchKind, StreamFindIter,
};
use std::panic::{RefUnwindSafe, UnwindSafe};
use std::sync::LazyLock;
use std::thread;

static FRUIT: LazyLock<AhoCorasick> = LazyLock::new(|| AhoCorasick::new(["apple", "maple", "Snapple"]).unwrap());
const TEXT: &str = "Nobody likes maple in their apple flavored Snapple.";

/// All answers of a searcher about a haystack.
fn answers(searcher: &AhoCorasick, haystack: &str) -> (Option<Match>, Vec<Match>, Vec<Match>, String) {
    let texts: Vec<String> = (0..searcher.patterns_len()).map(|number| number.to_string()).collect();
    (
        searcher.find(haystack),
        searcher.find_iter(haystack).collect(),
        searcher.find_overlapping_iter(haystack).collect(),
        searcher.replace_all(haystack, &texts),
    )
}

#[test]
fn types_cross_threads() {
    fn crosses<T: Send + Sync + UnwindSafe + RefUnwindSafe>() {}
    crosses::<AhoCorasick>();
    crosses::<AhoCorasickBuilder>();
    crosses::<FindIter<'_, '_>>();
    crosses::<FindOverlappingIter<'_, '_>>();
    crosses::<StreamFindIter<'_, &[u8]>>();
    crosses::<Input<'_>>();
    crosses::<Match>();
    crosses::<BuildError>();
    crosses::<MatchError>();
}

#[test]
fn a_static_is_shared() {
    let spawned = thread::spawn(|| answers(&FRUIT, TEXT));
    let here = answers(&FRUIT, TEXT);
    assert_eq!(here.1, [Match::must(1, 13..18), Match::must(0, 28..33), Match::must(2, 43..50)]);
    assert_eq!(spawned.join().unwrap(), here);
}

#[test]
fn eight_threads_share_a_searcher() {
    let text = TEXT.repeat(100);
    for kind in [AhoCorasickKind::NoncontiguousNFA, AhoCorasickKind::ContiguousNFA, AhoCorasickKind::DFA] {
        let searcher = AhoCorasick::builder().kind(Some(kind)).build(["apple", "maple", "Snapple", "e", "pp"]).unwrap();
        let alone = answers(&searcher, &text);
        thread::scope(|scope| {
            let found: Vec<_> = (0..8).map(|_| scope.spawn(|| answers(&searcher, &text))).collect();
            assert!(found.into_iter().all(|thread| thread.join().unwrap() == alone));
        });
    }
}

#[test]
fn each_thread_drops_its_own_clone() {
    let mut builder = AhoCorasick::builder();
    let searcher = builder.match_kind(MatchKind::LeftmostLongest).build(["Sam", "Samwise"]).unwrap();
    let threads: Vec<_> = (0..8)
        .map(|_| searcher.clone())
        .map(|clone| {
            thread::spawn(move || (0..100).all(|_| clone.clone().find("Samwise") == Some(Match::must(1, 0..7))))
        })
        .collect();
    drop(searcher);
    assert!(threads.into_iter().all(|thread| thread.join().unwrap()));
}

#[test]
fn an_iterator_goes_on_in_another_thread() {
    let text = TEXT.repeat(100);
    let mut matches = FRUIT.find_iter(&text);
    let first: Vec<Match> = matches.by_ref().take(150).collect();
    let rest = thread::scope(|scope| scope.spawn(move || matches.collect::<Vec<Match>>()).join().unwrap());
    assert!(first.into_iter().chain(rest).eq(FRUIT.find_iter(&text)));
}

#[test]
fn a_stream_goes_on_in_another_thread() {
    let text = TEXT.repeat(100);
    let mut matches = FRUIT.stream_find_iter(text.as_bytes()).map(Result::unwrap);
    let first: Vec<Match> = matches.by_ref().take(150).collect();
    let rest = thread::scope(|scope| scope.spawn(move || matches.collect::<Vec<Match>>()).join().unwrap());
    assert!(first.into_iter().chain(rest).eq(FRUIT.find_iter(&text)));
}

/// How many matches a stream has, if it has no more than bytes.
fn count_of_stream(searcher: AhoCorasick, text: &str) -> usize {
    searcher.stream_find_iter(text.as_bytes()).take(text.len()).count()
}

#[test]
fn threads_search_streams_and_batches_of_one_searcher() {
    let text = TEXT.repeat(100);
    let mut builder = AhoCorasick::builder();
    for kind in [MatchKind::Standard, MatchKind::LeftmostFirst, MatchKind::LeftmostLongest] {
        let searcher = builder.match_kind(kind).build(["apple", "maple", "Snapple", "e", "pp"]).unwrap();
        let alone: Vec<Match> = searcher.find_iter(&text).collect();
        thread::scope(|scope| {
            let clones = (0..8).map(|_| scope.spawn(|| count_of_stream(searcher.clone(), &text)));
            let counts: Vec<_> = clones.collect();
            assert!(searcher.stream_find_iter(text.as_bytes()).map(Result::unwrap).eq(alone.iter().copied()));
            assert!(counts.into_iter().all(|thread| thread.join().unwrap() == alone.len()));
        });
    }
}
