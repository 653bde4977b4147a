//! What the types do: batches and borrows, panics, conversions.
use aho_corasick_rattle::{AhoCorasick, Anchored, FindIter, Input, Match, MatchKind, PatternID, Span, StartKind};
use std::panic::{AssertUnwindSafe, catch_unwind};

fn panics<T>(call: impl FnOnce() -> T) -> bool {
    catch_unwind(AssertUnwindSafe(call)).is_err()
}

#[test]
fn batches_join() {
    let searcher = AhoCorasick::new(["a"]).unwrap();
    for count in [0, 1, 127, 128, 129, 255, 256, 257, 1000] {
        let haystack = "a".repeat(count);
        let mut matches = searcher.find_iter(&haystack);
        for at in 0..count {
            assert_eq!(matches.next(), Some(Match::must(0, at..at + 1)));
        }
        assert_eq!((matches.next(), matches.next()), (None, None));
        assert_eq!(matches.count(), 0);
        for taken in [0, 1, 127, 128, 129] {
            let mut matches = searcher.find_iter(&haystack);
            let taken = matches.by_ref().take(taken).count();
            assert_eq!(matches.count(), count - taken);
        }
    }
    let searcher = AhoCorasick::new(["a"; 300]).unwrap();
    let all: Vec<Match> = searcher.find_overlapping_iter("aa").collect();
    let wanted = [0..1, 1..2].into_iter().flat_map(|span| (0..300).map(move |i| Match::must(i, span.clone())));
    assert!(all.into_iter().eq(wanted));
}

#[test]
fn a_done_input_has_no_match() {
    let searcher = AhoCorasick::new([""]).unwrap();
    let done = Input::new("abc").range(4..);
    assert_eq!((searcher.find(done.clone()), searcher.is_match(done.clone())), (None, false));
    assert_eq!((searcher.find_iter(done.clone()).count(), searcher.find_iter(done.clone()).next()), (0, None));
    assert_eq!(searcher.find_overlapping_iter(done).next(), None);
}

#[test]
fn what_is_found_outlives_no_searcher() {
    fn rest<'a, 'h>(searcher: &'a AhoCorasick, haystack: &'h str) -> FindIter<'a, 'h> {
        let mut matches = searcher.find_iter(haystack);
        matches.next();
        matches
    }
    let haystack = String::from("a b a");
    let searcher = AhoCorasick::new(["a"]).unwrap();
    let shared = searcher.clone();
    let matches = rest(&shared, &haystack);
    drop(searcher);
    let copy = matches.clone();
    assert!(matches.eq([Match::must(0, 4..5)]));
    assert_eq!(copy.count(), 1);
}

#[test]
fn patterns_are_copied() {
    let mut patterns = vec![String::from("ab"), String::from("c")];
    let builder = AhoCorasick::builder();
    let searcher = builder.build(&patterns).unwrap();
    patterns.clear();
    assert_eq!(searcher.find("xc"), Some(Match::must(1, 1..2)));
    assert_eq!(builder.build(patterns).unwrap().patterns_len(), 0);
}

#[test]
fn haystacks_are_bytes_or_text() {
    let searcher = AhoCorasick::new([&b"\xff\x00"[..], b"b"]).unwrap();
    assert!(searcher.is_match(b"a\xff\x00"));
    assert!(searcher.is_match(&vec![b'b']));
    assert!(searcher.is_match(&String::from("b")));
    assert!(searcher.is_match("b"));
    assert!(!searcher.is_match(""));
}

#[test]
fn unsupported_searches_panic() {
    let mut builder = AhoCorasick::builder();
    let searcher = builder.match_kind(MatchKind::LeftmostFirst).build(["a"]).unwrap();
    assert!(panics(|| searcher.find_overlapping_iter("a").count()));
    assert!(panics(|| searcher.is_match(Input::new("a").anchored(Anchored::Yes))));
    assert!(panics(|| searcher.replace_all("a", &["b", "c"])));
    assert!(panics(|| searcher.replace_all_bytes(b"a", &[""; 0])));
    let searcher = builder.start_kind(StartKind::Anchored).build(["a"]).unwrap();
    assert!(panics(|| searcher.find("a")));
    assert!(panics(|| searcher.find_iter("a").count()));
    assert!(panics(|| searcher.replace_all("a", &["b"])));
    assert!(panics(|| searcher.replace_all_with("a", &mut String::new(), |_, _, _| true)));
    assert!(panics(|| searcher.replace_all_with_bytes(b"a", &mut Vec::new(), |_, _, _| true)));
    let error = searcher.try_find("a").unwrap_err();
    assert!(error.to_string().contains("unanchored") && format!("{searcher:?}").contains("LeftmostFirst"));
}

#[test]
fn inputs_keep_spans_inside() {
    let mut input = Input::new("abc").range(1..);
    assert_eq!((input.start(), input.end(), input.get_range(), input.is_done()), (1, 3, 1..3, false));
    input.set_start(4);
    assert!(input.is_done());
    input.set_range(..2);
    input.set_earliest(true);
    input.set_anchored(Anchored::Yes);
    assert_eq!((input.get_span(), input.get_earliest(), input.get_anchored()), (Span::from(0..2), true, Anchored::Yes));
    assert_eq!(input.haystack(), b"abc");
    assert!(format!("{input:?}").contains("abc"));
    assert!(panics(|| Input::new("abc").range(..4)));
    assert!(Input::new("abc").range(4..).is_done());
    assert!(panics(|| Input::new("abc").span(Span { start: 5, end: 3 })));
    assert!(panics(|| Input::new("abc").span(Span { start: usize::MAX, end: 3 })));
    assert!(panics(|| Input::new("abc").range(0..=usize::MAX)));
    assert!(panics(|| input.set_end(4)));
}

#[test]
fn small_types() {
    let found = Match::must(3, 1..4);
    assert_eq!((found.pattern(), found.start(), found.end(), found.range()), (PatternID::must(3), 1, 4, 1..4));
    assert_eq!((found.len(), found.is_empty(), found.offset(2)), (3, false, Match::new(PatternID::must(3), 3..6)));
    assert_eq!((&"xabcx"[found.span()], &b"xabcx"[found.span()]), ("abc", &b"abc"[..]));
    assert!(found.span() == (1..4) && (1..4) == found.span() && found.span().contains(3) && !found.span().contains(4));
    assert_eq!(std::ops::Range::from(found.span()), 1..4);
    assert_eq!(PatternID::new(2_147_483_646).unwrap(), PatternID::MAX);
    assert_eq!(PatternID::new(2_147_483_647).unwrap_err().attempted(), 2_147_483_647);
    assert!(panics(|| PatternID::must(usize::MAX)) && panics(|| Match::must(0, Span { start: 2, end: 1 })));
}
