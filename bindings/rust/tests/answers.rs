//! What the calls answer: rows of inputs and answers, over all settings.
mod common;

use aho_corasick_rattle::MatchKind::{LeftmostFirst, LeftmostLongest, Standard};
use aho_corasick_rattle::{
    AhoCorasick, AhoCorasickKind, Anchored, Input, Match, MatchErrorKind, MatchKind, PatternID, Span, StartKind,
};
use common::{Found, numbers, searchers};

const KINDS: [MatchKind; 3] = [Standard, LeftmostFirst, LeftmostLongest];
const HOBBITS: &str = "append the app to the appendage";
const APPENDS: [&str; 3] = ["append", "appendage", "app"];
const FRUIT: &str = "Nobody likes maple in their apple flavored Snapple.";
const LETTERS: [&str; 3] = ["b", "abc", "abcd"];

/// Searchers of a match kind for all starts.
fn of_kind(kind: MatchKind, patterns: &[&str]) -> Vec<AhoCorasick> {
    searchers(patterns, |builder| {
        builder.match_kind(kind).start_kind(StartKind::Both);
    })
}

fn anchored(haystack: &str) -> Input<'_> {
    Input::new(haystack).anchored(Anchored::Yes)
}

#[track_caller]
fn check_walk<'h>(kind: MatchKind, patterns: &[&str], input: impl Into<Input<'h>>, wanted: &[(usize, usize, usize)]) {
    let input = input.into();
    for searcher in of_kind(kind, patterns) {
        assert_eq!(numbers(searcher.find_iter(input.clone())), wanted, "{searcher:?}");
        assert_eq!(numbers(searcher.find(input.clone())), wanted.iter().take(1).copied().collect::<Found>());
        assert_eq!(searcher.is_match(input.clone()), !wanted.is_empty());
    }
}

#[track_caller]
fn check_overlapping(patterns: &[&str], haystack: &str, wanted: &[(usize, usize, usize)]) {
    for searcher in of_kind(Standard, patterns) {
        assert_eq!(numbers(searcher.find_overlapping_iter(haystack)), wanted, "{searcher:?}");
    }
}

#[track_caller]
fn check_find<'h>(kind: MatchKind, patterns: &[&str], input: impl Into<Input<'h>>, wanted: Option<Match>) {
    let input = input.into();
    for searcher in of_kind(kind, patterns) {
        assert_eq!(searcher.find(input.clone()), wanted, "{searcher:?}");
        assert_eq!(searcher.try_find(input.clone()), Ok(wanted));
        assert_eq!(searcher.is_match(input.clone()), wanted.is_some());
    }
}

#[test]
fn walks() {
    for kind in KINDS {
        check_walk(kind, &["apple", "maple", "Snapple"], FRUIT, &[(1, 13, 18), (0, 28, 33), (2, 43, 50)]);
        check_walk(kind, &["foo", "bar", "baz"], "xxx bar xxx", &[(1, 4, 7)]);
    }
    check_walk(Standard, &APPENDS, HOBBITS, &[(2, 0, 3), (2, 11, 14), (2, 22, 25)]);
    check_walk(LeftmostFirst, &APPENDS, HOBBITS, &[(0, 0, 6), (2, 11, 14), (0, 22, 28)]);
    check_walk(LeftmostLongest, &APPENDS, HOBBITS, &[(0, 0, 6), (2, 11, 14), (1, 22, 31)]);
    check_walk(LeftmostFirst, &["a", "abcdefghi", "hz", "abcdefgh"], "abcdefghz", &[(0, 0, 1), (2, 7, 9)]);
    check_walk(LeftmostLongest, &["a", "abcdefghi", "hz", "abcdefgh"], "abcdefghz", &[(3, 0, 8)]);
    for kind in [LeftmostFirst, LeftmostLongest] {
        check_walk(kind, &["b", "abcdefghi", "hz", "abcdefgh"], "abcdefghz", &[(3, 0, 8)]);
    }
    check_walk(LeftmostFirst, &["foo", "bar", "quux"], anchored("fooquuxbar foo"), &[(0, 0, 3), (2, 3, 7), (1, 7, 10)]);
}

#[test]
fn finds() {
    let found = |pattern, start, end| Some(Match::must(pattern, start..end));
    check_find(Standard, &LETTERS, "abcd", found(0, 1, 2));
    check_find(LeftmostFirst, &LETTERS, "abcd", found(1, 0, 3));
    check_find(LeftmostLongest, &LETTERS, "abcd", found(2, 0, 4));
    for kind in KINDS {
        check_find(kind, &LETTERS, Input::new("abcd").earliest(true), found(0, 1, 2));
        check_find(kind, &LETTERS, Input::new("foo abcd").earliest(true), found(0, 5, 6));
        check_find(kind, &["ab", "ab"], "abab", found(0, 0, 2));
        check_find(kind, &["foo", "bar", "quux", "baz"], "xxx qux xxx", None);
    }
    check_find(Standard, &["Samwise", "Sam"], "Samwise", found(1, 0, 3));
    check_find(LeftmostFirst, &["Samwise", "Sam"], "Samwise", found(0, 0, 7));
    check_find(LeftmostFirst, &LETTERS, "foo abcd", found(1, 4, 7));
    check_find(LeftmostFirst, &LETTERS, anchored("foo abcd"), None);
    check_find(LeftmostFirst, &LETTERS, anchored("foo abcd").range(4..), found(1, 4, 7));
    check_find(LeftmostFirst, &LETTERS, anchored("abcd"), found(1, 0, 3));
    check_find(LeftmostFirst, &["abc", "bd", ""], "abd", found(2, 0, 0));
}

#[test]
fn occurrences() {
    let all = [(2, 0, 3), (0, 0, 6), (2, 11, 14), (2, 22, 25), (0, 22, 28), (1, 22, 31)];
    check_overlapping(&APPENDS, HOBBITS, &all);
    check_overlapping(&["ab", "ab"], "abab", &[(0, 0, 2), (1, 0, 2), (0, 2, 4), (1, 2, 4)]);
    check_overlapping(&["", "a"], "a", &[(0, 0, 0), (1, 0, 1), (0, 1, 1)]);
}

#[test]
fn empty_patterns() {
    check_walk(Standard, &["", "a"], "a", &[(0, 0, 0), (0, 1, 1)]);
    check_walk(LeftmostLongest, &["", "a"], "ba", &[(0, 0, 0), (1, 1, 2)]);
    check_walk(LeftmostLongest, &["", "a"], anchored("ba"), &[(0, 0, 0), (1, 1, 2)]);
    check_walk(LeftmostFirst, &["abc", "bd", ""], "abd", &[(2, 0, 0), (1, 1, 3)]);
    for kind in KINDS {
        check_walk(kind, &[""], "", &[(0, 0, 0)]);
        check_walk(kind, &[""], Input::new("abc").span(Span { start: 4, end: 3 }), &[]);
        check_walk(kind, &[""], Input::new("abc").range(3..), &[(0, 3, 3)]);
        check_walk(kind, &[], "abc", &[]);
    }
}

#[test]
fn spans() {
    for kind in KINDS {
        check_walk(kind, &["abc"], Input::new("xabcx").range(1..4), &[(0, 1, 4)]);
        check_walk(kind, &["abc"], Input::new("xabcx").range(1..=3), &[(0, 1, 4)]);
        for nothing in [1..3, 2..5, 5..5] {
            check_walk(kind, &["abc"], Input::new("xabcx").range(nothing), &[]);
        }
    }
}

#[test]
fn cases_of_letters() {
    for ignores in [true, false] {
        let set = |builder: &mut aho_corasick_rattle::AhoCorasickBuilder| {
            builder.ascii_case_insensitive(ignores);
        };
        for searcher in searchers(&["FOO", "bAr", "BaZ"], set) {
            let wanted = [(0, 0, 3), (1, 4, 7), (2, 8, 11)];
            assert_eq!(numbers(searcher.find_iter("foo bar baz")), wanted[..if ignores { 3 } else { 0 }]);
        }
        for searcher in searchers(&["apple", "maple", "snapple"], set) {
            let wanted = [(1, 13, 18), (0, 28, 33), (2, 43, 50)];
            let cased = [(1, 13, 18), (0, 28, 33), (0, 45, 50)];
            assert_eq!(numbers(searcher.find_iter(FRUIT)), if ignores { wanted } else { cased });
        }
    }
    for pair in (b'a'..=b'z').flat_map(|one| (b'a'..=b'z').map(move |two| [one, two])) {
        let searcher = AhoCorasick::builder().ascii_case_insensitive(true).build([pair]).unwrap();
        assert_eq!(searcher.find_iter(&pair.to_ascii_uppercase()).count(), 1);
    }
    // As many states as the pattern has bytes, and not one for each way to write it.
    let long = "Tsubaki House-Triple Shot Vol01校花三姐妹";
    assert!(!AhoCorasick::builder().ascii_case_insensitive(true).build([long]).unwrap().is_match(""));
    assert!(AhoCorasick::new(["ab/j/", "x/"]).unwrap().is_match("ab/j/"));
}

#[test]
fn many_patterns() {
    for last in [0xfe, 0xff] {
        let patterns: Vec<[u8; 2]> = (0x80..=last).map(|byte| [b'a', byte]).collect();
        for searcher in searchers(&patterns, |_| ()) {
            let wanted: Found = (0..patterns.len()).map(|i| (i, 2 * i, 2 * i + 2)).collect();
            assert_eq!(numbers(searcher.find_iter(&patterns.concat())), wanted);
        }
    }
}

#[test]
fn replacements() {
    for searcher in of_kind(LeftmostFirst, &APPENDS) {
        let wanted = "x the z to the xage";
        assert_eq!(searcher.replace_all(HOBBITS, &["x", "y", "z"]), wanted);
        assert_eq!(searcher.replace_all_bytes(HOBBITS.as_bytes(), &["x", "y", "z"]), wanted.as_bytes());
        assert_eq!(searcher.try_replace_all(HOBBITS, &["x", "y", "z"]).unwrap(), wanted);
        assert_eq!(searcher.try_replace_all_bytes(HOBBITS.as_bytes(), &["x", "y", "z"]).unwrap(), wanted.as_bytes());
        let mut text = String::from("pre");
        searcher.replace_all_with(HOBBITS, &mut text, |m, _, dst| {
            dst.push_str(&m.pattern().as_usize().to_string());
            true
        });
        assert_eq!(text, "pre0 the 2 to the 0age");
        let mut bytes = Vec::new();
        searcher.replace_all_with_bytes(HOBBITS.as_bytes(), &mut bytes, |m, was, dst| {
            assert_eq!(was, APPENDS[m.pattern().as_usize()].as_bytes());
            dst.push(b'0' + m.pattern().as_u32() as u8);
            m.pattern() != PatternID::must(2)
        });
        assert_eq!(bytes, b"0 the 2 to the appendage");
        let mut kept = String::from("keep");
        searcher.replace_all_with(HOBBITS, &mut kept, |_, _, dst| {
            dst.clear();
            true
        });
        assert_eq!(kept, "age");
    }
    for searcher in of_kind(Standard, &["fox", "brown", "quick"]) {
        let sloth = searcher.replace_all("The quick brown fox.", &["sloth", "grey", "slow"]);
        assert_eq!(sloth, "The slow grey sloth.");
    }
}

#[test]
fn replacements_leave_characters_whole() {
    let searcher = AhoCorasick::new([b"\xc3"]).unwrap();
    assert_eq!(searcher.replace_all("é", &["x"]), "é");
    assert_eq!(searcher.replace_all_bytes("é".as_bytes(), &["x"]), b"x\xa9");
    assert_eq!(AhoCorasick::new([b"\xa9"]).unwrap().replace_all("é", &["x"]), "é");
    let empty = AhoCorasick::new([""]).unwrap();
    assert_eq!(empty.replace_all("aé", &["-"]), "-a-é-");
}

#[test]
fn facts() {
    let searcher = AhoCorasick::new(["foo", "bar", "quux", "baz"]).unwrap();
    assert_eq!(searcher.kind(), AhoCorasickKind::DFA);
    assert_eq!((searcher.start_kind(), searcher.match_kind()), (StartKind::Unanchored, Standard));
    assert_eq!((searcher.min_pattern_len(), searcher.max_pattern_len(), searcher.patterns_len()), (3, 4, 4));
    assert!(searcher.memory_usage() > 0);
    let searcher = AhoCorasick::new(["foo", "", "quux", "baz"]).unwrap();
    assert_eq!(searcher.min_pattern_len(), 0);
    let searcher = AhoCorasick::new([""; 0]).unwrap();
    assert_eq!((searcher.min_pattern_len(), searcher.max_pattern_len(), searcher.patterns_len()), (usize::MAX, 0, 0));
    let kind_of = |count, kind| {
        let patterns: Vec<String> = (0..count).map(|i| i.to_string()).collect();
        AhoCorasick::builder().start_kind(kind).build(patterns).unwrap().kind()
    };
    assert_eq!(kind_of(100, StartKind::Unanchored), AhoCorasickKind::DFA);
    assert_eq!(kind_of(101, StartKind::Unanchored), AhoCorasickKind::ContiguousNFA);
    assert_eq!(kind_of(1, StartKind::Both), AhoCorasickKind::ContiguousNFA);
}

#[test]
fn refusals() {
    use MatchErrorKind::{InvalidInputAnchored, InvalidInputUnanchored, UnsupportedOverlapping};
    for kind in KINDS {
        for start_kind in [StartKind::Unanchored, StartKind::Anchored, StartKind::Both] {
            let set = |builder: &mut aho_corasick_rattle::AhoCorasickBuilder| {
                builder.match_kind(kind).start_kind(start_kind);
            };
            for searcher in searchers(&LETTERS, set) {
                for is_done in [false, true] {
                    let span = if is_done { Span { start: 4, end: 3 } } else { Span { start: 0, end: 3 } };
                    for yes in [Anchored::No, Anchored::Yes] {
                        let input = Input::new("abc").span(span).anchored(yes);
                        let wanted = match (start_kind, yes) {
                            (StartKind::Unanchored, Anchored::Yes) => Some(InvalidInputAnchored),
                            (StartKind::Anchored, Anchored::No) => Some(InvalidInputUnanchored),
                            _ => None,
                        };
                        let error = searcher.try_find(input.clone()).err();
                        assert_eq!(error.map(|error| error.kind().clone()), wanted);
                        let error = searcher.try_find_iter(input.clone()).err();
                        assert_eq!(error.map(|error| error.kind().clone()), wanted);
                        let wanted = wanted
                            .or((kind != Standard).then_some(UnsupportedOverlapping { got: kind }))
                            .or(yes.is_anchored().then_some(InvalidInputAnchored));
                        let error = searcher.try_find_overlapping_iter(input).err();
                        assert_eq!(error.map(|error| error.kind().clone()), wanted);
                    }
                }
                let mut text = String::from("pre");
                let error = searcher.try_replace_all_with("xyz", &mut text, |_, _, _| true).err();
                let wanted = (start_kind == StartKind::Anchored).then_some(InvalidInputUnanchored);
                assert_eq!(text, if wanted.is_some() { "pre" } else { "prexyz" });
                assert_eq!(error.map(|error| error.kind().clone()), wanted);
            }
        }
    }
}
