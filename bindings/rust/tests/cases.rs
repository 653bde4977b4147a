//! The cases of ../cases.txt, over all settings.
mod common;

use aho_corasick_rattle::{AhoCorasick, AhoCorasickBuilder, Anchored, Input, MatchKind, StartKind};
use common::{Found, numbers, searchers};

/// A text of a field, which stands between quotes.
fn text(quoted: &str) -> String {
    quoted.trim_matches('"').replace("\\0", "\0").replace("\\1", "\u{1}")
}

fn match_of(written: &str) -> (usize, usize, usize) {
    let mut numbers = written.split([':', '-']).map(|number| number.parse().unwrap());
    (numbers.next().unwrap(), numbers.next().unwrap(), numbers.next().unwrap())
}

/// The setting of a searcher for a search of the file.
fn set(search: &str, builder: &mut AhoCorasickBuilder) {
    builder
        .match_kind(match search.trim_end_matches(['^', '~']) {
            "first" => MatchKind::LeftmostFirst,
            "longest" => MatchKind::LeftmostLongest,
            _ => MatchKind::Standard,
        })
        .start_kind(if search.ends_with('^') { StartKind::Both } else { StartKind::Unanchored })
        .ascii_case_insensitive(search.ends_with('~'));
}

fn answer(search: &str, searcher: &AhoCorasick, haystack: &str) -> Found {
    if search.ends_with('^') {
        numbers(searcher.find(Input::new(haystack).anchored(Anchored::Yes)))
    } else if search.starts_with("all") {
        numbers(searcher.find_overlapping_iter(haystack))
    } else {
        numbers(searcher.find_iter(haystack))
    }
}

#[test]
fn answers_are_those_of_the_file() {
    let lines = include_str!("../../cases.txt").lines().filter(|line| !line.starts_with('#'));
    let mut answers = 0;
    for line in lines {
        let [searches, patterns, haystack, matches] = line.split(" :").collect::<Vec<_>>()[..] else {
            panic!("{line}")
        };
        let patterns: Vec<String> = patterns.split_whitespace().map(text).collect();
        let wanted: Found = matches.split_whitespace().map(match_of).collect();
        for search in searches.split(' ') {
            for searcher in searchers(&patterns, |builder| set(search, builder)) {
                assert_eq!(
                    answer(search, &searcher, &text(haystack.trim())),
                    wanted,
                    "{search} of {line} by {searcher:?}"
                );
            }
            answers += 1;
        }
    }
    assert_eq!(answers, 439);
}
