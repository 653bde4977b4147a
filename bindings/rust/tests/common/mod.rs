//! Searchers of all settings that change no answer.
#![allow(dead_code)]

use aho_corasick_rattle::{AhoCorasick, AhoCorasickBuilder, AhoCorasickKind, Match};

pub type Found = Vec<(usize, usize, usize)>;

pub fn numbers(matches: impl IntoIterator<Item = Match>) -> Found {
    matches.into_iter().map(|m| (m.pattern().as_usize(), m.start(), m.end())).collect()
}

/// A searcher for each engine, prefilter, dense depth and byte classes.
pub fn searchers<P: AsRef<[u8]>>(patterns: &[P], set: impl Fn(&mut AhoCorasickBuilder)) -> Vec<AhoCorasick> {
    use AhoCorasickKind::{ContiguousNFA, DFA, NoncontiguousNFA};
    let mut all = Vec::new();
    for kind in [None, Some(NoncontiguousNFA), Some(ContiguousNFA), Some(DFA)] {
        for number in 0..12 {
            let mut builder = AhoCorasick::builder();
            set(&mut builder);
            builder.kind(kind).prefilter(number % 2 == 0).byte_classes(number / 2 % 2 == 0);
            let searcher = builder.dense_depth([0, 2, usize::MAX][number / 4]).build(patterns).unwrap();
            assert!(kind.is_none_or(|kind| searcher.kind() == kind));
            all.push(searcher);
        }
    }
    all
}
