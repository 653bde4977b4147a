//! `peer FOLDER TIMES` measures the Rust binding beside the Rust crate aho-corasick 0.7.19, over the haystacks and pattern
//! sets that ../haystacks.py wrote to a folder. Both run alternately, that many times, and the best time of each counts.
use aho_corasick as peer;
use aho_corasick_rattle::{AhoCorasick, AhoCorasickKind, Match};
use std::hint::black_box;
use std::path::{Path, PathBuf};
use std::time::Instant;
use std::{env, fs};

/// The seconds of the binding, and those of the crate.
type Times = (f64, f64);

/// How many pieces of 16 bytes are searched one by one.
const PIECES: usize = 1 << 16;

fn seconds<A>(work: &mut impl FnMut() -> A) -> f64 {
    let began = Instant::now();
    black_box(work());
    began.elapsed().as_secs_f64()
}

/// Runs two pieces of work alternately, and returns the least time of each.
fn best<A, B>(times: usize, mut one: impl FnMut() -> A, mut other: impl FnMut() -> B) -> Times {
    (0..times).fold((f64::MAX, f64::MAX), |best, _| (best.0.min(seconds(&mut one)), best.1.min(seconds(&mut other))))
}

/// Looks at each match.
fn sum(matches: impl Iterator<Item = Match>) -> usize {
    matches.fold(0, |sum, m| sum.wrapping_mul(3).wrapping_add(m.pattern().as_usize() ^ m.start() ^ m.end()))
}

fn sum_of_peer(matches: impl Iterator<Item = peer::Match>) -> usize {
    matches.fold(0, |sum, m| sum.wrapping_mul(3).wrapping_add(m.pattern() ^ m.start() ^ m.end()))
}

/// Which engines a row compares. Those that the builders choose have prefilters, and the others none.
#[derive(Clone, Copy)]
struct Engine {
    name: &'static str,
    kind: Option<AhoCorasickKind>,
    peer_is_dfa: bool,
}

const ENGINES: [Engine; 4] = [
    Engine { name: "chosen", kind: None, peer_is_dfa: false },
    Engine { name: "DFA", kind: Some(AhoCorasickKind::DFA), peer_is_dfa: true },
    Engine { name: "contiguous NFA", kind: Some(AhoCorasickKind::ContiguousNFA), peer_is_dfa: false },
    Engine { name: "noncontiguous NFA", kind: Some(AhoCorasickKind::NoncontiguousNFA), peer_is_dfa: false },
];

impl Engine {
    fn build(&self, patterns: &[&[u8]]) -> AhoCorasick {
        let mut builder = AhoCorasick::builder();
        builder.kind(self.kind).prefilter(self.kind.is_none()).build(patterns).expect("patterns that fit")
    }

    fn build_peer(&self, patterns: &[&[u8]]) -> peer::AhoCorasick {
        let mut builder = peer::AhoCorasickBuilder::new();
        match self.kind {
            None => builder.auto_configure(patterns),
            Some(_) => builder.dfa(self.peer_is_dfa).prefilter(false),
        };
        builder.build(patterns)
    }
}

/// What the searches of a row take.
struct Row<'a> {
    haystack: &'a [u8],
    texts: Vec<&'a str>,
    ours: AhoCorasick,
    peer: peer::AhoCorasick,
    times: usize,
}

impl Row<'_> {
    fn walk(&self) -> Times {
        let peer = || sum_of_peer(self.peer.find_iter(self.haystack));
        best(self.times, || sum(self.ours.find_iter(self.haystack)), peer)
    }

    fn overlapping(&self) -> Times {
        let peer = || sum_of_peer(self.peer.find_overlapping_iter(self.haystack));
        best(self.times, || sum(self.ours.find_overlapping_iter(self.haystack)), peer)
    }

    fn replace(&self) -> Times {
        let peer = || self.peer.replace_all_bytes(self.haystack, &self.texts);
        best(self.times, || self.ours.replace_all_bytes(self.haystack, &self.texts), peer)
    }

    fn pieces(&self) -> impl Iterator<Item = &[u8]> {
        self.haystack.chunks_exact(16).cycle().take(PIECES)
    }

    fn find_in_pieces(&self) -> Times {
        let peer = || self.pieces().filter(|piece| self.peer.find(piece).is_some()).count();
        best(self.times, || self.pieces().filter(|piece| self.ours.find(*piece).is_some()).count(), peer)
    }

    fn walk_pieces(&self) -> Times {
        let peer = || self.pieces().fold(0, |all, piece| all ^ sum_of_peer(self.peer.find_iter(piece)));
        best(self.times, || self.pieces().fold(0, |all, piece| all ^ sum(self.ours.find_iter(piece))), peer)
    }
}

/// Prints how many times as fast as the crate the binding is, and the nanoseconds of both for a piece of 16 bytes.
fn print_row(name: &str, engine: Engine, haystack: &[u8], patterns: &[&[u8]], times: usize) {
    let texts = vec!["<>"; patterns.len()];
    let row = Row { haystack, texts, ours: engine.build(patterns), peer: engine.build_peer(patterns), times };
    assert_eq!(sum(row.ours.find_iter(haystack)), sum_of_peer(row.peer.find_iter(haystack)), "{name}");
    let build = best(times, || engine.build(patterns), || engine.build_peer(patterns));
    let walk = row.walk();
    print!("| {name} | {} | {:.0}", engine.name, haystack.len() as f64 / 1e6 / walk.0);
    for (ours, peer) in [walk, row.overlapping(), row.replace(), build] {
        print!(" | {:.2}", peer / ours);
    }
    for (ours, peer) in [row.find_in_pieces(), row.walk_pieces()] {
        print!(" | {:.0}, {:.0}", ours * 1e9 / PIECES as f64, peer * 1e9 / PIECES as f64);
    }
    println!(" |");
}

fn sets_in(folder: &Path) -> Vec<PathBuf> {
    let mut sets: Vec<_> = fs::read_dir(folder).expect("a folder").map(|file| file.expect("a file").path()).collect();
    sets.retain(|path| path.extension().is_some_and(|it| it == "pat"));
    sets.sort();
    sets
}

fn print_sets(folder: &Path, times: usize) {
    println!(
        "How many times as fast as the crate the binding is; and nanoseconds for 16 bytes, by the binding and by the crate.\n"
    );
    println!("| Patterns | Engine | Walk, MB/s | Walk | Overlapping | Replace | Build | Find in 16 | Walk in 16 |");
    println!("|---|---|---|---|---|---|---|---|---|");
    for path in sets_in(folder) {
        let name = path.file_stem().and_then(|it| it.to_str()).expect("a name of ASCII");
        let haystack = name.split('-').next().expect("the name of a haystack");
        let haystack = fs::read(folder.join(haystack).with_extension("hay")).expect("a haystack");
        let patterns = fs::read(&path).expect("a list of patterns");
        let patterns: Vec<&[u8]> = patterns.trim_ascii_end().split(|&byte| byte == b'\n').collect();
        for engine in ENGINES {
            print_row(name, engine, &haystack, &patterns, times);
        }
    }
}

/// Prints what it costs that matches cross the boundary: a walk that looks at each, and a count inside the library.
fn print_boundary(times: usize) {
    println!("\nA walk, whose matches cross the boundary in batches, and a count inside the library.\n");
    println!("| Bytes from match to match | Walk, MB/s | Count, MB/s | Walk to count |");
    println!("|---|---|---|---|");
    let mut builder = AhoCorasick::builder();
    let builder = builder.kind(Some(AhoCorasickKind::DFA)).prefilter(false);
    let searcher = builder.build(["!", "?"]).expect("two patterns");
    for distance in [8, 64, 1 << 16] {
        let haystack = [&vec![b'.'; distance - 1], &b"!"[..]].concat().repeat((1 << 22) / distance);
        let count = || searcher.find_iter(&haystack).count();
        let (walk, count) = best(times, || sum(searcher.find_iter(&haystack)), count);
        let megabytes = haystack.len() as f64 / 1e6;
        println!("| {distance} | {:.0} | {:.0} | {:.2} |", megabytes / walk, megabytes / count, count / walk);
    }
}

fn main() {
    let arguments: Vec<String> = env::args().collect();
    let times = arguments[2].parse().expect("a number of times");
    print_sets(Path::new(&arguments[1]), times);
    print_boundary(times);
}
