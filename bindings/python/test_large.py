"""Lists at the edge, and searches past large sizes, by each engine and match kind."""
import itertools
import unittest

from ahocorasick_rattle import ENGINES, KINDS, AhoCorasick

# How many bytes a haystack has before what is searched for.
LONG = 8 << 20
# How many matches a haystack has at least.
MANY = 1_100_000
# The engines with their dense depths, and that one is chosen.
SERVED = [(None, 2), ("noncontiguous-nfa", 256), ("contiguous-nfa", 2), ("contiguous-nfa", 300), ("dfa", 0)]
# The start kinds, with whether a search is anchored that each supports.
STARTS = [("unanchored", False), ("anchored", True), ("both", False)]


class Edges(unittest.TestCase):
    """None, many, long and short patterns, equal ones, and such as begin with one another."""

    def compare(self, patterns, end, wanted, front=LONG, **settings):
        """Compares the finds in a haystack of so many bytes 0, and these after them. The pattern and the length of the match
        there are wanted, by each match kind."""
        haystack = bytes(front) + end
        for (kind, match), (engine, depth) in itertools.product(zip(KINDS, wanted), SERVED):
            with AhoCorasick(patterns, kind=kind, engine=engine, dense_depth=depth, **settings) as searcher:
                there = match and (match[0], front, front + match[1])
                self.assertEqual(there, searcher.find(haystack), (kind, engine))

    def test_no_pattern(self):
        self.compare([], b"abc", [None] * 3)

    def test_patterns_by_the_hundred_thousand(self):
        self.compare([b"%05d" % number for number in range(100_000)], b"98765", [(98_765, 5)] * 3)

    def test_a_pattern_of_a_million_bytes(self):
        pattern = b"a" * 999_999 + b"b"
        self.compare([pattern], pattern, [(0, 1_000_000)] * 3)

    def test_patterns_of_one_byte(self):
        self.compare([bytes([byte]) for byte in range(1, 256)], b"\xff", [(254, 1)] * 3)

    def test_patterns_of_two_bytes(self):
        self.compare([bytes(pair) for pair in itertools.product(range(256), repeat=2)], b"\xfe\xfd", [(0xFEFD, 2)] * 3, 0)

    def test_equal_patterns_by_the_thousand(self):
        self.compare([b"aa"] * 5_000, b"aa", [(0, 2)] * 3)

    def test_patterns_that_begin_with_one_another(self):
        patterns = [b"a" * length for length in range(1, 2_001)]
        self.compare(patterns, patterns[-1], [(0, 1), (0, 1), (1_999, 2_000)])

    def test_letters_without_their_case(self):
        letters = (b"abcxyz" * 16_667)[:100_000]
        self.compare([letters[:50_000], letters[50_000:]], letters.upper(), [(0, 50_000)] * 3, ignore_case=True)


class Large(unittest.TestCase):
    """Sizes past which a body might answer otherwise, or report lack of memory that wasn't refused."""

    def test_many_states(self):
        """More than 10,000 words, and 100,000 states."""
        words = [b"%05d%010d" % (number, number) for number in range(10_500)]
        haystack = b"x" * MANY + words[-1]
        for kind, engine, (start, anchored) in itertools.product(KINDS, ENGINES, STARTS):
            with AhoCorasick(words, kind=kind, engine=engine, start=start) as searcher:
                found = searcher.find(haystack, start=MANY if anchored else 0, anchored=anchored)
                self.assertEqual((10_499, MANY, len(haystack)), found, (kind, engine, start))

    def test_many_matches(self):
        """More than a million matches, replaced too."""
        haystack = b"a" * MANY
        for kind, engine, (start, anchored) in itertools.product(KINDS, ENGINES, STARTS):
            with AhoCorasick([b"a"], kind=kind, engine=engine, start=start) as searcher:
                self.assertEqual(MANY, searcher.count(haystack, anchored=anchored), (kind, engine, start))
                if not anchored:
                    self.assertEqual(b"bc" * MANY, searcher.replace_all(haystack, [b"bc"]), (kind, engine, start))

    def test_many_items(self):
        """A listing of more than a million items."""
        for engine in ENGINES:
            with AhoCorasick([b"a", b"aa"], engine=engine) as searcher:
                items = searcher.find_overlapping_iter(b"a" * (MANY // 2))
                self.assertEqual(MANY - 1, sum(1 for _ in items), engine)

    def test_a_needle_after_a_burst(self):
        """A search no longer looks for a needle by itself for a while after a burst of it. The gap after the burst leaves the
        automaton at its start, or never does, or does at times."""
        for gap, kind, engine in itertools.product([b"x", b"a", b"xaax"], KINDS, ENGINES):
            haystack = b"aab" * 5_000 + gap * (MANY // 4) + b"aab"
            with AhoCorasick([b"aab"], kind=kind, engine=engine) as searcher:
                self.assertEqual(5_001, searcher.count(haystack), (gap, kind, engine))


if __name__ == "__main__":
    unittest.main()
