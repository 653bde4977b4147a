"""The lines of rows.txt, by each engine with each setting."""
import ctypes
import itertools
import pathlib
import re
import unittest

from ahocorasick_rattle import KINDS, AhoCorasick, _Facts, _library

ROWS = pathlib.Path(__file__).resolve().parent.parent / "rows.txt"
# The engines, and that one is chosen, with dense depths: the contiguous NFA with those up to 6, with one that a byte doesn't
# count, and the greatest.
SERVED = [*((None, depth) for depth in (0, 2, 2**64 - 1)),
          *(("contiguous-nfa", depth) for depth in (*range(7), 300, 2**64 - 1)),
          *((engine, depth) for engine in ("noncontiguous-nfa", "dfa") for depth in (0, 2**64 - 1))]
SEARCH = re.compile(r"(\w+)(\^?)(!?)(~?)(?:\[(\d+)-(\d+)])?")


def searchers(patterns, **more):
    """Gives searchers by each engine, with classes of bytes and without, and with a prefilter and without."""
    for (engine, depth), classes, prefilter in itertools.product(SERVED, (True, False), (True, False)):
        settings = dict(engine=engine, dense_depth=depth, byte_classes=classes, prefilter=prefilter, **more)
        with AhoCorasick(patterns, **settings) as searcher:
            yield searcher, settings


class Rows(unittest.TestCase):
    """Whichever engine serves, with whichever settings, the answers are the same."""

    def test_lines(self):
        for line in ROWS.read_text().splitlines():
            if not line.startswith("#"):
                searches, words, haystack, matches = line.split(" :")
                patterns = [word.strip('"').encode() for word in words.split()]
                wanted = [tuple(map(int, re.split("[:-]", match))) for match in matches.split()]
                for search in searches.split():
                    self.compare(SEARCH.fullmatch(search).groups(), patterns, haystack.strip(' "').encode(), wanted, line)

    def compare(self, search, patterns, haystack, wanted, line):
        name, anchored, earliest, ignore_case, start, end = search
        kind = dict(zip(("std", "first", "longest"), KINDS))[name]
        where = dict(start=int(start or 0), end=int(end or len(haystack)))
        how = dict(where, anchored=bool(anchored), earliest=bool(earliest))
        for starts in ("anchored" if anchored else "unanchored", "both"):
            for searcher, settings in searchers(patterns, kind=kind, start=starts, ignore_case=bool(ignore_case)):
                with self.subTest(line, **settings):
                    self.assertEqual(wanted, list(searcher.find_iter(haystack, **how)))
                    self.assertEqual(wanted[0] if wanted else None, searcher.find(haystack, **how))
                    self.assertEqual(bool(wanted), searcher.is_match(haystack, **where, anchored=bool(anchored)))

    def test_no_patterns(self):
        """They have no shortest one."""
        for kind in KINDS:
            for searcher, settings in searchers([], kind=kind):
                facts = _Facts(ctypes.sizeof(_Facts))
                searcher._call(_library.ac_describe, facts)
                self.assertEqual((2**64 - 1, 0, 0), (facts.shortest, facts.longest, len(searcher)), settings)

    def test_many_different_bytes(self):
        """As many as an engine distinguishes at most, and one fewer."""
        haystack = b"".join(bytes((ord("a"), byte)) for byte in range(0x80, 0x100))
        for count, kind in itertools.product((127, 128), KINDS):
            patterns = [haystack[at:at + 2] for at in range(0, 2 * count, 2)]
            for searcher, settings in searchers(patterns, kind=kind):
                wanted = [(number, 2 * number, 2 * number + 2) for number in range(count)]
                self.assertEqual(wanted, list(searcher.find_iter(haystack)), settings)


if __name__ == "__main__":
    unittest.main()
