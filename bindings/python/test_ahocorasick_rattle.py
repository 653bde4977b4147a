"""Tests of the module."""
import contextlib
import copy
import gc
import io
import itertools
import os
import pathlib
import pickle
import random
import signal
import subprocess
import sys
import tempfile
import threading
import time
import tracemalloc
import unittest
import unittest.mock
import warnings
import weakref

import ahocorasick_rattle
from ahocorasick_rattle import (BATCH, ENGINES, KINDS, PIECE, AhoCorasick, AnchoredError, ArgumentError, EmptyPatternError, Error,
                                LimitError, Match, OverlappingError, UnanchoredError)

CASES = pathlib.Path(__file__).resolve().parent.parent / "cases.txt"
FRUIT = "Nobody likes maple in their apple flavored Snapple."
SCARCE = """
import random, resource, ahocorasick_rattle
used = int(open("/proc/self/statm").read().split()[0]) * resource.getpagesize()
resource.setrlimit(resource.RLIMIT_AS, (used + 100_000_000,) * 2)
patterns = [random.Random(seed).randbytes(10_000) for seed in range(100)]
try:
    ahocorasick_rattle.AhoCorasick(patterns, engine="dfa")
except MemoryError:
    print("refused", ahocorasick_rattle.AhoCorasick(["a"]).count("aba"))
"""
SIGNALS = """
import signal, ahocorasick_rattle
searcher, haystack, counts = ahocorasick_rattle.AhoCorasick([b"ab", b"b"]), b"xxab" * 50_000, []

def search(*_):
    counts.append(searcher.count(haystack))
    signal.setitimer(signal.ITIMER_REAL, 0.001)

signal.signal(signal.SIGALRM, search)
search()
while len(counts) < 50:
    assert searcher.count(haystack) == 50_000
signal.setitimer(signal.ITIMER_REAL, 0)
print(set(counts))
"""


class Cases(unittest.TestCase):
    """The lines of cases.txt."""

    def test_answers(self):
        """Each engine has the answers of the file, in text and in bytes."""
        kinds = dict(zip(("std", "first", "longest", "all"), (*KINDS, "standard")))
        lines = [line for line in CASES.read_text().splitlines() if not line.startswith("#")]
        for line in lines:
            searches, words, haystack, matches = line.split(" :")
            patterns = [self.text(word) for word in words.split()]
            wanted = [tuple(map(int, match.replace("-", ":").split(":"))) for match in matches.split()]
            for search in searches.split():
                for engine in ENGINES:
                    settings = dict(kind=kinds[search.strip("^~")], ignore_case="~" in search, engine=engine,
                                    start="both" if "^" in search else "unanchored")
                    for form in (str, str.encode):
                        searcher = AhoCorasick([form(pattern) for pattern in patterns], **settings)
                        self.assertEqual(wanted, self.answer(search, searcher, form(self.text(haystack.strip()))), line)

    @staticmethod
    def text(quoted):
        return quoted.strip('"').replace("\\0", "\0").replace("\\1", "\1")

    @staticmethod
    def answer(search, searcher, haystack):
        if "^" in search:
            return [match for match in [searcher.find(haystack, anchored=True)] if match]
        return list(searcher.find_overlapping_iter(haystack) if "all" in search else searcher.find_iter(haystack))


class Searches(unittest.TestCase):
    """What the calls give and refuse."""

    def test_offsets_are_those_of_the_haystack(self):
        """In text they count characters."""
        text = "\u20acé apple \U0001f600apple"
        with AhoCorasick(["é", "apple", "\U0001f600"]) as searcher:
            found = [Match(0, 1, 2), Match(1, 3, 8), Match(2, 9, 10), Match(1, 10, 15)]
            self.assertEqual(found, list(searcher.find_iter(text)))
            self.assertEqual(found[2:], list(searcher.find_iter(text, 4)))
            self.assertEqual(found[1:3], list(searcher.find_overlapping_iter(text, 2, 14)))
            self.assertEqual(found[2], searcher.find(text, start=8))
            self.assertEqual((4, True, False), (searcher.count(text), searcher.is_match(text), searcher.is_match(text, 11)))
            self.assertEqual("\u20ac1 22 \U0001f60022", searcher.replace_all(text, ["1", "22", "\U0001f600"]))
        with AhoCorasick([b"\xe9", b"\0"]) as searcher:
            self.assertEqual([Match(1, 1, 2), Match(0, 2, 3)], list(searcher.find_iter(b"a\0\xe9")))
            self.assertEqual(b"a--+", searcher.replace_all(b"a\0\xe9", [b"+", b"--"]))

    def test_empty_patterns_stand_between_characters(self):
        """They are left out inside one."""
        with AhoCorasick(["", "é"], kind="leftmost-longest") as searcher:
            self.assertEqual([(0, 0, 0), (1, 1, 2), (0, 3, 3)], list(searcher.find_iter("aé\u20ac")))
            self.assertEqual((3, "-a+\u20ac-"), (searcher.count("aé\u20ac"), searcher.replace_all("aé\u20ac", "-+")))
        with AhoCorasick([""]) as searcher:
            self.assertEqual("-é-", searcher.replace_all("é", "-"))

    def test_lone_surrogates(self):
        """They are characters like others."""
        with AhoCorasick(["\udc80"]) as searcher:
            self.assertEqual([(0, 1, 2)], list(searcher.find_iter("é\udc80é")))
            self.assertEqual("é\ud800é", searcher.replace_all("é\udc80é", ["\ud800"]))

    def test_batches_join(self):
        """No match is lost or repeated between two of them."""
        for count in (0, 1, BATCH - 1, BATCH, BATCH + 1, 3 * BATCH):
            with AhoCorasick(["a"]) as searcher:
                self.assertEqual([(0, at, at + 1) for at in range(count)], list(searcher.find_iter("a" * count)))
        with AhoCorasick([b"a"] * (2 * BATCH + 1)) as searcher:
            found = [(number, at, at + 1) for at in range(2) for number in range(2 * BATCH + 1)]
            self.assertEqual(found, list(searcher.find_overlapping_iter(b"aa")))

    def test_replacements_of_all_sizes(self):
        """The answer may be shorter or longer than the haystack."""
        with AhoCorasick([b"a"]) as searcher:
            for length in (0, 1, 2, 5, 1000):
                self.assertEqual(b"x" * 100 * length, searcher.replace_all(b"a" * 100, [b"x" * length]))

    def test_what_a_searcher_is(self):
        """Its settings can be read."""
        with AhoCorasick(FRUIT.split(), kind="leftmost-first", start="both") as searcher:
            self.assertEqual((8, "contiguous-nfa", "leftmost-first", "both"),
                             (len(searcher), searcher.engine, searcher.kind, searcher.start))
            self.assertGreater(searcher.memory_usage, 0)
        with AhoCorasick([]) as searcher:
            self.assertEqual((None, False, 0), (searcher.find("a"), searcher.is_match(b"a"), len(searcher)))
            self.assertEqual("a", searcher.replace_all("a", []))

    def test_refusals(self):
        """Each has its exception, and a search is refused before its first match is asked for."""
        with AhoCorasick(["a"], kind="leftmost-first") as searcher:
            self.assertRaises(OverlappingError, searcher.find_overlapping_iter, "a")
            self.assertRaises(AnchoredError, searcher.find, "a", anchored=True)
            self.assertRaises(AnchoredError, searcher.find_iter, "a", anchored=True)
            for span in ((2, 2), (0, 2), (-1, 0), (1, 0)):
                self.assertRaises(ArgumentError, searcher.find_iter, "a", *span)
                self.assertRaises(ArgumentError, searcher.find_iter, "é", *span)
            self.assertRaises(ArgumentError, searcher.replace_all, "a", ["b", "c"])
            self.assertRaises(TypeError, searcher.find, b"a")
            self.assertRaises(TypeError, searcher.find, None)
            self.assertRaises(TypeError, searcher.replace_all, "a", [b"b"])
        with AhoCorasick(["a", ""], start="anchored") as searcher:
            self.assertRaises(UnanchoredError, searcher.count, "a")
            self.assertRaises(UnanchoredError, searcher.is_match, "a")
            self.assertRaises(UnanchoredError, searcher.replace_all, "a", ["b", "c"])
            self.assertRaises(ArgumentError, searcher.replace_all, "a", ["b"])
        for patterns in ("a", b"a", [b"a", "a"], [1], [bytearray(b"a")], [None]):
            self.assertRaises(TypeError, AhoCorasick, patterns)
        for setting in ("kind", "start", "engine"):
            self.assertRaises(ArgumentError, AhoCorasick, ["a"], **{setting: "other"})
        self.assertTrue(issubclass(Error, ValueError) and issubclass(LimitError, Error))
        self.assertRaises(LimitError, ahocorasick_rattle._raise_on, -3)

    def test_want_of_memory(self):
        """It is a MemoryError, after which all goes on."""
        folder = pathlib.Path(ahocorasick_rattle.__file__).parent
        ran = subprocess.run([sys.executable, "-c", SCARCE], cwd=folder, capture_output=True, text=True, timeout=60)
        self.assertEqual(("refused 2\n", ""), (ran.stdout, ran.stderr))


def watched(name, watch):
    """Replaces a call of the library by one that then gives its arguments to `watch`."""
    call = getattr(ahocorasick_rattle._library, name)

    def watching(*arguments):
        status = call(*arguments)
        watch(*arguments)
        return status

    return unittest.mock.patch.object(ahocorasick_rattle._library, name, watching)


class Feeds:
    """Notes which bytes each stream takes, while it is entered."""

    def __enter__(self):
        self.taken, self._exit = [], contextlib.ExitStack()
        self._exit.enter_context(watched("ac_stream_open", lambda *_: self.taken.append([])))
        self._exit.enter_context(watched("ac_stream_feed", self.note))
        return self

    def note(self, _, address, size, taken, *__):
        self.taken[-1].append((address, address + taken.value, address + size))

    def __exit__(self, *_):
        self._exit.close()


class Batches(unittest.TestCase):
    """What is found when it is more than one call gives. What one call gives, if it has room for all, is right."""

    LONG = "c" * 8 * BATCH  # longer than a batch comes, so that a stream finds the next one
    WORDS = [["a"], ["a", "ab"], ["ab", "b", "abab"], ["b", "aab", "a"], ["aaab", "a", "aa"], ["", "ab"], ["bb", "bab", "b", "b"]]

    @staticmethod
    def searches(searcher, haystack, *span):
        """Gives all that is found, by each search."""
        yield list(searcher.find_iter(haystack, *span))
        yield list(searcher.find_iter(haystack, *span, earliest=True))
        yield list(searcher.find_iter(haystack, *span, anchored=True))
        if searcher.kind == "standard":
            yield list(searcher.find_overlapping_iter(haystack, *span))

    def compare(self, searcher, haystack, *span):
        with unittest.mock.patch.object(ahocorasick_rattle, "BATCH", 5000):
            wanted = list(self.searches(searcher, haystack, *span))
        self.assertTrue(wanted == list(self.searches(searcher, haystack, *span)), (searcher.kind, haystack[:20], span))
        return wanted

    def test_small_ones(self):
        """With room for few matches, short texts have what they have with room for many."""
        letters = (b"ab", "ab", "\u0436\u0437", "\U0001f600b", "\ud83d\ude00", "a\ud800")
        for words, kind, engine, form in itertools.product(self.WORDS, KINDS, ENGINES[:3], letters):
            texts = [self.written(word, form) for word in ("", "ab", "aaaa", "aabab", "abaaab", "bbabbaab", "aaabaaaba")]
            with AhoCorasick([self.written(word, form) for word in words], kind=kind, engine=engine, start="both") as searcher:
                for text, room in itertools.product(texts, (1, 2, 3)):
                    with unittest.mock.patch.object(ahocorasick_rattle, "BATCH", room):
                        self.compare(searcher, text)
                        self.compare(searcher, text, len(text) // 3, len(text) - len(text) // 4)

    @staticmethod
    def written(word, letters):
        """Writes a word over a and b in other letters."""
        return letters[:0].join(letters["ab".index(letter):][:1] for letter in word)

    def test_sizes_at_the_edge(self):
        """The last match may fill a batch, or be settled by the end of the span alone."""
        for kind, letters in itertools.product(KINDS, (b"ab", "ab", "\u0436\u0437", "\U0001f600\ud83d")):
            a, b = letters[:1], letters[1:]
            for patterns, long in itertools.product(([a], [a, a + b], [a + a + b, a]), ([], [b * len(self.LONG)])):
                with AhoCorasick(patterns + long, kind=kind, start="both") as searcher:
                    for count in (BATCH, BATCH + 1, 2 * BATCH):
                        self.assertEqual(count, len(self.compare(searcher, a * count)[0]))
                    self.assertEqual(count, len(self.compare(searcher, b + b + a * count + b + a, 2, count + 2)[0]))
                    self.compare(searcher, b + (a + b) * BATCH, 3)

    def test_no_byte_is_read_twice(self):
        """A stream goes over the span once. No other search uses one, nor one that has few matches, though a pattern is long."""
        for form, count in itertools.product((str, str.encode), (BATCH - 1, BATCH, 3 * BATCH)):
            haystack = form("b" * 7 + "ab" * count + "c" * 9)
            for kind in KINDS:
                patterns = [form("a"), form("abb"), form(self.LONG)]
                with AhoCorasick(patterns, kind=kind, start="both") as searcher, Feeds() as feeds:
                    for options in ({"earliest": True}, {"anchored": True}, {"end": 6 + 2 * (BATCH - 1)}):
                        list(searcher.find_iter(haystack, **{"start": 7, **options}))
                    self.assertEqual([], feeds.taken)
                    self.assertEqual(count, sum(1 for _ in searcher.find_iter(haystack, 7, len(haystack) - 2)))
                    self.check_feeds(feeds, 2 * count + 7 if kind != "standard" and count >= BATCH else 0)
                    if kind == "standard":
                        self.assertEqual(count, sum(1 for _ in searcher.find_overlapping_iter(haystack, 7, len(haystack) - 2)))
                        self.check_feeds(feeds, 2 * count + 7 if count >= BATCH else 0)

    def test_batches_that_come_far(self):
        """Where a batch comes as far as the longest pattern is long, the cursor finds the next one, up to one that doesn't."""
        far, near = ("b" * 7 + "a") * 3 * BATCH, "a" * 3 * BATCH
        for kind, near, feeds_len in itertools.product(KINDS, ("", near), (0, 1)):
            with AhoCorasick(["a", self.LONG + "c" * feeds_len], kind=kind) as searcher, Feeds() as feeds:
                self.assertEqual(3 * BATCH + len(near), sum(1 for _ in searcher.find_iter(far + near)))
                self.assertEqual(int(kind != "standard" and bool(near or feeds_len)), len(feeds.taken))

    def check_feeds(self, feeds, size):
        """At most one stream has taken so many bytes, one after another."""
        self.assertEqual(1 if size else 0, len(feeds.taken))
        for taken in feeds.taken:
            self.check_order(taken)
            self.assertEqual([size], list({last - taken[0][0] for _, _, last in taken}))
            self.assertEqual(size, taken[-1][1] - taken[0][0])

    def check_order(self, taken):
        """Each feed begins where the one before it took no more."""
        self.assertEqual([end for _, end, _ in taken[:-1]], [start for start, _, _ in taken[1:]])

    def test_each_has_its_time(self):
        """No batch is looked for before it is needed."""
        with AhoCorasick(["a", self.LONG], kind="leftmost-first") as searcher, Feeds() as feeds:
            matches = searcher.find_iter("a" * 5 * BATCH)
            for count, feds in ((0, []), (BATCH, []), (1, [2]), (BATCH - 1, [2]), (1, [3])):
                self.assertEqual(count, sum(1 for _ in itertools.islice(matches, count)))
                self.assertEqual(feds, [len(taken) for taken in feeds.taken])
            self.check_order(feeds.taken[0])

    def test_each_stream_is_closed(self):
        """Its memory goes with its iterator, also with one that wasn't used up, and no other call frees it."""
        events = []
        opening, closing = (watched(f"ac_stream_{name}", lambda *_, name=name: events.append(name)) for name in ("open", "close"))
        with opening, closing:
            with AhoCorasick(["a", self.LONG], kind="leftmost-first") as searcher:
                for given in (BATCH + 1, 3 * BATCH, 5 * BATCH):
                    self.assertEqual(min(given, 3 * BATCH),
                                     sum(1 for _ in itertools.islice(searcher.find_iter("a" * 3 * BATCH), given)))
                    self.assertEqual(["open", "close"], events)
                    events.clear()

    def test_want_of_memory(self):
        """There may be none for a stream, and the searcher goes on."""
        with AhoCorasick(["a", self.LONG], kind="leftmost-first") as searcher:
            matches, refused = searcher.find_iter("a" * 2 * BATCH), lambda *_: ahocorasick_rattle.MEMORY
            with unittest.mock.patch.object(ahocorasick_rattle._library, "ac_stream_open", refused):
                self.assertEqual(BATCH, sum(1 for _ in itertools.islice(matches, BATCH)))
                self.assertRaises(MemoryError, next, matches)
                self.assertRaises(MemoryError, searcher.stream_find_iter, io.StringIO())
            self.assertEqual(2 * BATCH, sum(1 for _ in searcher.find_iter("a" * 2 * BATCH)))


class Pieces:
    """A file that gives these pieces, one with each read, and raises those that are exceptions."""

    def __init__(self, *pieces):
        self.pieces, self.sizes = list(pieces), []

    def read(self, size):
        self.sizes.append(size)
        piece = self.pieces.pop(0)
        if isinstance(piece, BaseException):
            raise piece
        return piece


class Into:
    """The same by readinto, of bytes."""

    def __init__(self, *pieces):
        self.pieces, self.sizes = Pieces(*pieces), []

    def readinto(self, room):
        piece = self.pieces.read(len(room))
        if not isinstance(piece, bytes):
            return piece
        room[:len(piece)] = piece
        return len(piece)


def cuts(text):
    """Gives all ways to cut a text into pieces, each with the empty piece of its end."""
    for ends in itertools.product((False, True), repeat=max(0, len(text) - 1)):
        at = [0, *(number for number, is_end in enumerate(ends, 1) if is_end), len(text)]
        yield [text[start:end] for start, end in zip(at, at[1:]) if start < end] + [text[:0]]


class Files(unittest.TestCase):
    """What is found in files."""

    WORDS = [["ab"], ["a", "ab", "abb"], ["b", "abab"], ["aaab", "a", "aa", "a"], ["bab", "abb", "ba"], []]

    def compare(self, searcher, text, *files):
        """Each of the files, which has this text, has the matches of the text."""
        searches = [(searcher.find_iter, searcher.stream_find_iter)]
        if searcher.kind == "standard":
            searches.append((searcher.find_overlapping_iter, searcher.stream_find_overlapping_iter))
        for search, stream in searches:
            wanted = list(search(text))
            for file in files:
                self.assertTrue(wanted == list(stream(file())), (searcher.kind, text[:40]))

    @staticmethod
    def opened(stack, *arguments, **settings):
        """Returns a call that opens a file, which the stack closes."""
        return lambda: stack.enter_context(open(*arguments, **settings))

    def test_all_cuts(self):
        """However a short text is cut, it has the matches of the whole."""
        forms = (b"ab", "ab", "\u0436a", "\ud83d\ude00")
        for words, kind, engine, letters in itertools.product(self.WORDS, KINDS, ENGINES, forms):
            written = lambda word: Batches.written(word, letters)
            with AhoCorasick(map(written, words), kind=kind, engine=engine) as searcher:
                for text in map(written, ("", "b", "abab", "aabb", "babab", "aaabab")):
                    for pieces in cuts(text):
                        files = [lambda: Pieces(*pieces), lambda: Into(*pieces)]
                        self.compare(searcher, text, *files[:2 if isinstance(text, bytes) and words else 1])

    def test_small_batches(self):
        """Room for few matches changes nothing."""
        for room, kind, letters, words in itertools.product((1, 2, 3), KINDS, (b"ab", "\U0001f600a"), self.WORDS):
            written = lambda word: Batches.written(word, letters)
            with AhoCorasick(map(written, words), kind=kind) as searcher:
                for text in map(written, ("abab", "aabb", "babab", "aaabaa")):
                    with unittest.mock.patch.object(ahocorasick_rattle, "BATCH", room):
                        self.compare(searcher, text, *[lambda pieces=pieces: Pieces(*pieces) for pieces in cuts(text)])

    def test_characters_far_back(self):
        """Only text that follows, as much as the longest pattern has, may settle a match."""
        letters = ("b", "\u0436", "\u20ac", "\U0001f600", "\udc80")
        for letter, end, kind in itertools.product(letters, ("", "z", "a", "\u0436"), KINDS):
            for last in ("c", "\u0441"):
                words, text = ["a" + letter * 40 + last, "a"], letter * 3 + ("a" + letter * 40 + end) * 3 + "a"
                for size in (1, 7, 200):
                    pieces = [text[at:at + size] for at in range(0, len(text), size)] + [""]
                    with AhoCorasick(words, kind=kind) as searcher:
                        self.compare(searcher, text, lambda: Pieces(*pieces))

    def test_characters_of_all_bytes(self):
        """Each counts as one, whichever bytes it has."""
        text = "".join(map(chr, [*range(0x80, 0x1100), 0xD800, 0xDFFF, 0xFFFF, 0x10000, 0x3FFFF, 0x40000, 0x10FFFF]))
        for size in (1, 64, len(text)):
            pieces = [text[at:at + size] for at in range(0, len(text), size)] + ["a", ""]
            with AhoCorasick(["a", text[-1]]) as searcher:
                self.compare(searcher, text + "a", lambda: Pieces(*pieces))

    def test_files_of_the_library(self):
        """In memory, open ones with a buffer and without, at their beginning and not, in text with other ends of lines."""
        text = "".join(f"{number} \u0436 apple\r\n" for number in range(6_000))
        with tempfile.TemporaryDirectory() as folder, contextlib.ExitStack() as stack:
            path = pathlib.Path(folder) / "file"
            path.write_bytes(text.encode())
            raw, random = self.opened(stack, path, "rb", 0), self.opened(stack, path, "r+b")
            as_it_is = self.opened(stack, path, newline="", encoding="utf-8")
            translated = self.opened(stack, path, encoding="utf-8")
            for kind in KINDS:
                with AhoCorasick([b"apple", b"9", b"99 \xd0", b"\r\n1"], kind=kind) as searcher, open(path, "rb") as file:
                    self.compare(searcher, text.encode(), lambda: io.BytesIO(text.encode()), raw, random)
                    file.seek(3)
                    self.assertEqual(list(searcher.find_iter(text.encode()[3:])), list(searcher.stream_find_iter(file)))
                    self.assertFalse(file.closed)
                with AhoCorasick(["apple", "9", "99 \u0436", "\n1", "\r\n2"], kind=kind) as searcher:
                    self.compare(searcher, text, lambda: io.StringIO(text, newline=""), as_it_is)
                    self.compare(searcher, text.replace("\r\n", "\n"), translated)

    def test_a_pipe(self):
        """Its matches come when they are there. To be empty is an error for one that doesn't block; then it can be read again."""
        reading, writing = os.pipe()
        with open(reading, "rb") as file, AhoCorasick([b"ab", b"b"]) as searcher:
            matches, late = searcher.stream_find_iter(file), threading.Timer(10, os.close, [writing])
            late.start()
            os.write(writing, b"xab")
            self.assertEqual(Match(0, 1, 3), next(matches))
            self.assertTrue(late.is_alive())
            late.cancel()
            late.join()
            os.set_blocking(reading, False)
            for raw in (file, file.raw):
                matches = searcher.stream_find_iter(raw)
                self.assertRaises(BlockingIOError, next, matches)
                os.write(writing, b"xa")
                self.assertRaises(BlockingIOError, next, matches)
                os.write(writing, b"bb")
                self.assertEqual([Match(0, 1, 3), Match(1, 3, 4)], [next(matches), next(matches)])
                self.assertRaises(BlockingIOError, next, matches)
            os.close(writing)
            self.assertEqual([], list(matches))

    def test_when_they_are_read(self):
        """Each match is given before more is read than settles it, and nothing is read after the end."""
        for kind, reads in (("standard", [1, 2, 3]), ("leftmost-longest", [2, 3, 4])):
            file = Pieces(b"xa", b"ba", b"bab", b"bx", b"")
            with AhoCorasick([b"a", b"abb"], kind=kind) as searcher:
                matches, counts = searcher.stream_find_iter(file), []
                self.assertEqual([], file.sizes)
                for _ in matches:
                    counts.append(len(file.sizes))
                self.assertEqual(reads, counts)
                self.assertRaises(StopIteration, next, matches)
                self.assertEqual([PIECE] * 5, file.sizes)
        file = Pieces("xa", "")
        self.assertEqual([(0, 1, 2)], list(AhoCorasick(["a"]).stream_find_iter(file)))
        self.assertEqual([PIECE // 4] * 2, file.sizes)

    def test_batches_join(self):
        """All that is settled comes before the next read, which fails, also where a byte ends more matches than a call gives."""
        for count in (BATCH - 1, BATCH, BATCH + 1, 2 * BATCH, 2 * BATCH + 1):
            for form, kind in itertools.product((str, str.encode), KINDS):
                searcher, piece = AhoCorasick([form("a"), form("abb")], kind=kind), form("a" * count + "c")
                matches = searcher.stream_find_iter(Pieces(piece, OSError("other"), piece, form("")))
                self.assertEqual([(0, at, at + 1) for at in range(count)], list(itertools.islice(matches, count)))
                self.assertRaisesRegex(OSError, "other", next, matches)
                self.assertEqual([(0, at, at + 1) for at in range(count + 1, 2 * count + 1)], list(matches))
            for form in (str, str.encode):
                matches = AhoCorasick([form("a")] * count).stream_find_overlapping_iter(Pieces(form("aa"), OSError("other")))
                self.assertEqual([(number, at, at + 1) for at in range(2) for number in range(count)],
                                 list(itertools.islice(matches, 2 * count)))
                self.assertRaisesRegex(OSError, "other", next, matches)

    def test_failures(self):
        """What a file raises passes through, after what is settled, and what it then gives is searched."""
        for raised, file in itertools.product((OSError, BlockingIOError, KeyboardInterrupt), (Pieces, Into)):
            for failure in [raised()] + [None] * (raised is BlockingIOError):
                with AhoCorasick([b"ab", b"b", b"c"], kind="leftmost-first") as searcher:
                    matches = searcher.stream_find_iter(file(b"bxa", failure, failure, b"bcx", failure, b""))
                    self.assertEqual(Match(1, 0, 1), next(matches))
                    self.assertRaises(raised, next, matches)
                    self.assertRaises(raised, next, matches)
                    self.assertEqual([Match(0, 2, 4), Match(2, 4, 5)], [next(matches), next(matches)])
                    self.assertRaises(raised, next, matches)
                    self.assertEqual([], list(matches))

    def test_wrong_files(self):
        """What is no file is refused at once, and what a file gives if it can't be searched."""
        for pattern, wrong in (("a", (b"a", b"", 1, bytearray(b"a"))), (b"a", ("a", "", 1, [b"a"]))):
            searcher = AhoCorasick([pattern])
            for no_file in ("a", b"a", 1, None, ["a"]):
                self.assertRaises(TypeError, searcher.stream_find_iter, no_file)
            for piece in wrong:
                matches = searcher.stream_find_iter(Pieces(piece))
                self.assertRaises(TypeError, next, matches)
                self.assertRaises(StopIteration, next, matches)
        for count in (-1, PIECE + 1, 1 << 64):
            self.assertRaisesRegex(OSError, str(count), next, AhoCorasick([b"a"]).stream_find_iter(Into(count)))
        self.assertRaises(TypeError, AhoCorasick(["a"]).stream_find_iter, Into(b""))
        for form in (str, str.encode):
            self.assertEqual([], list(AhoCorasick([]).stream_find_iter(Pieces(form("a"), form("")))))
            whole = form("ba" * PIECE)
            self.compare(AhoCorasick([form("a")]), whole, lambda: Pieces(whole, form("")))

    def test_refusals(self):
        """They come before anything is read."""
        for settings, refused in ((dict(start="anchored"), UnanchoredError), (dict(start="both"), EmptyPatternError)):
            with AhoCorasick(["a", ""], **settings) as searcher:
                self.assertRaises(refused, searcher.stream_find_iter, Pieces())
                self.assertRaises(refused, searcher.stream_find_overlapping_iter, Pieces())
        for kind in KINDS[1:]:
            with AhoCorasick(["a"], kind=kind) as searcher:
                self.assertRaises(OverlappingError, searcher.stream_find_overlapping_iter, Pieces())
        self.assertRaisesRegex(ArgumentError, "closed", searcher.stream_find_iter, Pieces())

    def test_no_byte_is_fed_twice(self):
        """All that a file gives is fed, once."""
        for kind, form in itertools.product(KINDS, (str, str.encode)):
            pieces = [form("\u0436ab" * count) for count in (1, BATCH, 3 * BATCH, 2)]
            with AhoCorasick([form("a"), form("abb")], kind=kind) as searcher, Feeds() as feeds:
                found = sum(1 for _ in searcher.stream_find_iter(Pieces(*pieces, form(""))))
            self.assertEqual(4 * BATCH + 3, found)
            self.assertEqual(4 * found, sum(end - start for start, end, _ in feeds.taken[0]))
            self.assertEqual(1, len(feeds.taken))

    def test_memory_is_bounded(self):
        """A long file isn't kept, whether it has matches or not."""
        for piece, kind in itertools.product((b"ab" * 30_000, "ab" * 8_000, "\u0436a" * 8_000), KINDS):
            for word, end, found in (("c", "", 0), ("c", "c", 100)):
                form = type(piece) if isinstance(piece, str) else str.encode
                pieces = itertools.chain([piece + form(end)] * 100, [piece[:0]])
                file = unittest.mock.Mock(spec=["read"], read=lambda size: next(pieces))
                with AhoCorasick([form(word)], kind=kind) as searcher:
                    tracemalloc.start()
                    self.assertEqual(found, sum(1 for _ in searcher.stream_find_iter(file)))
                    self.assertLess(tracemalloc.get_traced_memory()[1], 1_000_000)
                    tracemalloc.stop()

    def test_lives(self):
        """An iterator keeps its searcher. A closed one refuses what would be searched next. With the iterator its memory goes."""
        for failure in ([], [OSError()]):
            searcher = AhoCorasick(["a"])
            matches, memory = searcher.stream_find_iter(Pieces("aa", *failure, "a", "")), weakref.ref(searcher._open)
            stream = weakref.ref(matches._stream)
            del searcher
            self.assertEqual((Match(0, 0, 1), Match(0, 1, 2)), (next(matches), next(matches)))
            if failure:
                self.assertRaises(OSError, next, matches)
            self.assertEqual(Match(0, 2, 3), next(matches))
            self.assertIsNotNone(memory())
            del matches
            self.assertEqual((None, None), (memory(), stream()))
        searcher = AhoCorasick(["a"])
        file = Pieces("aa", "a", "")
        matches, ended = searcher.stream_find_iter(file), searcher.stream_find_iter(Pieces(""))
        self.assertEqual(([], Match(0, 0, 1)), (list(ended), next(matches)))
        searcher.close()
        self.assertEqual(([], Match(0, 1, 2)), (list(ended), next(matches)))
        self.assertRaisesRegex(ArgumentError, "closed", next, matches)
        self.assertEqual(["a", ""], file.pieces)
        for copied in (copy.copy, copy.deepcopy, pickle.dumps):
            self.assertRaisesRegex(TypeError, "iterator", copied, matches)

    def test_one_thread_at_a_time(self):
        """Another one, and the file itself, can't get a match meanwhile; they can afterwards."""
        entered, go_on, found, file = threading.Event(), threading.Event(), [], Pieces(b"aa", b"")
        slow = unittest.mock.Mock(spec=["read"], read=lambda size: entered.set() or go_on.wait(10) and file.read(size))
        matches = AhoCorasick([b"a"]).stream_find_iter(slow)
        thread = threading.Thread(target=lambda: found.append(next(matches)))
        thread.start()
        entered.wait(30)
        self.assertRaisesRegex(ValueError, "running", next, matches)
        go_on.set()
        thread.join()
        self.assertEqual(([Match(0, 0, 1)], [Match(0, 1, 2)]), (found, list(matches)))
        matches = AhoCorasick([b"a"]).stream_find_iter(unittest.mock.Mock(spec=["read"], read=lambda size: next(matches)))
        self.assertRaisesRegex(ValueError, "running", next, matches)


class Target:
    """A file of bytes or of str. It takes at most `room` bytes with each write, and raises the failure once it would have more
    than `most`. It returns what `says` makes of a count."""

    def __init__(self, form, room=None, most=sys.maxsize, failure=None, says=lambda count: count):
        self.taken, self.sizes, self._room, self._most, self._failure, self._says = form(), [], room, most, failure, says

    def write(self, piece):
        if type(piece) is not type(self.taken) or not piece:
            raise AssertionError(f"{piece!r} is written")
        whole = self.taken + piece[:self._room]
        self.sizes.append(len(whole) - len(self.taken))
        self.taken = whole[:self._most]
        if len(whole) > self._most:
            raise self._failure
        return self._says(self.sizes[-1])


class RawTarget(Target, io.RawIOBase):
    """The same, which has no buffer."""


class Replacements(unittest.TestCase):
    """What is written where matches are replaced in files."""

    def compare(self, searcher, text, replacements, *files):
        """What is written for each of the files, which has this text, is what replaces it."""
        wanted = searcher.replace_all(text, replacements)
        for file in files:
            target = Target(type(text))
            self.assertIsNone(searcher.stream_replace_all(file(), target, replacements))
            self.assertTrue(wanted == target.taken, (searcher.kind, text[:40], replacements[:9]))

    @staticmethod
    def cut(text, size):
        """Returns a call that opens a file of a text, in pieces of a size."""
        return lambda: Pieces(*[text[at:at + size] for at in range(0, len(text), size)], text[:0])

    @staticmethod
    def handles():
        """Returns a list to which each replacer is added that is opened meanwhile, and what to enter for that."""
        opened = []
        return opened, watched("ac_replacer_open", lambda *arguments: opened.append(arguments[-1]))

    def test_all_cuts(self):
        """However a short text is cut, and however little room a part has, it is replaced as the whole."""
        numbers, forms = random.Random(1), (b"ab", "ab", "\u0436a", "\U0001f600\u20ac", "\ud83d\ude00")
        for words, kind, letters in itertools.product(Files.WORDS, KINDS, forms):
            written = lambda word: Batches.written(word, letters)
            with AhoCorasick(map(written, words), kind=kind) as searcher:
                for text in map(written, ("", "b", "abab", "aabb", "babab", "aaabab")):
                    replacements = [written("".join(numbers.choices("ab", k=numbers.randint(0, 3)))) for _ in words]
                    for pieces, room in itertools.product(cuts(text), (1, 2, 5, PIECE)):
                        files = [lambda: Pieces(*pieces), lambda: Into(*pieces)]
                        with unittest.mock.patch.object(ahocorasick_rattle, "PIECE", room):
                            into = isinstance(text, bytes) and words and room == PIECE
                            self.compare(searcher, text, replacements, *files[:2 if into else 1])

    def test_random_texts(self):
        """Long ones, in random pieces, by each engine with each kind."""
        numbers = random.Random(2)
        forms = (b"ab", b"abAB", "abA", "a\u00e9\u20ac\U0001f600")
        for letters, kind, engine, _ in itertools.product(forms, KINDS, ENGINES, range(4)):
            word = lambda least, most: letters[:0].join(
                letters[at:at + 1] for at in numbers.choices(range(len(letters)), k=numbers.randint(least, most)))
            patterns = [word(1, 5) for _ in range(numbers.randint(0, 6))]
            replacements, text = [word(0, 40) for _ in patterns], word(0, 5000)
            with AhoCorasick(patterns, kind=kind, engine=engine, ignore_case=numbers.random() < 0.5) as searcher:
                for most, room in ((4, PIECE), (900, 100), (5000, PIECE)):
                    ends = [0, *sorted(numbers.sample(range(len(text) + 1), min(len(text), len(text) // most))), len(text)]
                    pieces = [text[start:end] for start, end in zip(ends, ends[1:]) if start < end]
                    with unittest.mock.patch.object(ahocorasick_rattle, "PIECE", room):
                        self.compare(searcher, text, replacements, lambda: Pieces(*pieces, text[:0]))

    def test_parts_at_the_edge(self):
        """A result may fill the last part or not, and a part may end inside a character."""
        for count in (PIECE - 1, PIECE, PIECE + 1, 2 * PIECE, 3 * PIECE + 5):
            with AhoCorasick([b"c", b"de"]) as searcher:
                self.compare(searcher, b"ab" * count, [b"", b""], self.cut(b"ab" * count, PIECE))
                self.compare(searcher, b"xc", [b"d" * (count - 1), b""], self.cut(b"xc", 2))
        for front, letter in itertools.product(range(4), ("\u0436", "\u20ac", "\U0001f600", "\udc80")):
            text = "x" * front + letter * PIECE + "c"
            with AhoCorasick(["c"], kind="leftmost-first") as searcher:
                self.compare(searcher, text, [letter * PIECE], self.cut(text, PIECE // 4), self.cut(text, 77))

    def test_long_patterns(self):
        """Longer than a part, and met in full or almost, in bytes and in characters."""
        for letters, kind in itertools.product((b"abc", "\u0436bc"), KINDS):
            a, b, c = letters[:1], letters[1:2], letters[2:]
            long = (a + b) * (PIECE // 2 + 50) + c
            text = (long[:-1] + b + long[5:] + c + long) * 3 + long[:-2]
            with AhoCorasick([long, c + c, b + c], kind=kind) as searcher:
                for size in (1000, PIECE, len(text)):
                    self.compare(searcher, text, [b + b, a, c], self.cut(text, size))

    def test_files_of_the_library(self):
        """In memory, open ones with a buffer and without, from where they are, in text with other ends of lines."""
        text = "".join(f"{number} \u0436 apple \U0001f600\r\n" for number in range(6_000))
        with tempfile.TemporaryDirectory() as folder:
            paths = [pathlib.Path(folder) / name for name in ("source", "target")]
            paths[0].write_bytes(text.encode())
            for kind, (reading, writing) in itertools.product(KINDS, ((0, -1), (-1, 0), (-1, -1))):
                with AhoCorasick([b"apple", b"9", b"99 \xd0", b"\r\n1"], kind=kind) as searcher:
                    with open(paths[0], "rb", reading) as source, open(paths[1], "wb", writing) as target:
                        source.seek(3)
                        target.write(b"front")
                        searcher.stream_replace_all(source, target, [b"pear", b"", b"1\0", b"\xff" * 99])
                        self.assertFalse(source.closed or target.closed)
                    self.assertEqual(b"front" + searcher.replace_all(text.encode()[3:], [b"pear", b"", b"1\0", b"\xff" * 99]),
                                     paths[1].read_bytes())
                replacements = ["pear", "", "\u20ac", "\n", "\U0001f34e\u0436"]
                with AhoCorasick(["apple", "9", "99 \u0436", "\n1", "\U0001f600"], kind=kind) as searcher:
                    for newline, read in ((None, text.replace("\r\n", "\n")), ("", text)):
                        with open(paths[0], newline=newline, encoding="utf-8") as source:
                            with open(paths[1], "w", newline="", encoding="utf-16") as target:
                                searcher.stream_replace_all(source, target, replacements)
                        self.assertEqual(searcher.replace_all(read, replacements), paths[1].read_bytes().decode("utf-16"))
                        target = io.StringIO(newline="")
                        searcher.stream_replace_all(io.StringIO(read, newline=""), target, replacements)
                        self.assertEqual(searcher.replace_all(read, replacements), target.getvalue())

    def test_targets_that_take_few_bytes(self):
        """They are given the rest, as often as it takes. A text is written at once, whatever is returned."""
        wanted = b"x<" + b"-" * 30 + b">yx"
        for room, target in itertools.product((1, 2, 7, 32, None), (Target, RawTarget)):
            target = target(bytes, room)
            AhoCorasick([b"ab"]).stream_replace_all(Pieces(b"xa", b"byx", b""), target, [b"<" + b"-" * 30 + b">"])
            self.assertEqual(wanted, target.taken)
            self.assertLessEqual(len(target.sizes), 4 if room is None else -(-len(wanted) // room) + 3)
        for says in (lambda count: None, lambda count: count):
            target = Target(bytes, says=says)
            AhoCorasick([b"a"]).stream_replace_all(Pieces(b"xa", b"a", b""), target, [b"bc"])
            self.assertEqual(b"xbcbc", target.taken)
        for said in (None, 0, 1, 99):
            target = Target(str, says=lambda count: said)
            AhoCorasick(["a"]).stream_replace_all(Pieces("xa", "a", ""), target, ["\u0436c"])
            self.assertEqual("x\u0436c\u0436c", target.taken)
        for said in (0, -1, 4, 1 << 64):
            source = Pieces(b"xa", b"a", b"")
            self.assertRaisesRegex(OSError, str(said), AhoCorasick([b"a"]).stream_replace_all, source,
                                   Target(bytes, says=lambda count: said), [b"bc"])
            self.assertEqual([b"a", b""], source.pieces)

    def test_a_pipe(self):
        """One that doesn't block is an error where it is empty, or full: what it has then is the beginning of the result."""
        searcher, replacements, text = AhoCorasick([b"ab", b"b"]), [b"<-->", b""], b"xab" * 4 * PIECE
        reading, writing = os.pipe()
        os.set_blocking(reading, False)
        os.set_blocking(writing, False)
        with open(reading, "rb") as source, open(writing, "wb", 0) as full:
            for raw in (source, source.raw):
                target = Target(bytes)
                full.write(b"abxa")
                self.assertRaises(BlockingIOError, searcher.stream_replace_all, raw, target, replacements)
                self.assertEqual(b"<-->", target.taken[:4])
            self.assertRaises(BlockingIOError, searcher.stream_replace_all, io.BytesIO(text), full, replacements)
            written = source.read()
            self.assertGreater(len(written), 1000)
            self.assertTrue(searcher.replace_all(text, replacements).startswith(written))

    def test_when_it_is_written(self):
        """All that is settled is written before more is read."""
        for form, size in ((str, PIECE // 4), (str.encode, PIECE)):
            pieces, had, target = Pieces(*map(form, ("xxx", "xxxxabc", "d", "abcdxy", "a", "b", ""))), [], Target(type(form("")))
            source = unittest.mock.Mock(spec=["read"], read=lambda size: had.append(len(target.taken)) or pieces.read(size))
            AhoCorasick([form("abcd")]).stream_replace_all(source, target, [form("--")])
            self.assertTrue(all(map(int.__ge__, had, [0, 0, 6, 9, 11, 11, 11])), had)
            self.assertEqual((form("xxxxxxx----xyab"), [size] * 7), (target.taken, pieces.sizes))
        for kind, letter in itertools.product(KINDS, ("\u0436", "\u20ac", "\U0001f600")):
            source, target = Pieces(letter * 3, "a" + letter, OSError()), Target(str)
            with AhoCorasick(["a", letter * 4], kind=kind) as searcher:
                self.assertRaises(OSError, searcher.stream_replace_all, source, target, [letter, ""])
            self.assertEqual(letter * 4, target.taken)

    def test_failures(self):
        """What a file raises passes through after what is settled, or was taken. The replacer is closed at once."""
        for raised, kind, form in itertools.product((OSError, BlockingIOError, KeyboardInterrupt), KINDS, (str, str.encode)):
            opened, watching = self.handles()
            texts, text = [form("<\u0436>"), form(""), form("[[[")], form("xabyaabab")
            with watching, AhoCorasick([form("a"), form("ab"), form("b")], kind=kind) as searcher:
                whole = searcher.replace_all(text, texts)
                for at in range(len(text) + 1):
                    target, failure = Target(type(text)), raised("other")
                    source = Pieces(*[text[i:i + 2] for i in range(0, at, 2)], failure, text)
                    with self.assertRaises(raised) as caught:
                        searcher.stream_replace_all(source, target, texts)
                    self.assertIs(failure, caught.exception)
                    self.assertEqual([text], source.pieces)
                    self.assertTrue(whole.startswith(target.taken))
                    self.assertGreaterEqual(len(target.taken), at - 4)
                for most in range(len(whole)):
                    failure = raised("other")
                    target = Target(type(text), None if form is str else 2, most, failure)
                    with self.assertRaises(raised) as caught:
                        searcher.stream_replace_all(self.cut(text, 2)(), target, texts)
                    self.assertIs(failure, caught.exception)
                    self.assertEqual(whole[:most], target.taken)
                self.assertEqual(len(text) + 1 + len(whole), len(opened))
                self.assertEqual({None}, {handle.at for handle in opened})

    def test_failures_inside_a_character(self):
        """Whole characters were written, and no other replacement has the rest."""
        for kind, letter in itertools.product(KINDS, ("\u20ac", "\U0001f600")):
            with AhoCorasick(["ab"], kind=kind) as searcher:
                for _ in range(2):
                    target = Target(str)
                    self.assertRaises(OSError, searcher.stream_replace_all, Pieces("x" + letter, OSError()), target, ["y"])
                    self.assertEqual("x", target.taken)
                self.compare(searcher, "zab", ["y"], self.cut("zab", 1))

    def test_wrong_files(self):
        """What is no file is refused before anything is read, and what a file gives if it can't be searched."""
        for pattern, wrong in (("a", (b"a", b"", 1, bytearray(b"a"), [])), (b"a", ("a", "", 1, [b"a"], []))):
            searcher, target = AhoCorasick([pattern]), Target(type(pattern))
            for no_file in ("a", b"a", 1, None, ["a"]):
                self.assertRaises(TypeError, searcher.stream_replace_all, no_file, target, [pattern])
                self.assertRaises(TypeError, searcher.stream_replace_all, Pieces(), no_file, [pattern])
            for piece in wrong:
                target = Target(type(pattern))
                self.assertRaises(TypeError, searcher.stream_replace_all, Pieces(pattern, piece), target, [pattern + pattern])
                self.assertEqual(pattern + pattern, target.taken)
        for count in (-1, PIECE + 1, 1 << 64):
            self.assertRaisesRegex(OSError, str(count), AhoCorasick([b"a"]).stream_replace_all, Into(count), Target(bytes), [b""])
        self.assertRaises(TypeError, AhoCorasick(["a"]).stream_replace_all, Into(b""), Target(str), [""])
        self.assertRaises(TypeError, AhoCorasick(["a"]).stream_replace_all, Pieces("a", ""), io.BytesIO(), ["b"])
        for form in (str, str.encode):
            self.compare(AhoCorasick([]), form("\u0436a"), [], self.cut(form("\u0436a"), 1))
            whole = form("ba" * PIECE)
            self.compare(AhoCorasick([form("a")]), whole, [form("\u0436")], lambda: Pieces(whole, form("")))

    def test_refusals(self):
        """They come before anything is read or written."""
        for form in (str, str.encode):
            a, target = form("a"), Target(type(form("")))
            for settings, refused in ((dict(start="anchored"), UnanchoredError), (dict(start="both"), EmptyPatternError)):
                with AhoCorasick([a, form("")], **settings) as searcher:
                    self.assertRaises(refused, searcher.stream_replace_all, Pieces(), target, [a, a])
            with AhoCorasick([a], start="anchored") as searcher:
                self.assertRaises(UnanchoredError, searcher.stream_replace_all, Pieces(), target, [a])
            with AhoCorasick([a, a]) as searcher:
                for count in (0, 1, 3):
                    self.assertRaises(ArgumentError, searcher.stream_replace_all, Pieces(), target, [a] * count)
                for wrong in ("a" if form is str.encode else b"a", 1, None, bytearray(b"a")):
                    self.assertRaises(TypeError, searcher.stream_replace_all, Pieces(), target, [a, wrong])
                refused = lambda *_: ahocorasick_rattle.MEMORY
                with unittest.mock.patch.object(ahocorasick_rattle._library, "ac_replacer_open", refused):
                    self.assertRaises(MemoryError, searcher.stream_replace_all, Pieces(), target, [a, a])
            self.assertRaisesRegex(ArgumentError, "closed", searcher.stream_replace_all, Pieces(), target, [a, a])
            self.assertEqual([], target.sizes)
        self.assertRaises(ArgumentError, AhoCorasick([]).stream_replace_all, Pieces(), target, ["a"])

    def test_memory_is_bounded(self):
        """A long file isn't kept, whether it has matches or not, and neither is a long result."""
        for piece, kind in itertools.product((b"ab" * 30_000, "ab" * 8_000, "\u0436a" * 8_000), KINDS):
            form = type(piece) if isinstance(piece, str) else str.encode
            for word, text, growth in (("c", "d", 0), ("a", "bc", 1), ("a", "x" * 1000, 999)):
                count, taken = 3 if growth > 1 else 100, []
                pieces = itertools.chain([piece] * count, [piece[:0]])
                file = unittest.mock.Mock(spec=["read", "write"], read=lambda size: next(pieces),
                                          write=lambda part: taken.append(len(part)))
                with AhoCorasick([form(word)], kind=kind) as searcher:
                    tracemalloc.start()
                    searcher.stream_replace_all(file, file, [form(text)])
                    self.assertLess(tracemalloc.get_traced_memory()[1], 1_000_000)
                    tracemalloc.stop()
                self.assertEqual(count * (len(piece) + growth * piece.count(form("a"))), sum(taken))

    def test_lives(self):
        """It ends as usual though the searcher is closed meanwhile. It needs no other reference to it, and leaves none."""
        opened, watching = self.handles()
        with watching:
            for end in (b"", OSError()):
                searcher, target = AhoCorasick([b"ab"]), Target(bytes)
                memory, pieces = weakref.ref(searcher._open), Pieces(b"xa", b"bxab", end)
                source = unittest.mock.Mock(spec=["read"], read=lambda size: searcher.close() or pieces.read(size))
                with contextlib.suppress(OSError):
                    searcher.stream_replace_all(source, target, [b"-"])
                self.assertEqual((b"x-x-", None), (target.taken, memory()))
                self.assertRaisesRegex(ArgumentError, "closed", searcher.stream_replace_all, source, target, [b"-"])
            with self.assertRaises(SystemExit), ahocorasick_rattle._Replacer(AhoCorasick([b"ab"]), [b"-"]) as replacer:
                self.assertIsNotNone(replacer.searcher.at)
                sys.exit()
            self.assertIsNone(replacer.searcher.at)
            replacer = ahocorasick_rattle._Replacer(AhoCorasick([b"ab"]), [b"-"])
            self.assertIsNotNone(replacer.searcher.at)
            del replacer
        self.assertEqual([None] * 4, [handle.at for handle in opened])

    def test_the_file_may_use_the_searcher(self):
        """While it reads or writes, also to replace in another file."""
        searcher = AhoCorasick(["ab", "b"])

        def doubled(text):
            target = io.StringIO()
            searcher.stream_replace_all(io.StringIO(text), target, ["bab", "a"])
            return target.getvalue()

        target = io.StringIO()
        pieces = iter(("xa", "ba", "b", ""))
        file = unittest.mock.Mock(spec=["read", "write"], read=lambda size: doubled(next(pieces)),
                                  write=lambda text: target.write(doubled(text)))
        searcher.stream_replace_all(file, file, ["ab", "b"])
        self.assertEqual(doubled(doubled("xa") + doubled("ba") + doubled("b")), target.getvalue())


class Lives(unittest.TestCase):
    """When a searcher can be used."""

    def test_closing(self):
        """A closed searcher refuses, also an iterator that has begun; it can be closed again."""
        for kind, given in itertools.product(KINDS, (1, BATCH, BATCH + 1, 2 * BATCH)):
            with AhoCorasick(["a"], kind=kind) as searcher:
                iterators = [searcher.find_iter("a" * 3 * BATCH)]
                iterators += [searcher.find_overlapping_iter("a" * 3 * BATCH)] if kind == "standard" else []
                for matches in iterators:
                    self.assertEqual(given, sum(1 for _ in itertools.islice(matches, given)))
            for matches in iterators:
                self.assertEqual(-given % BATCH, sum(1 for _ in itertools.islice(matches, -given % BATCH)))
                self.assertRaisesRegex(ArgumentError, "closed", next, matches)
            self.assertRaisesRegex(ArgumentError, "closed", searcher.find, "a")
            searcher.close()

    def test_dropping(self):
        """A searcher that nothing refers to is closed."""
        searcher, closed = AhoCorasick(["a"]), []
        close, searcher._open._close = searcher._open._close, lambda it: closed.append(close(it))
        del searcher
        gc.collect()
        self.assertEqual([None], closed)

    def test_copies(self):
        """Each is a searcher of its own: what is closed or dropped leaves the others open. None can be pickled."""
        for copied in (copy.copy, copy.deepcopy, lambda it: copy.copy(copy.deepcopy([it])[0])):
            searcher = AhoCorasick(["a", "b"])
            memory, others = weakref.ref(searcher._open), [copied(searcher), copied(searcher)]
            others.pop().close()
            self.assertEqual((2, "dfa", 3), (len(others[0]), others[0].engine, others[0].count("abc a")))
            searcher.close()
            self.assertRaisesRegex(ArgumentError, "closed", searcher.count, "ab")
            self.assertRaisesRegex(ArgumentError, "closed", copied(searcher).count, "ab")
            del searcher
            gc.collect()
            self.assertEqual([Match(1, 1, 2)], list(others[0].find_iter("xb")))
            self.assertIsNotNone(memory())
            others.pop()
            gc.collect()
            self.assertIsNone(memory())
        self.assertRaises(TypeError, pickle.dumps, AhoCorasick(["a"]))

    def test_an_iterator_keeps_its_searcher(self):
        """It needs no other reference to it, or to the haystack."""
        for kind in KINDS:
            matches = AhoCorasick(["a"], kind=kind).find_iter("ba" * 2 * BATCH)
            gc.collect()
            self.assertEqual(2 * BATCH, sum(1 for _ in matches))


class Threads(unittest.TestCase):
    """What many threads, processes and signals may do with one searcher."""

    @staticmethod
    def at_once(works):
        """Runs these in a thread each, up to their ends."""
        threads = [threading.Thread(target=work) for work in works]
        for thread in threads:
            thread.start()
        for thread in threads:
            thread.join()

    @staticmethod
    def meeting(name, meet):
        """Replaces a call of the library by one that first calls `meet`."""
        call = getattr(ahocorasick_rattle._library, name)
        return unittest.mock.patch.object(ahocorasick_rattle._library, name, lambda *arguments: meet() or call(*arguments))

    def test_threads_share_a_searcher(self):
        """Each has the answers that one alone has."""
        searcher, text, answers = AhoCorasick(FRUIT.split()), FRUIT * 100, []

        def replaced_by_pieces():
            target = io.StringIO()
            searcher.stream_replace_all(io.StringIO(text), target, FRUIT.split()[::-1])
            return target.getvalue()

        wanted = (list(searcher.find_iter(text)), list(searcher.find_overlapping_iter(text)), searcher.count(text),
                  searcher.replace_all(text, FRUIT.split()[::-1]), searcher.replace_all(text, FRUIT.split()[::-1]))
        self.at_once([lambda: answers.extend(
            (list(searcher.find_iter(text)), list(searcher.find_overlapping_iter(text)), searcher.count(text),
             searcher.replace_all(text, FRUIT.split()[::-1]), replaced_by_pieces()) for _ in range(10))] * 8)
        self.assertTrue([wanted] * 80 == answers)
        self.assertGreater(len(wanted[1]), BATCH)

    def test_calls_run_at_once(self):
        """Four are in the library together, also of one thread's searcher and its copies."""
        searcher, counts, meet = AhoCorasick(["a"]), [], threading.Barrier(4, timeout=30)
        with self.meeting("ac_count", lambda: meet.wait() < 0):
            searchers = [searcher, searcher, searcher, copy.copy(searcher)]
            self.at_once([lambda it=it: counts.append(it.count("aba")) for it in searchers])
        self.assertEqual([2] * 4, counts)

    def test_closing_while_others_search(self):
        """It refuses calls from then on, and the running one has its answer before the memory is freed."""
        searcher, counts, entered, go_on = AhoCorasick(["a"]), [], threading.Event(), threading.Event()
        memory = weakref.ref(searcher._open)
        with self.meeting("ac_count", lambda: entered.set() or not go_on.wait(30)):
            thread = threading.Thread(target=lambda: counts.append(searcher.count("aba")))
            thread.start()
            entered.wait(30)
            searcher.close()
            self.assertRaisesRegex(ArgumentError, "closed", searcher.find, "a")
            gc.collect()
            self.assertIsNotNone(memory())
            go_on.set()
            thread.join()
        gc.collect()
        self.assertEqual(([2], None), (counts, memory()))

    def test_closing_at_any_time(self):
        """A call has its answer, or is refused."""
        haystack, answers = b"xxab" * 50_000, []

        def count(searcher):
            try:
                while True:
                    answers.append(searcher.count(haystack))
            except ArgumentError as error:
                answers.append(str(error))

        for delay in range(10):
            searcher = AhoCorasick([b"ab", b"b"])
            closing = lambda: time.sleep(delay / 1000) or searcher.close()
            self.at_once([lambda: count(searcher)] * 3 + [closing])
        self.assertEqual({50_000, "the searcher is closed"}, set(answers) | {50_000})

    def test_forks(self):
        """A child that is made while other threads search can search too."""
        searcher, haystack, ended = AhoCorasick([b"ab", b"b"]), b"xxab" * 50_000, threading.Event()

        def search():
            while not ended.is_set():
                searcher.count(haystack)

        threads = [threading.Thread(target=search) for _ in range(2)]
        for thread in threads:
            thread.start()
        with warnings.catch_warnings():
            warnings.simplefilter("ignore")
            found = all(self.holds_in_a_child(lambda: searcher.count(haystack) == 50_000 == copy.copy(searcher).count(haystack))
                        for _ in range(20))
        ended.set()
        for thread in threads:
            thread.join()
        self.assertTrue(found)

    @staticmethod
    def holds_in_a_child(test):
        """Whether the test holds in a child. One that hangs is ended by its alarm, which has no handler."""
        child = os.fork()
        if child == 0:
            signal.alarm(30)
            os._exit(0 if test() else 1)
        return os.waitpid(child, 0)[1] == 0

    def test_signals(self):
        """A handler may search with the searcher of the code that it interrupts."""
        folder = pathlib.Path(ahocorasick_rattle.__file__).parent
        ran = subprocess.run([sys.executable, "-c", SIGNALS], cwd=folder, capture_output=True, text=True, timeout=60)
        self.assertEqual(("{50000}\n", ""), (ran.stdout, ran.stderr))


if __name__ == "__main__":
    unittest.main()
