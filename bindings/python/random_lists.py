"""`random_lists.py COUNT` compares searches over random lists of patterns, and over all small ones, with a slow search that is
written down here."""
import itertools
import random
import sys

from ahocorasick_rattle import ENGINES, KINDS, STARTS, AhoCorasick

ORDERS = {
    "standard": lambda match: (match[2], match[1], match[0]),
    "leftmost-first": lambda match: (match[1], match[0]),
    "leftmost-longest": lambda match: (match[1], -match[2], match[0]),
}
FOLD = {upper: upper + 32 for upper in range(ord("A"), ord("Z") + 1)}


def folded(text):
    """Returns a text with each ASCII letter small."""
    return text.lower() if isinstance(text, bytes) else text.translate(FOLD)


class Slow:
    """What is found in a span of a haystack."""

    def __init__(self, patterns, haystack, span, ignore_case, order):
        if ignore_case:
            patterns, haystack = [folded(pattern) for pattern in patterns], folded(haystack)
        start, self.end = span
        ends = {len(pattern) for pattern in patterns}
        self.start, self.order = start, order
        self.all = [(number, at, at + length) for at in range(start, self.end + 1) for length in ends
                    if at + length <= self.end for number, pattern in enumerate(patterns)
                    if haystack[at:at + length] == pattern]

    def pick(self, start, anchored):
        """Returns the match that is picked from a start on, or None."""
        return min((it for it in self.all if it[1] >= start and not (anchored and it[1] > start)), key=self.order, default=None)

    def walk(self, anchored):
        """Gives the matches that don't overlap."""
        start, last = self.start, None
        while match := self.pick(start, anchored):
            if match[1] == match[2] == last:
                match = self.pick(last + 1, anchored)
                if match is None:
                    return
            yield match
            start = last = match[2]


def replaced(haystack, matches, texts):
    """Returns a haystack with its matches replaced."""
    pieces, at = [], 0
    for number, start, end in matches:
        pieces += [haystack[at:start], texts[number]]
        at = end
    return haystack[:0].join(pieces + [haystack[at:]])


def random_text(numbers, letters, most):
    return letters[:0].join(letters[at:at + 1] for at in numbers.choices(range(len(letters)), k=numbers.randint(0, most)))


class Pieces:
    """A file that gives a text in random pieces."""

    def __init__(self, numbers, text):
        self.numbers, self.text = numbers, text

    def read(self, size):
        at = self.numbers.randint(1, min(size, 5))
        piece, self.text = self.text[:at], self.text[at:]
        return piece


class Target:
    """A file that takes a random part of the bytes that it is given, or all of a text."""

    def __init__(self, numbers, text):
        self.numbers, self.text = numbers, text[:0]

    def write(self, piece):
        count = self.numbers.randint(1, len(piece)) if isinstance(piece, bytes) else len(piece)
        self.text += piece[:count]
        return count


def faults_of(numbers, letters, patterns, haystack, kind):
    """Compares all searches over a list under a match kind, with random settings and a random span, and yields what differs."""
    span = sorted(numbers.choices(range(len(haystack) + 1), k=2)) if numbers.random() < 0.5 else [0, len(haystack)]
    start = numbers.choice(STARTS)
    anchored = start == "anchored" or start == "both" and numbers.random() < 0.5
    earliest, ignore_case = numbers.random() < 0.2, numbers.random() < 0.3
    slow = Slow(patterns, haystack, span, ignore_case, ORDERS["standard" if earliest else kind])
    settings = dict(kind=kind, start=start, ignore_case=ignore_case, engine=numbers.choice(ENGINES),
                    prefilter=numbers.random() < 0.5, byte_classes=numbers.random() < 0.5, dense_depth=numbers.randint(0, 4))
    walk = list(slow.walk(anchored))
    with AhoCorasick(patterns, **settings) as searcher:
        options = dict(start=span[0], end=span[1], anchored=anchored)
        wanted_and_got = {
            "find": (slow.pick(span[0], anchored), searcher.find(haystack, earliest=earliest, **options)),
            "is_match": (bool(walk), searcher.is_match(haystack, **options)),
            "find_iter": (walk, list(searcher.find_iter(haystack, earliest=earliest, **options))),
            "count": (len(walk), searcher.count(haystack, earliest=earliest, **options)),
        }
        if kind == "standard" and start != "anchored":
            wanted_and_got["find_overlapping_iter"] = (
                sorted(slow.all, key=ORDERS["standard"]), list(searcher.find_overlapping_iter(haystack, *span)))
        if start != "anchored":
            texts = [random_text(numbers, letters, 9) for _ in patterns]
            whole = Slow(patterns, haystack, [0, len(haystack)], ignore_case, ORDERS[kind])
            wanted_and_got["replace_all"] = (
                replaced(haystack, whole.walk(False), texts), searcher.replace_all(haystack, texts))
            if all(patterns):
                wanted_and_got["stream_find_iter"] = (
                    list(whole.walk(False)), list(searcher.stream_find_iter(Pieces(numbers, haystack))))
                target = Target(numbers, haystack)
                searcher.stream_replace_all(Pieces(numbers, haystack), target, texts)
                wanted_and_got["stream_replace_all"] = (wanted_and_got["replace_all"][0], target.text)
                if kind == "standard":
                    wanted_and_got["stream_find_overlapping_iter"] = (
                        sorted(whole.all, key=ORDERS["standard"]),
                        list(searcher.stream_find_overlapping_iter(Pieces(numbers, haystack))))
    for call, (wanted, got) in wanted_and_got.items():
        if wanted != got:
            yield f"{call} of {patterns} in {haystack}, {settings}, {options}, {earliest}: {got}, and not {wanted}"


def faults_of_random_list(numbers):
    """Compares all searches over a random list, and yields what differs."""
    letters = numbers.choice([b"ab", b"abAB", b"a\xff\0", "ab", "abA", "a\u00e9\u20ac\U0001f600", "e\u00e9E\u00c9"])
    least = 0 if numbers.random() < 0.3 else 1
    patterns = [letters[:least] + random_text(numbers, letters, 4) for _ in range(numbers.randint(0, 6))]
    yield from faults_of(numbers, letters, patterns, random_text(numbers, letters, 24), numbers.choice(KINDS))


def all_words(most):
    """Returns the words over two letters that have at most so many."""
    return [bytes(word) for length in range(most + 1) for word in itertools.product(b"ab", repeat=length)]


def text_of_all_words(length):
    """Returns a text in which each word over two letters of this length occurs once."""
    text = b"a" * length
    while more := next((letter for letter in (b"b", b"a") if text[1 - length:] + letter not in text), None):
        text += more
    return text


def faults_of_small_lists(numbers):
    """Compares all searches over each list of at most three words of at most three letters, and yields what differs."""
    words, haystack = all_words(3), text_of_all_words(6)
    for count in range(4):
        for patterns in itertools.product(words, repeat=count):
            for kind in KINDS:
                yield from faults_of(numbers, b"abAB", list(patterns), haystack, kind)


if __name__ == "__main__":
    COUNT = int(sys.argv[1])
    faults = [fault for seed in range(COUNT) for fault in faults_of_random_list(random.Random(seed))]
    faults += faults_of_small_lists(random.Random(COUNT))
    print(*faults[:20], f"{COUNT} random lists and all small ones, {len(faults)} faults found", sep="\n")
    sys.exit(1 if faults else 0)
