#!/usr/bin/env python3
"""haystacks.py DIR [--mb N] [--sets GLOB,..] writes haystacks and pattern sets.

Every byte comes from a small generator with a fixed seed, so all machines and all releases of Python write the same.
A haystack of fewer megabytes is a beginning of a larger one, and the sets depend on neither.

Haystacks, in DIR/NAME.hay:
  prose   words in the shares of a language, with sentences and lines
  random  all bytes alike
  dna     the letters ACGT alike
  log     lines of a server's log
  links   runs of 50 to 150 a's with a b between, for failure links
  mass    the letter a alone, a quarter as long, for matches in masses

Pattern sets, one pattern a line, in DIR/HAY-COUNT-LENGTH-FREQUENCY.pat: LENGTH is short or long; FREQUENCY is often,
where patterns come from what the haystack has, or rare, where they hardly occur or never. All are ASCII without a
newline, so they can be words of a command line and lines of a file.
"""
import argparse
import fnmatch
import functools
import itertools
import os

COUNTS = (1, 3, 10, 100, 1000, 5000, 50000)
CUT_FROM = 1000000  # patterns are cut from so many bytes at the front of a haystack
COMMON = """the of and to in a is that it was for on are as with his they at be this from have or by one had not but
what all were when we there can an your which their said if do will each about how up out them then she many some so
these would other into has more her two like him see time could no make than first been its who now people my made over
did down only way find use may water long little very after words called just where most know""".split()
ONSETS = "b c d f g h l m n p r s t w br ch cl dr fl gr pl sh st th tr".split()
VOWELS = "a e i o u ea ai ou".split()
CODAS = ["", "", "n", "r", "s", "t", "l", "nd", "st", "ck"]
LETTERS = "abcdefghijklmnopqrstuvwxyz"
PRINTED = "".join(map(chr, range(33, 127)))


class Numbers:
    """A generator of 64-bit numbers (xorshift, multiplied), the same everywhere."""

    def __init__(self, seed):
        self.state = seed * 0x9E3779B97F4A7C15 % (1 << 64) or 1
        for _ in range(8):
            self.next()

    def next(self):
        """Returns the next number."""
        x = self.state
        x ^= x >> 12
        x ^= (x << 25) & 0xFFFFFFFFFFFFFFFF
        x ^= x >> 27
        self.state = x
        return (x * 0x2545F4914F6CDD1D) & 0xFFFFFFFFFFFFFFFF

    def below(self, bound):
        """Returns a number below a bound that is far below 2 to the 32."""
        return (self.next() >> 32) * bound >> 32

    def pick(self, items):
        """Returns one of the items."""
        return items[self.below(len(items))]

    def text(self, letters, length):
        """Returns a string of such letters."""
        return "".join(self.pick(letters) for _ in range(length))


@functools.lru_cache(maxsize=None)
def vocabulary(count=60000):
    """Returns so many words, the most frequent first: common English ones, then made ones, short before long."""
    numbers = Numbers(1)
    words = dict.fromkeys(COMMON)
    while len(words) < count:
        syllables = 1 + (len(words) > 400) + (len(words) > 6000)
        parts = [numbers.pick(ONSETS) + numbers.pick(VOWELS) for _ in range(syllables)]
        words["".join(parts) + numbers.pick(CODAS)] = None
    return list(words)


def shares(words):
    """Returns 65,536 words in which the share of a word falls with its place in the list."""
    table = []
    for place, word in enumerate(words):
        table += [word] * max(1, 6000 // (place + 2))
        if len(table) >= 65536:
            break
    return table[:65536]


def prose(size):
    """Returns words in groups of three with commas, full stops and ends of lines between the groups."""
    table, numbers = shares(vocabulary()), Numbers(2)
    pieces, total, opens = [], 0, True
    while total < size:
        bits = numbers.next()
        first = table[bits & 0xFFFF]
        ends = bits >> 62 == 0
        between = (".\n" if bits >> 60 & 3 == 0 else ". ") if ends else ", " if bits >> 62 == 1 else " "
        piece = "%s %s %s%s" % (first.capitalize() if opens else first, table[bits >> 16 & 0xFFFF],
                                table[bits >> 32 & 0xFFFF], between)
        opens = ends
        pieces.append(piece)
        total += len(piece)
    return "".join(pieces).encode()[:size]


def random(size):
    """Returns bytes that are all alike."""
    numbers = Numbers(3)
    return b"".join(numbers.next().to_bytes(8, "little") for _ in range(size // 8 + 1))[:size]


def dna(size):
    """Returns the letters ACGT, all alike."""
    numbers = Numbers(4)
    fours = ["".join(four).encode() for four in itertools.product("ACGT", repeat=4)]
    eights = (numbers.next().to_bytes(8, "little") for _ in range(size // 32 + 1))
    return b"".join(fours[byte] for eight in eights for byte in eight)[:size]


def log(size):
    """Returns lines of a log."""
    numbers, words = Numbers(5), vocabulary(3000)
    lines, total, clock = [], 0, 1700000000000
    while total < size:
        clock += numbers.below(900)
        line = "%d.%03d %s [%s-%d] %s id=%08x ip=10.%d.%d.%d path=/%s/%s status=%d ms=%d\n" % (
            clock // 1000, clock % 1000, numbers.pick("INFO INFO INFO DEBUG WARN ERROR".split()),
            numbers.pick("auth billing gateway search storage worker mail cache".split()), numbers.below(32),
            numbers.pick(["request completed", "connection reset by peer", "cache miss for key", "user logged in",
                          "timeout while waiting for upstream", "retrying after error", "invalid token"]),
            numbers.next() >> 32, numbers.below(256), numbers.below(256), numbers.below(256), numbers.pick(words),
            numbers.pick(words), numbers.pick((200, 200, 200, 301, 404, 500)), numbers.below(5000))
        lines.append(line)
        total += len(line)
    return "".join(lines).encode()[:size]


def links(size):
    """Returns runs of a's, each with a b behind it."""
    numbers = Numbers(6)
    return b"".join(b"a" * (50 + numbers.below(101)) + b"b" for _ in range(size // 50))[:size]


def mass(size):
    """Returns a's alone."""
    return b"a" * (size // 4)


HAYSTACKS = {"prose": prose, "random": random, "dna": dna, "log": log, "links": links, "mass": mass}


@functools.lru_cache(maxsize=None)
def front_of(hay):
    """Returns the text at the front of a haystack."""
    return HAYSTACKS[hay](CUT_FROM).decode("ascii")


def pieces(hay, seed, length):
    """Yields pieces of a haystack, which occur in it."""
    numbers, front = Numbers(seed), front_of(hay)
    while True:
        at = numbers.below(len(front) - length)
        if "\n" not in front[at:at + length]:
            yield front[at:at + length]


def noise(seed, letters, length):
    """Yields strings of such letters."""
    numbers = Numbers(seed)
    while True:
        yield numbers.text(letters, length)


def pairs_of_words(seed):
    """Yields pairs of long words, which hardly stand side by side."""
    numbers, words = Numbers(seed), [word for word in vocabulary() if len(word) >= 6]
    while True:
        yield numbers.pick(words) + " " + numbers.pick(words)


def short_words():
    """Returns the vocabulary with the short words first, the most frequent ones before others."""
    words = vocabulary()
    return [w for w in words if 3 <= len(w) <= 5] + [w for w in words if len(w) > 5]


# of each haystack and sort of patterns: how they are made for a count
RECIPES = {
    "prose-short-often": lambda count: short_words(),
    "prose-short-rare": lambda count: noise(11, "qxzjkvw", 6),
    "prose-long-often": lambda count: pieces("prose", 12, 14),
    "prose-long-rare": lambda count: pairs_of_words(13),
    "random-short-often": lambda count: noise(14, PRINTED, 2 if count <= 5000 else 3),
    "random-long-rare": lambda count: noise(15, PRINTED, 12),
    "dna-short-often": lambda count: pieces("dna", 16, 8),
    "dna-long-rare": lambda count: noise(17, "ACGT", 24),
    "log-short-often": lambda count: itertools.chain(
        ["ERROR", "WARN", "timeout", "status=500", "invalid", "miss", "reset", "-31]"], pieces("log", 18, 6)),
    "log-long-rare": lambda count: itertools.chain(
        ["FATAL panic in", "out of memory", "segmentation fault"], noise(19, LETTERS + "0123456789=/ ", 14)),
    "links-long-rare": lambda count: ("a" * (151 if count == 1 else n) + "c" for n in itertools.count(1)),
    "mass-short-often": lambda count: ("a" * n for n in itertools.count(1)),
    "mass-long-rare": lambda count: ("a" * (1000 if count == 1 else n) + "b" for n in itertools.count(1)),
}


def counts_of(sort):
    """Returns the counts that a sort of patterns comes in: those of a single letter grow with the square of it."""
    return [count for count in COUNTS if count <= 1000 or not sort.startswith(("links", "mass"))]


def set_names():
    """Returns the names of all pattern sets."""
    return [sort.replace("-", "-%d-" % count, 1) for sort in RECIPES for count in counts_of(sort)]


def patterns_of(name):
    """Returns the patterns of a set, each once."""
    hay, count, sort = name.split("-", 2)
    found = {}
    for pattern in RECIPES[hay + "-" + sort](int(count)):
        found[pattern] = None
        if len(found) == int(count):
            break
    return list(found)


def chosen(globs):
    """Returns the names of the sets that one of some patterns of names tells."""
    return [name for name in set_names() if any(fnmatch.fnmatch(name, glob) for glob in globs)]


def write_patterns(path, patterns):
    """Writes patterns, one a line."""
    with open(path, "w", encoding="ascii", newline="\n") as out:
        out.writelines(pattern + "\n" for pattern in patterns)


def write(folder, mb, names):
    """Writes the sets of these names, and all haystacks, which have so many megabytes."""
    os.makedirs(folder, exist_ok=True)
    for hay, make in HAYSTACKS.items():
        with open(os.path.join(folder, hay + ".hay"), "wb") as out:
            out.write(make(mb * 1000000))
    for name in names:
        write_patterns(os.path.join(folder, name + ".pat"), patterns_of(name))


def main():
    """Writes what the command line asks for."""
    options = argparse.ArgumentParser(description="writes haystacks and pattern sets")
    options.add_argument("dir")
    options.add_argument("--mb", type=int, default=16, help="how many million bytes a haystack has (16)")
    options.add_argument("--sets", default="*", help="names of sets, with * for anything, and commas between")
    asked = options.parse_args()
    write(asked.dir, asked.mb, chosen(asked.sets.split(",")))


if __name__ == "__main__":
    main()
