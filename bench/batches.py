#!/usr/bin/env python3
"""Measures searches through the C library that write their matches a batch at a time, by a cursor and by a stream, over texts that make
each match read far ahead. Prints a table: seconds where a text has so many bytes, twice as many and four times as many, best of three."""
import argparse
import ctypes
import os
import sys
import time

sys.path.insert(0, os.path.join(os.path.dirname(os.path.abspath(__file__)), "..", "bindings", "python"))
import ahocorasick_rattle as ac  # noqa: E402

ROOMS = (1, 8, 512, 0)  # 0: room for all
STANDARD, LONGEST = 0, 2
WALK, LISTING = 0, 1


def opened(kind, patterns):
    """Returns a searcher of the library."""
    searcher = ac._Open()
    options = ac._Options(ctypes.sizeof(ac._Options), kind, 0, 0, 0, 1, 1, 2)
    data, ends = ac._joined(patterns)
    ac._raise_on(ac._library.ac_open(options, data, len(data), ends, len(ends), searcher.searcher))
    return searcher


def by_cursor(mode, searcher, text, room, out):
    """Returns how many matches the library writes, by a cursor."""
    call = ac._library.ac_walk if mode == WALK else ac._library.ac_overlapping
    span, cursor, filled, count = ac._Span(0, len(text), 0, 0), ac._Cursor(0, 0), ctypes.c_size_t(room), 0
    while filled.value == room:
        ac._raise_on(call(searcher.searcher, text, len(text), span, cursor, out, room, filled))
        count += filled.value
    return count


def by_stream(mode, searcher, text, room, out):
    """The same by a stream, to which the text is fed as one piece."""
    stream = ac._Open(ac._library.ac_stream_close)
    ac._raise_on(ac._library.ac_stream_open(searcher.searcher, mode, stream.searcher))
    taken, filled, at, count = ctypes.c_size_t(), ctypes.c_size_t(room), 0, 0
    start = ctypes.cast(text, ctypes.c_void_p).value
    while at < len(text):
        ac._raise_on(ac._library.ac_stream_feed(stream.searcher, start + at, len(text) - at, taken, out, room, filled))
        at, count = at + taken.value, count + filled.value
    filled.value = room
    while filled.value == room:
        ac._raise_on(ac._library.ac_stream_end(stream.searcher, out, room, filled))
        count += filled.value
    return count


def seconds(call, mode, searcher, text, room):
    """Returns the best time of three, and how many matches there are."""
    room, best = room or len(text) + 1, None
    out = (ctypes.c_size_t * (3 * room))()
    for _ in range(3):
        before = time.perf_counter()
        count = call(mode, searcher, text, room, out)
        best = min(best or 1e9, time.perf_counter() - before)
    return best, count


def main():
    parser = argparse.ArgumentParser(description=__doc__)
    parser.add_argument("--bytes", type=int, default=25_000, help="of the shortest text")
    sizes = [parser.parse_args().bytes << i for i in range(3)]
    print("search\tby\troom\t" + "\t".join(f"{size} bytes" for size in sizes) + "\tmatches")
    for name, mode, kind, long in (("listing", LISTING, STANDARD, b"b"), ("walk", WALK, LONGEST, b"a")):
        searches = [(opened(kind, [b"a", long * (size // 2) + b"b"]), b"a" * size) for size in sizes]
        for room in ROOMS:
            for by, call in (("cursor", by_cursor), ("stream", by_stream)):
                rows = [seconds(call, mode, searcher, text, room) for searcher, text in searches]
                times = "\t".join(f"{time:.4f}" for time, _ in rows)
                print(f"{name}\t{by}\t{room or 'all'}\t{times}\t{rows[-1][1]}", flush=True)


if __name__ == "__main__":
    main()
