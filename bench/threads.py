#!/usr/bin/env python3
"""threads.py [options] measures what four threads that share a searcher take beside one, and prints a Markdown table.

Each thread counts the matches in a haystack of its own, by the Python binding, whose calls run at once. The four threads do
four times the work of the one, so on four free processors both take the same time. Times are the best of several, made by
turns. The variable AC_LIBRARY names the library, as bindings/README.md says.
"""
import argparse
import os
import pathlib
import sys
import threading
import time

import haystacks

sys.path.insert(0, str(pathlib.Path(__file__).resolve().parent.parent / "bindings/python"))
import ahocorasick_rattle

THREADS = 4
SETS = ("prose-100-short-often", "prose-1000-long-rare", "dna-1000-short-often", "log-10-short-often")


def count_all(searcher, hays):
    """Counts the matches in each haystack, in a thread of its own, and returns the seconds and the counts."""
    counts, start = [None] * len(hays), threading.Barrier(len(hays) + 1)

    def count(number):
        start.wait()
        counts[number] = searcher.count(hays[number])

    threads = [threading.Thread(target=count, args=[number]) for number in range(len(hays))]
    for thread in threads:
        thread.start()
    start.wait()
    began = time.monotonic()
    for thread in threads:
        thread.join()
    return time.monotonic() - began, counts


def measured(searcher, hays, rounds):
    """Returns the best times of one thread and of all, and sees that their counts are right."""
    pairs = [(count_all(searcher, hays[:1]), count_all(searcher, hays)) for _ in range(rounds)]
    wanted = [searcher.count(hay) for hay in hays]
    assert all(one[1] + many[1] == wanted[:1] + wanted for one, many in pairs), "threads count otherwise"
    return min(one[0] for one, _ in pairs), min(many[0] for _, many in pairs)


def main():
    options = argparse.ArgumentParser(description=__doc__, formatter_class=argparse.RawDescriptionHelpFormatter)
    options.add_argument("--mb", type=int, default=16, help="the size of a haystack in megabytes (16)")
    options.add_argument("--rounds", type=int, default=15, help="how often each is timed (15)")
    asked = options.parse_args()
    print(f"{len(os.sched_getaffinity(0))} processors, {THREADS} haystacks of {asked.mb} MB\n")
    print("| set | engine | one thread, ms | four threads, ms | ratio |\n|---|---|---|---|---|")
    for name in SETS:
        hay = haystacks.HAYSTACKS[name.split("-")[0]](asked.mb * 1_000_000)
        hays = [bytes(bytearray(hay)) for _ in range(THREADS)]
        patterns = [pattern.encode() for pattern in haystacks.patterns_of(name)]
        for engine in ahocorasick_rattle.ENGINES[1:]:
            with ahocorasick_rattle.AhoCorasick(patterns, engine=engine) as searcher:
                one, many = measured(searcher, hays, asked.rounds)
            print(f"| {name} | {engine} | {1000 * one:.1f} | {1000 * many:.1f} | {many / one:.2f} |", flush=True)


if __name__ == "__main__":
    main()
