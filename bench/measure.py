#!/usr/bin/env python3
"""measure.py --acs PATH [options] runs the program acs over haystacks and prints Markdown tables of what it takes.

Each figure is the best of several runs of a whole process, and what is compared was run alternately. README.md beside
this file says how to read them. It needs Linux.
"""
import argparse
import collections
import ctypes
import datetime
import hashlib
import itertools
import math
import os
import shutil
import signal
import struct
import subprocess
import sys
import tempfile
import time

import haystacks

ENGINES = ("noncontiguous", "contiguous", "dfa", "auto")
KINDS = ("std", "first", "longest")
MODES = ("find", "walk", "overlap", "replace", "stream", "sreplace")  # those that the program has not are left out
OF_PAIRS = ("replace", "sreplace")  # modes whose words are patterns and texts in turn
USUAL_SETS = ("prose-*-short-often,prose-*-long-rare,random-100-long-rare,dna-1000-short-often,dna-50000-long-rare,"
              "log-10-short-often,log-1000-long-rare,links-1-*,links-100-*,mass-10-*,mass-1-long-rare")
LIMIT = 300  # seconds after which a run is stopped
LONG = 4  # seconds after which a run is not made again
TELLING = 0.3  # no ratio is told of fewer milliseconds or megabytes
TRACE_ME, GO_ON, SET_OPTIONS, STOP_AT_EXIT, AT_EXIT = 0, 7, 0x4200, 0x40, 6
PTRACE = ctypes.CDLL(None).ptrace
PTRACE.argtypes, PTRACE.restype = [ctypes.c_long, ctypes.c_long, ctypes.c_void_p, ctypes.c_void_p], ctypes.c_long

Run = collections.namedtuple("Run", "seconds status")


class Command(collections.namedtuple("Command", "words patterns stdin stdout",
                                     defaults=(None, os.devnull, os.devnull))):
    """A program with its first words, a file with the words behind them, and the files of its streams."""

    def argv(self):
        """Returns all words: for a mode of pairs each pattern has a text."""
        if self.patterns is None:
            return self.words
        with open(self.patterns, encoding="ascii") as lines:
            patterns = lines.read().split("\n")[:-1]
        if self.words[1] in OF_PAIRS:
            return self.words + [word for pattern in patterns for word in (pattern, "<>")]
        return self.words + patterns


def launch(command, traced=False):
    """Starts a program in a child, and returns its number and when it began, without the child's own work before."""
    told, tell = os.pipe()
    pid = os.fork()
    if pid == 0:
        try:
            argv = command.argv()
            os.dup2(os.open(command.stdin, os.O_RDONLY), 0)
            os.dup2(os.open(command.stdout, os.O_WRONLY | os.O_CREAT | os.O_TRUNC, 0o600), 1)
            os.dup2(os.open(os.devnull, os.O_WRONLY), 2)
            signal.alarm(LIMIT)
            if traced:
                PTRACE(TRACE_ME, 0, None, None)
            os.write(tell, struct.pack("q", time.monotonic_ns()))
            os.execv(argv[0], argv)
        finally:
            os._exit(127)
    os.close(tell)
    began = struct.unpack("q", os.read(told, 8).rjust(8, b"\0"))[0]
    os.close(told)
    return pid, began


def run(command):
    """Runs a program, and returns how long it took and how it ended."""
    pid, began = launch(command)
    status = os.waitpid(pid, 0)[1]
    return Run((time.monotonic_ns() - began) / 1e9, os.waitstatus_to_exitcode(status))


def peak_of(command):
    """Runs a program, and returns the most memory it had, in MB.

    It is stopped and asked just before its end: what a process that waits is told counts what the child had before it
    became the program. Where tracing is not allowed that must do.
    """
    pid, _ = launch(command, traced=True)
    peak, begins = None, True
    while True:
        _, status, usage = os.wait4(pid, 0)
        if not os.WIFSTOPPED(status):
            return (usage.ru_maxrss if peak is None else peak) * 1024 / 1e6
        if status >> 16 == AT_EXIT:
            with open("/proc/%d/status" % pid) as lines:
                peak = next(int(line.split()[1]) for line in lines if line.startswith("VmHWM"))
        elif begins:
            PTRACE(SET_OPTIONS, pid, None, STOP_AT_EXIT)
            begins = False
        got = os.WSTOPSIG(status)
        PTRACE(GO_ON, pid, None, 0 if got == signal.SIGTRAP else got)


def best_of(commands, times, look=None):
    """Runs the commands alternately, and returns the best run of each. `look` is called after each first run."""
    best = {}
    for turn in range(times):
        for name, command in commands.items():
            if name in best and (best[name].seconds > LONG or best[name].status < 0):
                continue
            made = run(command)
            if turn == 0 and look:
                look(name)
            if name not in best or made.seconds < best[name].seconds:
                best[name] = made
    return best


def contents(path):
    """Returns how many lines a file has, and a hash of it."""
    lines, digest = 0, hashlib.blake2b()
    with open(path, "rb") as file:
        for piece in iter(lambda: file.read(1 << 20), b""):
            lines += piece.count(b"\n")
            digest.update(piece)
    return lines, digest.digest()


def number(x):
    """Returns a number with three figures or so."""
    return "%.0f" % x if x >= 99.95 else "%.1f" % x if x >= 0.995 else "%.2f" % x


def above(whole, part):
    """Returns what a whole is above a part, and 0 where noise makes it less."""
    return max(0, whole - part)


def ratios(values):
    """Returns each value over the one before, where that is large enough to tell."""
    return " ".join("%.2f" % (b / a) if a >= TELLING else "-" for a, b in zip(values, values[1:]))


def speed(made, hay, beside=None):
    """Returns the megabytes a second of a run over a haystack, with the ratio to another run if one is told, or why
    there are none."""
    if made.status not in (0, 1):
        return "stopped" if made.status < 0 else "fault"
    ratio = " (%.2g)" % (beside.seconds / made.seconds) if beside else ""
    return number(os.path.getsize(hay) / 1e6 / made.seconds) + ratio


def print_row(cells):
    """Prints a row of a table."""
    print("| " + " | ".join(cells) + " |", flush=True)


def table(head, rows):
    """Prints a table; its first column is to the left and the others are to the right."""
    print_row(head)
    print("|---|" + "---:|" * (len(head) - 1))
    for row in rows:
        print_row(row)
    print(flush=True)


class Bench:
    """The program, the folder of haystacks, and what was asked for."""

    def __init__(self, asked, folder):
        self.acs, self.other, self.folder, self.times = asked.acs, asked.beside, folder, asked.times
        self.size, self.quick = asked.mb * 1000000, asked.quick
        self.names = haystacks.chosen(asked.sets.split(","))
        self.out = self.path("out")
        self.wc = shutil.which("wc")
        haystacks.write_patterns(self.path("two.pat"), ["a", "b"])
        self.offered = [(mode, kind) for mode in MODES for kind in KINDS if self.offers(mode, kind)]

    def path(self, name):
        """Returns where a file of the folder is."""
        return os.path.join(self.folder, name)

    def patterns(self, name):
        """Returns where the patterns of a set are."""
        return self.path(name + ".pat")

    def hay(self, name):
        """Returns where the haystack of a set is."""
        return self.path(name.split("-")[0] + ".hay")

    def search(self, engine, patterns, hay=os.devnull, mode="walk", kind="std", out=os.devnull, acs=None):
        """Returns the command of a search, by the program or by another one."""
        return Command([acs or self.acs, mode, kind, engine], patterns, hay, out)

    def idle(self, patterns, mode="walk"):
        """Returns a command that takes the same words, and is refused for the name of its engine."""
        return self.search("-", patterns, mode=mode)

    def offers(self, mode, kind):
        """Returns whether the program has a mode for a kind."""
        return run(self.search("auto", self.patterns("two"), mode=mode, kind=kind)).status in (0, 1)

    def walks(self, name):
        """Returns the commands that walk over a set: reading alone first, then the engines, then other programs."""
        hay, patterns = self.hay(name), self.patterns(name)
        commands = {"wc -l": Command([self.wc, "-l"], None, hay, self.out)}
        for engine in ENGINES:
            commands[engine] = self.search(engine, patterns, hay, out=self.out)
        for name, words in (("grep -F", "grep -a -F -o -b -f"), ("rg -F", "rg --no-config -a -F -o -b -N -j1 -f")):
            path, *words = words.split()
            if shutil.which(path):
                commands[name] = Command([shutil.which(path)] + words + [patterns, "-"], None, hay, self.out)
        return commands

    def cut(self, name, size):
        """Returns where a beginning of a haystack is, which is written."""
        path = self.path("cut-%s-%d" % (name, size))
        with open(self.path(name + ".hay"), "rb") as hay, open(path, "wb") as out:
            out.write(hay.read(size))
        return path

    def made(self, name, patterns):
        """Returns where patterns are, which are written."""
        haystacks.write_patterns(self.patterns(name), patterns)
        return self.patterns(name)

    def start_up(self):
        """Prints what the program takes for nothing, and for reading alone."""
        one = self.made("one", ["zyxwvuts"])
        commands = {"acs, its words refused": self.idle(one)}
        commands.update(("acs " + engine, self.search(engine, one)) for engine in ENGINES)
        commands["wc -l"] = Command([self.wc, "-l"])
        best = best_of(commands, 4 * self.times)
        print("### Start-up: nothing to read, one pattern\n")
        table(["Program", "ms", "peak, MB"],
              [[name, "%.2f" % (best[name].seconds * 1e3), number(peak_of(commands[name]))] for name in commands])
        rows = []
        for name in haystacks.HAYSTACKS:
            hay = self.path(name + ".hay")
            commands = {"wc": Command([self.wc, "-l"], None, hay), "acs": self.search("auto", one, hay)}
            best = best_of(commands, 2 * self.times)
            rows.append([name, number(os.path.getsize(hay) / 1e6), speed(best["wc"], hay),
                         speed(best["acs"], hay), number(peak_of(commands["acs"]))])
        print("### Plain reading: `wc -l`, and one absent word by `acs`\n")
        table(["Haystack", "MB", "`wc -l`, MB/s", "`acs`, MB/s", "its peak, MB"], rows)

    def sets(self):
        """Prints how fast each engine walks over each set, beside other programs."""
        print("### Engines: a Standard walk, MB/s, and in brackets the ratio to `wc -l` over the same bytes\n")
        rows, heads = [], []
        for name in self.names:
            progress(name)
            commands, seen = self.walks(name), {}
            best = best_of(commands, self.times, lambda which: seen.update({which: contents(self.out)}))
            reading = best.pop("wc -l")
            cells = [speed(reading, self.hay(name))] + [speed(made, self.hay(name), reading) for made in best.values()]
            agree = len({seen[engine] for engine in ENGINES}) == 1
            rows.append(["`%s`" % name, str(seen["auto"][0]) if agree else "THE ENGINES DIFFER"] + cells)
            heads = list(commands)
        table(["Set", "lines"] + heads, rows)

    def builds(self):
        """Prints what the build of each engine takes over each set."""
        print("### Builds: ms, and MB at the peak, above a run over the same words that is refused\n")
        rows = []
        for name in self.names:
            progress("build " + name)
            patterns = self.patterns(name)
            commands = {engine: self.search(engine, patterns) for engine in ENGINES}
            best = best_of({**commands, "idle": self.idle(patterns)}, self.times)
            words = peak_of(self.idle(patterns))
            rows.append(["`%s`" % name, str(os.path.getsize(patterns) - int(name.split("-")[1]))]
                        + ["%s / %s" % (number(above(best[engine].seconds, best["idle"].seconds) * 1e3),
                                        number(above(peak_of(commands[engine]), words))) for engine in ENGINES])
        table(["Set", "pattern bytes"] + list(ENGINES), rows)

    def beside(self):
        """Prints how many times as fast as another program with the same command line this one is, run alternately.

        An engine that the other has not is measured beside its noncontiguous one.
        """
        print("### Beside another program: a Standard walk, MB/s; the other's time over its own, of the walk and of a build\n")
        rows, all_ratios, ours = [], {engine: [] for engine in ENGINES}, self.acs
        for name in self.names:
            progress("beside " + name)
            patterns, cells = self.patterns(name), []
            for engine in ENGINES:
                has = run(self.search(engine, patterns, acs=self.other)).status in (0, 1)
                pair = {ours: engine, self.other: engine if has else "noncontiguous"}
                walks = {acs: self.search(by, patterns, self.hay(name), acs=acs) for acs, by in pair.items()}
                builds = {acs: self.search(by, patterns, acs=acs) for acs, by in pair.items()}
                builds.update(((acs, "idle"), self.search("-", patterns, acs=acs)) for acs in pair)
                walked, built = best_of(walks, self.times), best_of(builds, 4 * self.times)
                all_ratios[engine].append(walked[self.other].seconds / walked[ours].seconds)
                spent = [above(built[acs].seconds, built[acs, "idle"].seconds) * 1e3 for acs in pair]
                cells.append("%s; %.2f, %s" % (speed(walked[ours], self.hay(name)), all_ratios[engine][-1], ratios(spent)))
            rows.append(["`%s`" % name] + cells)
        means = [math.exp(sum(map(math.log, many)) / len(many)) for many in all_ratios.values()]
        table(["Set"] + list(ENGINES), rows + [["walks, geometric mean"] + ["%.2f" % it for it in means]])

    def kinds(self):
        """Prints how fast each mode is under each match kind."""
        for name in ("prose-10-short-often", "prose-100-long-rare"):
            print("### Modes and match kinds over `%s`, MB/s\n" % name)
            progress("kinds " + name)
            hay, rows = self.hay(name), []
            for mode, kind in self.offered:
                best = best_of({engine: self.search(engine, self.patterns(name), hay, mode, kind, self.out)
                                for engine in ENGINES}, self.times)
                rows.append(["%s %s" % (mode, kind)] + [speed(best[engine], hay) for engine in ENGINES])
            table(["Mode and kind"] + list(ENGINES), rows)

    def skips(self):
        """Prints what a prefilter wins: the program has no switch for it, so four patterns more rule it out.

        These never occur, and begin with four further bytes; a prefilter serves at most three.
        """
        print("### Prefilters: MB/s of a Standard walk with one / with four patterns more that rule it out\n")
        hay, rows = self.path("prose.hay"), []
        with open(hay, "rb") as file:
            front = file.read(1000000)
        for what, words in skipped():
            progress("prefilter: " + what)
            few, more = self.made("few", words), self.made("more", words + ["\x01", "\x02", "\x03", "\x04"])
            commands = {(engine, p): self.search(engine, p, hay) for engine in ENGINES[:3] for p in (few, more)}
            best = best_of(commands, self.times)
            seen = sum(front.count(first.encode()) for first in {word[0] for word in words})
            rows.append([what, str(len(front) // seen) if seen else "-"]
                        + [" / ".join(speed(best[engine, p], hay) for p in (few, more))
                           for engine in ENGINES[:3]])
        table(["Patterns", "bytes to a first byte"] + list(ENGINES[:3]), rows)

    def grow(self, what, steps, less):
        """Prints a row for each engine: time and memory of steps, of which each is twice the one before.

        Each step is a function from an engine to a command, and `less` one from that command to the one whose time and
        memory are taken off.
        """
        for engine in ENGINES[:3]:
            progress("growth: %s, %s" % (what, engine))
            commands = {n: step(engine) for n, step in enumerate(steps)}
            base = {(n, "less"): less(command) for n, command in commands.items()}
            best = best_of({**commands, **base}, 2 * self.times)
            if any(best[n].status not in (0, 1) for n in commands):
                print_row([what, engine, "fault or stopped", "", "", ""])
                continue
            spent = [above(best[n].seconds, best[n, "less"].seconds) * 1e3 for n in commands]
            held = [above(peak_of(commands[n]), peak_of(base[n, "less"])) for n in commands]
            print_row([what, engine] + [cell for values in (spent, held)
                                        for cell in (" ".join(map(number, values)), ratios(values))])

    def growth(self):
        """Prints what a doubled haystack, doubled patterns and doubled matches do to time and memory."""
        print("### Growth: each step is twice the one before, so 2.00 is linear\n")
        print_row(["What doubles", "engine", "ms", "ratios", "MB", "ratios"])
        print("|---|---|---:|---:|---:|---:|")
        self.grow_haystacks()
        self.grow_patterns()
        self.grow_matches()
        self.grow_chains()
        print()

    def grow_haystacks(self):
        """Prints what a doubled haystack does."""
        for name, mode, kind in (("prose-100-long-rare", "walk", "std"), ("prose-10-short-often", "walk", "std"),
                                 ("prose-10-short-often", "replace", "first"), ("links-100-long-rare", "walk", "std"),
                                 ("mass-1-long-rare", "walk", "longest"), ("mass-10-short-often", "walk", "longest")):
            whole = os.path.getsize(self.hay(name))
            hays = [self.cut(name.split("-")[0], whole // part) for part in (8, 4, 2, 1)]
            self.grow("haystack: %s %s `%s`, to %s MB" % (mode, kind, name, number(whole / 1e6)),
                      [self.step(self.patterns(name), hay, mode, kind) for hay in hays], empty)

    def grow_patterns(self):
        """Prints what doubled patterns do to a build."""
        for what, most, make in GROWING:
            sizes = self.doubled(most)
            words = [self.made("grow-%d" % n, make(n)) for n in sizes]
            self.grow("patterns: " + what % sizes[-1], [self.step(patterns) for patterns in words], self.refused)

    def grow_matches(self):
        """Prints what doubled matches do to a listing."""
        hay = self.cut("mass", self.size // 80)
        words = [self.made("as-%d" % n, ("a" * k for k in range(1, n + 1))) for n in (4, 8, 16, 32)]
        self.grow("matches: overlap std, from a to 32 a's, in %s MB of a's" % number(self.size / 8e7),
                  [self.step(patterns, hay, "overlap") for patterns in words], empty)

    def grow_chains(self):
        """Prints what more matches in one chain do to a leftmost walk, which has read them all before it gives the first."""
        sizes = self.doubled(100_000)
        words = [self.made("chain-%d" % n, ["a", "a" * n + "b"]) for n in sizes]
        self.grow("chain: walk longest, a and %d a's and a b, in as many a's" % sizes[-1],
                  [self.step(patterns, self.cut("mass", n), "walk", "longest") for n, patterns in zip(sizes, words)], empty)

    def lengths(self):
        """Prints what a longer pattern does to a leftmost search, and to a Standard one, beside another program."""
        hay, lengths = self.cut("mass", self.size // 16), (125, 250, 500, 1000)
        words = [self.made("again-%d" % n, ["a", "a" * n + "b"]) for n in lengths]
        print("### Length: the patterns a, and so many a's and a b, over %s MB of a's, ms\n" % number(self.size / 16e6))
        print_row(["Program", "search", "engine"] + [str(n) for n in lengths])
        print("|---|---|---|" + "---:|" * len(lengths))
        programs = [("acs", self.acs)] + ([("the other", self.other)] if self.other else [])
        for name, acs in programs:
            for mode, kind in itertools.product(("walk", "stream"), ("std", "longest")):
                for engine in ENGINES[:3]:
                    progress("lengths: %s, %s %s %s" % (name, mode, kind, engine))
                    commands = {n: self.search(engine, patterns, hay, mode, kind, acs=acs)
                                for n, patterns in zip(lengths, words)}
                    if all(run(it).status in (0, 1) for it in commands.values()):
                        best = best_of(commands, self.times)
                        print_row([name, mode + " " + kind, engine] + [number(best[n].seconds * 1e3) for n in lengths])
        print()

    def doubled(self, most):
        """Returns four numbers, each twice the one before, up to the greatest."""
        most //= 8 if self.quick else 1
        return [most // 8, most // 4, most // 2, most]

    def step(self, patterns, hay=os.devnull, mode="walk", kind="std"):
        """Returns a step of growth: a search by whatever engine."""
        return lambda engine: self.search(engine, patterns, hay, mode, kind)

    def refused(self, command):
        """Returns the command that takes the same words and does nothing."""
        return self.idle(command.patterns, command.words[1])


def empty(command):
    """Returns the same command with nothing to read."""
    return command._replace(stdin=os.devnull)


def skipped():
    """Yields lists of patterns that a prefilter serves, and what they are: ten words each with few first bytes."""
    yield "one word, absent", ["#qzvjkxq"]
    yield "one word, frequent", ["that"]
    for firsts in ("#", "J", "JUY", "TAW", "mwf", "tae"):
        numbers = haystacks.Numbers(21)
        words = [firsts[n % len(firsts)] + numbers.text("qzvjkx", 7) for n in range(10)]
        yield "ten absent words, first bytes " + " ".join(firsts), words


def nested(size):
    """Returns a's, aa's and so on, and a long pattern of such runs: most of its states have many matches."""
    run_length = math.isqrt(size)
    runs = ("a" * run_length + "b") * (size // run_length)
    return ["a" * n for n in range(1, run_length + 1)] + [runs[:size]]


def a_and_b(size):
    """Returns a's with a b behind each, one a longer each time, as many as have about so many bytes together."""
    return ["a" * n + "b" for n in range(1, math.isqrt(2 * size))]


# patterns that grow: what they are, the most of them or of their bytes, and how they are made
GROWING = (("%d long words", 50000, lambda n: haystacks.patterns_of("prose-50000-long-rare")[:n]),
           ("%d random words", 50000, lambda n: haystacks.patterns_of("random-50000-long-rare")[:n]),
           ("one of %d a's and a b", 128000, lambda n: ["a" * n + "b"]),
           ("a's and a b, each an a longer, %d bytes", 1000000, a_and_b),
           ("the same letter %d times", 100000, lambda n: ["a"] * n),
           ("one of runs of a's in %d bytes, and all parts of a run", 64000, nested))


def progress(text):
    """Tells on standard error what is done next."""
    print("%s %s" % (time.strftime("%H:%M:%S"), text), file=sys.stderr, flush=True)


def machine(asked):
    """Prints on what, when and how the figures were made."""
    with open("/proc/cpuinfo") as lines:
        model = next((line.split(":")[1].strip() for line in lines if line.startswith("model name")), "unknown")
    print("%s, %d cores, load %.1f; %s; haystacks of %d MB, the best of %d runs%s%s.\n" % (
        model, os.cpu_count(), os.getloadavg()[0], datetime.date.today().isoformat(), asked.mb, asked.times,
        ", on one core" if asked.cpu is not None else "",
        "; built from " + asked.built_from if asked.built_from else ""), flush=True)


def options():
    """Returns what the command line asks for."""
    parser = argparse.ArgumentParser(description="measures the program acs and prints Markdown tables")
    parser.add_argument("--acs", required=True, help="the program")
    parser.add_argument("--built-from", help="what it was built from, to be printed")
    parser.add_argument("--sets", default=USUAL_SETS, help="names of sets, with * for anything, and commas between")
    parser.add_argument("--parts", default="start_up,sets,builds,kinds,skips,growth", help="which tables to print")
    parser.add_argument("--beside", help="another program with the same command line, for one more table, `beside`, "
                        "or for more rows of `lengths`")
    parser.add_argument("--mb", type=int, default=16, help="how many million bytes a haystack has (16)")
    parser.add_argument("--times", type=int, default=5, help="of how many runs the best counts (5)")
    parser.add_argument("--cpu", type=int, help="the core that all runs are held to")
    parser.add_argument("--quick", action="store_true", help="little of everything, to see that it works")
    asked = parser.parse_args()
    asked.acs = os.path.abspath(asked.acs)
    if not os.access(asked.acs, os.X_OK):
        parser.error("no such program: " + asked.acs)
    if asked.beside:
        asked.beside = os.path.abspath(asked.beside)
        asked.parts += "" if "lengths" in asked.parts else ",beside"
    if asked.quick:
        asked.mb, asked.times = 1, 2
        asked.sets = "prose-10-*,prose-1000-long-rare,links-1-*,mass-10-*" if asked.sets == USUAL_SETS else asked.sets
    return asked


def main():
    """Writes the haystacks, measures, and prints."""
    asked = options()
    os.environ["LC_ALL"] = "C"
    if asked.cpu is not None:
        os.sched_setaffinity(0, {asked.cpu})
    memory = "/dev/shm" if os.access("/dev/shm", os.W_OK) else None
    with tempfile.TemporaryDirectory(prefix="acs-bench-", dir=memory) as folder:
        progress("haystacks")
        needed = ["prose-10-short-often", "prose-100-long-rare", "links-100-long-rare", "mass-1-long-rare",
                  "mass-10-short-often"]
        subprocess.run([sys.executable, haystacks.__file__, folder, "--mb", str(asked.mb),
                        "--sets", ",".join([asked.sets] + needed)], check=True)
        bench = Bench(asked, folder)
        machine(asked)
        for part in asked.parts.split(","):
            getattr(bench, part)()


if __name__ == "__main__":
    main()
