"""Searches text or bytes for many patterns at once. The searcher is proved; it is in libac.so.

    with AhoCorasick(["apple", "maple", "Snapple"]) as searcher:
        for match in searcher.find_iter("Nobody likes maple in their apple flavored Snapple."):
            print(match.pattern, match.start, match.end)

A file is searched piece by piece, and is never whole in memory:

    with open("app.log", "rb") as file:
        for match in AhoCorasick([b"error", b"warning"]).stream_find_iter(file):
            print(match.pattern, match.start, match.end)

A copy with each match replaced is made in the same way:

    with open("app.log", "rb") as source, open("new.log", "wb") as target:
        AhoCorasick([b"error", b"warning"]).stream_replace_all(source, target, [b"ERROR", b"WARNING"])

The variable AC_LIBRARY may name that file. Else it is looked for beside this one, and then where shared objects usually are.
"""
import codecs
import collections
import ctypes
import errno
import io
import os
import threading

VERSION = 100
BATCH = 512  # matches that one call may find
PIECE = 65536  # bytes that are read of a file, or written to one, at once
KINDS = ("standard", "leftmost-first", "leftmost-longest")
STARTS = ("unanchored", "anchored", "both")
ENGINES = (None, "noncontiguous-nfa", "contiguous-nfa", "dfa")

Match = collections.namedtuple("Match", "pattern start end")
Match.__doc__ = "The number of a pattern in the list, and where it was found: haystack[start:end]."


class Error(ValueError):
    """A call was refused."""


class ArgumentError(Error):
    """An argument is wrong: a span outside the haystack, say, or another number of replacements than of patterns."""


class LimitError(Error):
    """Too many patterns, a pattern too long, or too many states."""


class AnchoredError(Error):
    """The searcher doesn't support anchored searches."""


class UnanchoredError(Error):
    """The searcher doesn't support unanchored searches."""


class OverlappingError(Error):
    """Overlapping searches need the kind "standard"."""


class EmptyPatternError(Error):
    """A text in pieces can't be searched for an empty pattern."""


OK, FOUND, MEMORY = 0, 1, -2
WALK, LISTING = 0, 1  # what a stream gives
WITHIN = bytes(range(0x80, 0xC0))  # the bytes of UTF-8 that begin no character
ERRORS = {-1: ArgumentError, -3: LimitError, -4: AnchoredError, -5: UnanchoredError, -6: OverlappingError,
          -7: EmptyPatternError}


class _Searcher(ctypes.Structure):
    _fields_ = [("at", ctypes.c_void_p)]


class _Options(ctypes.Structure):
    _fields_ = [("size", ctypes.c_size_t)]
    _fields_ += [(name, ctypes.c_uint32) for name in
                ("match_kind", "start_kind", "engine", "ignore_case", "prefilter", "byte_classes")]
    _fields_ += [("dense_depth", ctypes.c_size_t)]


class _Span(ctypes.Structure):
    _fields_ = [("start", ctypes.c_size_t), ("end", ctypes.c_size_t),
                ("anchored", ctypes.c_uint32), ("earliest", ctypes.c_uint32)]


class _Cursor(ctypes.Structure):
    _fields_ = [("at", ctypes.c_size_t), ("given", ctypes.c_size_t)]


class _Facts(ctypes.Structure):
    _fields_ = [(name, ctypes.c_size_t) for name in ("size", "patterns", "shortest", "longest", "memory")]
    _fields_ += [(name, ctypes.c_uint32) for name in ("engine", "match_kind", "start_kind")]


def _load():
    """Opens the library, and declares its calls."""
    beside = os.path.join(os.path.dirname(os.path.abspath(__file__)), "libac.so")
    library = ctypes.CDLL(os.environ.get("AC_LIBRARY") or (beside if os.path.exists(beside) else "libac.so"))
    searcher, span, cursor = map(ctypes.POINTER, (_Searcher, _Span, _Cursor))
    data, size, sizes = ctypes.c_char_p, ctypes.c_size_t, ctypes.POINTER(ctypes.c_size_t)
    search = [searcher, data, size, span]
    for name, arguments in {
        "ac_version": [], "ac_close": [searcher], "ac_describe": [searcher, ctypes.POINTER(_Facts)],
        "ac_open": [ctypes.POINTER(_Options), data, size, sizes, size, searcher],
        "ac_find": [*search, sizes], "ac_is_match": search, "ac_count": [*search, sizes],
        "ac_walk": [*search, cursor, sizes, size, sizes], "ac_overlapping": [*search, cursor, sizes, size, sizes],
        "ac_replace": [searcher, data, size, data, size, sizes, size, ctypes.c_void_p, size, sizes],
        "ac_stream_open": [searcher, ctypes.c_uint32, searcher], "ac_stream_close": [searcher],
        "ac_stream_feed": [searcher, ctypes.c_void_p, size, sizes, sizes, size, sizes],
        "ac_stream_end": [searcher, sizes, size, sizes],
        "ac_replacer_open": [searcher, data, size, sizes, size, searcher], "ac_replacer_close": [searcher],
        "ac_replacer_feed": [searcher, ctypes.c_void_p, size, sizes, ctypes.c_void_p, size, sizes],
        "ac_replacer_end": [searcher, ctypes.c_void_p, size, sizes],
    }.items():
        call = getattr(library, name)
        call.argtypes, call.restype = arguments, ctypes.c_int32
    library.ac_close.restype = library.ac_stream_close.restype = library.ac_replacer_close.restype = None
    if library.ac_version() != VERSION:
        raise ImportError(f"libac.so has version {library.ac_version()}, and {VERSION} is needed")
    return library


_library = _load()


def _raise_on(status):
    """Raises the exception of a status, if it has one."""
    if status == MEMORY:
        raise MemoryError("no memory for the searcher, for what it replaces or for a stream")
    if status not in (OK, FOUND):
        raise ERRORS[status](ERRORS[status].__doc__)


def _encode(text):
    return text.encode("utf-8", "surrogatepass")


def _decode(data):
    return data.decode("utf-8", "surrogatepass")


def _joined(items):
    """Returns the bytes of all items, and where each of them ends."""
    ends, total = (ctypes.c_size_t * len(items))(), 0
    for number, item in enumerate(items):
        total += len(item)
        ends[number] = total
    return b"".join(items), ends


def _number(names, name, what):
    if name not in names:
        raise ArgumentError(f"{what} is {name!r}, and can be one of {names}")
    return names.index(name)


class _Open:
    """An open searcher of the library. Whoever calls the library refers to it, and with the last reference it is closed."""

    def __init__(self, close=_library.ac_close):
        self.searcher, self._close = _Searcher(), close

    def __del__(self):
        self._close(self.searcher)

    def __deepcopy__(self, memo):
        return self

    def __reduce__(self):
        raise TypeError("a searcher can't be pickled; build one from its patterns")


class _Stream(_Open):
    """An open stream of the library. It needs no searcher to be open, and is for one thread at a time."""

    def __init__(self, searcher, mode):
        super().__init__(_library.ac_stream_close)
        self._numbers, self._taken, self._filled = (ctypes.c_size_t * (3 * BATCH))(), ctypes.c_size_t(), ctypes.c_size_t()
        searcher._call(_library.ac_stream_open, mode, self.searcher)

    def feed(self, data, at, end):
        """Feeds data[at:end]. Returns how far it was taken, and the next matches as a flat list; if that is full, there may be
        more to take and to give."""
        address = ctypes.cast(data, ctypes.c_void_p).value + at
        _raise_on(_library.ac_stream_feed(self.searcher, address, end - at, self._taken, self._numbers, BATCH, self._filled))
        return at + self._taken.value, self._numbers[:3 * self._filled.value]

    def end(self):
        """Returns the next of the matches that only the end settles. If that list is full, there may be more."""
        _raise_on(_library.ac_stream_end(self.searcher, self._numbers, BATCH, self._filled))
        return self._numbers[:3 * self._filled.value]


class _Replacer(_Open):
    """An open replacer of the library, which the end of a with block closes. It needs no searcher to be open, and is for one
    thread at a time."""

    def __init__(self, searcher, texts):
        super().__init__(_library.ac_replacer_close)
        self._out, self._taken, self._filled = ctypes.create_string_buffer(PIECE), ctypes.c_size_t(), ctypes.c_size_t()
        data, ends = _joined(texts)
        searcher._call(_library.ac_replacer_open, data, len(data), ends, len(ends), self.searcher)

    def __enter__(self):
        return self

    def __exit__(self, *_):
        self._close(self.searcher)

    def parts_of(self, piece):
        """Feeds a piece, and yields what it settles of the result, in parts. An empty piece is the end, which settles all."""
        address, at, is_full = ctypes.cast(piece, ctypes.c_void_p).value, 0, True
        while is_full:
            if piece:
                _raise_on(_library.ac_replacer_feed(self.searcher, address + at, len(piece) - at, self._taken, self._out, PIECE,
                                                    self._filled))
                at += self._taken.value
            else:
                _raise_on(_library.ac_replacer_end(self.searcher, self._out, PIECE, self._filled))
            is_full = self._filled.value == PIECE
            yield self._out[:self._filled.value]


class _Characters:
    """Counts the characters of a text that is added in pieces of its bytes, and drops what it has counted."""

    def __init__(self):
        self._pieces, self._inside = collections.deque(), 0  # what isn't counted begins there in the first piece
        self._at, self._count = 0, 0

    def add(self, piece):
        self._pieces.append(piece)

    def upto(self, offset):
        """Returns how many characters begin before a byte of the text. The offsets asked for never descend."""
        while self._at < offset:
            piece = self._pieces[0]
            start, self._inside = self._inside, min(len(piece), self._inside + offset - self._at)
            self._at += self._inside - start
            self._count += len(piece[start:self._inside].translate(None, WITHIN))
            if self._inside == len(piece):
                self._pieces.popleft()
                self._inside = 0
        return self._count


class _FileMatches:
    """An iterator over the matches of a file. Before it reads, it gives all that is settled. If reading fails, it can go on."""

    def __init__(self, searcher, mode, file):
        self._searcher, self._stream, self._read = searcher, _Stream(searcher, mode), _reader(file, searcher._type)
        self._characters = _Characters() if searcher._type is str else None
        self._piece, self._at, self._fed, self._turn = b"", 0, 0, threading.Lock()
        self._found, self._is_full, self._goes_on = iter(()), False, True

    def __iter__(self):
        return self

    def __next__(self):
        if not self._turn.acquire(blocking=False):
            raise ValueError("the iterator is running already")
        try:
            while (match := next(self._found, None)) is None:
                self._advance()
            return match
        finally:
            self._turn.release()

    def __reduce__(self):
        raise TypeError("an iterator over a file can't be copied or pickled")

    def _advance(self):
        """Gets the next matches: of the piece that was read, unless it has no more."""
        if not self._goes_on:
            raise StopIteration
        self._searcher._check_open()
        piece = None if self._is_full else self._read()
        self._goes_on = False  # A failure from here on would lose matches, so it is the end.
        if piece is not None:
            self._add(self._searcher._bytes_of(piece))
        if self._piece:
            self._at, numbers = self._stream.feed(self._piece, self._at, len(self._piece))
        else:
            numbers = self._stream.end()
        self._found, self._is_full = iter(self._matches(numbers)), len(numbers) == 3 * BATCH
        self._goes_on = self._is_full or bool(self._piece)

    def _add(self, piece):
        if self._characters:
            # A match that only later text settles ends far back, but no further than the longest pattern reaches.
            self._characters.upto(self._fed - self._searcher._longest)
            self._characters.add(piece)
        self._piece, self._at, self._fed = piece, 0, self._fed + len(piece)

    def _matches(self, numbers):
        matches = zip(numbers[::3], numbers[1::3], numbers[2::3])
        if not self._characters:
            return [Match(*match) for match in matches]
        ends = [(pattern, self._characters.upto(end)) for pattern, _, end in matches]
        return [Match(pattern, end - self._searcher._lengths[pattern], end) for pattern, end in ends]


def _reader(file, form):
    """Returns a call that reads the next piece of a file, which is empty at its end."""
    # A buffered reader waits until a piece is full, unless it is asked for what is there.
    name = "readinto1" if isinstance(file, (io.BufferedReader, io.BufferedRWPair)) else "readinto"
    if form is bytes and hasattr(file, name):
        readinto, room = getattr(file, name), memoryview(bytearray(PIECE))
        return lambda: _filled(room, _given(readinto(room)))
    if not hasattr(file, "read"):
        raise TypeError(f"a file is needed, and not {type(file).__name__}")
    size = PIECE if form is bytes else PIECE // 4  # A character has up to four bytes.
    return lambda: _given(file.read(size))


def _writer(file):
    """Returns a call that writes bytes to a file, or the text that they are. It keeps a character until it has all bytes of it."""
    if not hasattr(file, "write"):
        raise TypeError(f"a file is needed, and not {type(file).__name__}")
    characters = codecs.getincrementaldecoder("utf-8")("surrogatepass")

    def write(data, form):
        if form is bytes:
            _write_all(file, data)
        elif text := characters.decode(data):
            file.write(text)

    return write


def _write_all(file, data):
    """Writes bytes, by more than one call if the file takes fewer, as one without a buffer may."""
    while data:
        count = file.write(data)
        if count is None:
            if isinstance(file, io.RawIOBase):
                raise BlockingIOError(errno.EAGAIN, "the file takes nothing yet")
            return  # Other files take all, and some don't say so.
        if not 0 < count <= len(data):
            raise OSError(f"{count} bytes were written, and there were {len(data)}")
        data = data[count:]


def _given(it):
    if it is None:
        raise BlockingIOError(errno.EAGAIN, "the file has nothing to read yet")
    return it


def _filled(room, count):
    """Returns what was read into a room. It is a copy, since nobody may write where the library reads."""
    if not 0 <= count <= len(room):
        raise OSError(f"{count} bytes were read, and there was room for {len(room)}")
    return bytes(room[:count])


class AhoCorasick:
    """A searcher for patterns, which are all str or all bytes; haystacks then are the same.

    kind      which of several overlapping occurrences is the match. "standard": the one that ends first, of these the one
              that starts first. "leftmost-first": the one that starts first, of these the first in the list.
              "leftmost-longest": the one that starts first, of these the longest
    start     which searches are supported: "unanchored", "anchored" or "both"
    engine    "noncontiguous-nfa", "contiguous-nfa", "dfa", or None for a choice by the number of patterns. It changes no
              answer, and neither do prefilter, byte_classes and dense_depth

    In text all offsets count characters, and an empty pattern matches between characters, but not inside one. Each call
    encodes its text: for many calls over one long text, search bytes.
    close() frees the memory; so do the end of a with block and the garbage collector. Threads may share a searcher: their
    calls run at once, and none waits for another. A copy is a searcher of its own, which shares the memory; it is freed
    once no searcher, no running call and no iterator needs it.
    """

    def __init__(self, patterns, kind="standard", ignore_case=False, engine=None, start="unanchored", prefilter=True,
                 byte_classes=True, dense_depth=2):
        self._open = None
        if isinstance(patterns, (str, bytes)):
            raise TypeError("patterns are a list of str or of bytes, and not one of them")
        patterns = list(patterns)
        self._type = type(patterns[0]) if patterns else None
        if self._type not in (None, str, bytes) or any(type(pattern) is not self._type for pattern in patterns):
            raise TypeError("patterns are all str or all bytes")
        self._lengths = [len(pattern) for pattern in patterns]
        self.kind, self.start = kind, start
        options = _Options(ctypes.sizeof(_Options), _number(KINDS, kind, "kind"), _number(STARTS, start, "start"),
                           _number(ENGINES, engine, "engine"), bool(ignore_case), bool(prefilter), bool(byte_classes),
                           dense_depth)
        data, ends = _joined([self._bytes_of(pattern) for pattern in patterns])
        opened = _Open()
        _raise_on(_library.ac_open(options, data, len(data), ends, len(ends), opened.searcher))
        self._open = opened
        facts = _Facts(ctypes.sizeof(_Facts))
        self._call(_library.ac_describe, facts)
        self.engine, self.memory_usage, self._longest = ENGINES[facts.engine], facts.memory, facts.longest

    def close(self):
        """Ends the searcher: calls are refused from then on. Those that are running end as usual, and the last one frees the
        memory, if no copy of the searcher is open."""
        self._open = None

    def __enter__(self):
        return self

    def __exit__(self, *_):
        self.close()

    def __len__(self):
        return len(self._lengths)

    def find(self, haystack, start=0, end=None, anchored=False, earliest=False):
        """Returns the match, or None. With `earliest` each kind picks as "standard" does."""
        data, span = self._span(haystack, start, end, anchored, earliest)
        found = (ctypes.c_size_t * 3)()
        if self._call(_library.ac_find, data, len(data), span, found) != FOUND:
            return None
        return next(self._matches(haystack, data, start, [[*found]]))

    def is_match(self, haystack, start=0, end=None, anchored=False):
        """Returns whether a pattern occurs in haystack[start:end]."""
        data, span = self._span(haystack, start, end, anchored, False)
        return self._call(_library.ac_is_match, data, len(data), span) == FOUND

    def count(self, haystack, start=0, end=None, anchored=False, earliest=False):
        """Returns how many matches find_iter has."""
        if 0 in self._lengths and self._type is str:
            return sum(1 for _ in self.find_iter(haystack, start, end, anchored, earliest))
        data, span = self._span(haystack, start, end, anchored, earliest)
        count = ctypes.c_size_t()
        self._call(_library.ac_count, data, len(data), span, count)
        return count.value

    def find_iter(self, haystack, start=0, end=None, anchored=False, earliest=False):
        """Returns an iterator over matches that don't overlap: the match, then the match in what follows it, and so on."""
        data, span = self._span(haystack, start, end, anchored, earliest)
        return self._matches(haystack, data, start, self._batches(_library.ac_walk, WALK, data, span))

    def find_overlapping_iter(self, haystack, start=0, end=None):
        """Returns an iterator over all occurrences, ordered by end, then start, then number."""
        data, span = self._span(haystack, start, end, False, False)
        return self._matches(haystack, data, start, self._batches(_library.ac_overlapping, LISTING, data, span))

    def stream_find_iter(self, file):
        """Returns an iterator over the matches that find_iter has in what a file has from here on, which it reads by pieces.

            for match in AhoCorasick([b"he", b"she"]).stream_find_iter(io.BytesIO(b"ushers")): ...

        For patterns of bytes the file gives bytes, by readinto(b) or read(n). For patterns of str it gives str, by read(n), and
        offsets count the characters that it gave. In memory are pieces of 64 KiB, and of text also those of its end in which a
        match may still end: as much as the longest pattern has.
        The iterator reads only once it has given each match that no text to come can change. Of a pipe it reads what is there,
        but a text file waits for a whole piece. What the file raises passes through, and the next call of the iterator reads
        again; a file that doesn't block, and has nothing yet, is a BlockingIOError. The iterator is for one thread at a time.
        An empty pattern is refused here, with EmptyPatternError. The file isn't closed.
        """
        return _FileMatches(self, WALK, file)

    def stream_find_overlapping_iter(self, file):
        """Returns an iterator over the occurrences that find_overlapping_iter has in what a file has, as stream_find_iter does.

            for match in AhoCorasick([b"he", b"she"]).stream_find_overlapping_iter(io.BytesIO(b"ushers")): ...
        """
        return _FileMatches(self, LISTING, file)

    def stream_replace_all(self, source, target, replacements):
        """Writes to the target what the source has from here on, with each match of find_iter replaced by the item of its pattern
        in replacements: in all, what replace_all returns for the whole.

            AhoCorasick([b"he"]).stream_replace_all(io.BytesIO(b"ushers"), sys.stdout.buffer, [b"she"])

        Both are files of bytes or both of str, like the patterns. The source is read as stream_find_iter reads one. The target
        is written to by write(it). If that returns fewer bytes than it was given, the rest is written by further calls; None
        from a file without a buffer (io.RawIOBase) is a BlockingIOError, and from any other it means that all was taken. A file of
        str always takes all.
        Before more is read, each match that no text to come can change is written, and all before it; of the bytes after it at
        most as many are held back as the longest pattern has, and a character that isn't whole. In memory are pieces of 64 KiB,
        the replacements, and a buffer of 64 KiB, or of eight times the longest pattern if that is more.
        What a file raises passes through. What was written by then stays written, but what was held back is lost, so files that
        don't block are of little use here. An empty pattern, and what replace_all refuses, is refused before anything is read.
        The target isn't flushed, and neither file is closed.
        """
        read, write = _reader(source, self._type), _writer(target)
        with _Replacer(self, [self._bytes_of(replacement) for replacement in replacements]) as replacer:
            is_over = False
            while not is_over:
                piece = read()
                for part in replacer.parts_of(self._bytes_of(piece)):
                    write(part, type(piece))
                is_over = not piece

    def replace_all(self, haystack, replacements):
        """Returns the haystack with each match of find_iter replaced by the item of its pattern in replacements."""
        replacements = list(replacements)
        if any(type(replacement) is not type(haystack) for replacement in replacements):
            raise TypeError("replacements are of the haystack's type")
        if 0 in self._lengths and self._type is str and len(replacements) == len(self):
            return self._replace_characters(haystack, replacements)
        data = self._bytes_of(haystack)
        texts, ends = _joined([self._bytes_of(replacement) for replacement in replacements])
        needed = ctypes.c_size_t(len(data) + len(data) // 4)
        room = -1
        while room < needed.value:
            room = needed.value
            out = ctypes.create_string_buffer(room)
            self._call(_library.ac_replace, data, len(data), texts, len(texts), ends, len(ends), out, room, needed)
        replaced = ctypes.string_at(out, needed.value)
        return replaced if type(haystack) is bytes else _decode(replaced)

    def _replace_characters(self, haystack, replacements):
        pieces, at = [], 0
        for match in self.find_iter(haystack):
            pieces += [haystack[at:match.start], replacements[match.pattern]]
            at = match.end
        return "".join(pieces) + haystack[at:]

    def _check_open(self):
        """Returns the searcher of the library, unless it was closed."""
        opened = self._open
        if opened is None:
            raise ArgumentError("the searcher is closed")
        return opened

    def _call(self, call, *arguments):
        """Calls the library, and returns the status if it is no error. Nothing is locked: the call has its own reference."""
        opened = self._check_open()
        status = call(opened.searcher, *arguments)
        _raise_on(status)
        return status

    def _bytes_of(self, text):
        if type(text) not in (str, bytes) or self._type not in (None, type(text)):
            raise TypeError(f"{self._type.__name__ if self._type else 'str or bytes'} is needed, and not {type(text).__name__}")
        return _encode(text) if type(text) is str else text

    def _span(self, haystack, start, end, anchored, earliest):
        """Returns a haystack's bytes, and which of them are searched and how."""
        data = self._bytes_of(haystack)
        end = len(haystack) if end is None else end
        if not 0 <= start <= end <= len(haystack):
            raise ArgumentError(f"no span {start}..{end} in a haystack of length {len(haystack)}")
        if len(data) != len(haystack):
            start, end = len(_encode(haystack[:start])), len(_encode(haystack[:end]))
        return data, _Span(start, end, bool(anchored), bool(earliest))

    def _batches(self, call, mode, data, span):
        """Returns an iterator over batches of matches, as flat lists of numbers. A refused search raises here."""
        cursor, filled = _Cursor(span.start, 0), ctypes.c_size_t()
        self._call(call, data, len(data), span, cursor, None, 0, filled)
        # By a cursor each batch begins anew, and may read as many bytes again as the longest pattern has. That costs nothing where the
        # first match found is given, and little where a batch comes as far; and a stream has no prefilter.
        by_cursor = mode == WALK and (self.kind == "standard" or span.earliest) or span.anchored or 0 in self._lengths

        def batches():
            numbers, known, moved, filled.value = (ctypes.c_size_t * (3 * BATCH))(), 0, self._longest, BATCH
            while filled.value == BATCH:
                if not by_cursor and moved < self._longest:
                    yield from self._rest(mode, data, span, known)
                    return
                before = cursor.at
                self._call(call, data, len(data), span, cursor, numbers, BATCH, filled)
                known, moved = known + filled.value, cursor.at - before
                yield numbers[:3 * filled.value]

        return batches()

    def _rest(self, mode, data, span, known):
        """Yields the matches after so many, by a stream, which reads no byte twice, however many batches there are."""
        stream, at, known, goes_on = _Stream(self, mode), span.start, 3 * known, True
        while goes_on:
            self._check_open()
            if at < span.end:
                at, numbers = stream.feed(data, at, span.end)
            else:
                numbers = stream.end()
                goes_on = len(numbers) == 3 * BATCH
            found, known = numbers[known:], max(0, known - len(numbers))
            yield found if span.start == 0 else [n + span.start if i % 3 else n for i, n in enumerate(found)]

    def _matches(self, haystack, data, start, batches):
        """Yields the matches of such batches, with offsets in the haystack."""
        is_wide = len(data) != len(haystack)
        characters, at = start, len(_encode(haystack[:start])) if is_wide else start
        for numbers in batches:
            for pattern, begin, end in zip(numbers[::3], numbers[1::3], numbers[2::3]):
                if not is_wide:
                    yield Match(pattern, begin, end)
                elif end == len(data) or data[end] & 0xC0 != 0x80:
                    # Ends ascend, so each character is counted once. A match has as many characters as its pattern.
                    characters += len(_decode(data[at:end]))
                    at = end
                    yield Match(pattern, characters - self._lengths[pattern], characters)
