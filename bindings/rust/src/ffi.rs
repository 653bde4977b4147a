//! The exports of the proved library, and a safe type over them. No other module has unsafe code.
use std::ptr::null_mut;

/// Why a call did nothing.
#[derive(Clone, Copy, Debug, PartialEq, Eq)]
pub(crate) enum Refusal {
    Arguments,
    Memory,
    Limit,
    Anchored,
    Unanchored,
    Overlapping,
    EmptyPattern,
}

/// Turns a status into whether something was found, or into the reason why the call did nothing.
fn answer(status: i32) -> Result<bool, Refusal> {
    match status {
        0 => Ok(false),
        1 => Ok(true),
        -1 => Err(Refusal::Arguments),
        -2 => Err(Refusal::Memory),
        -3 => Err(Refusal::Limit),
        -4 => Err(Refusal::Anchored),
        -5 => Err(Refusal::Unanchored),
        -6 => Err(Refusal::Overlapping),
        -7 => Err(Refusal::EmptyPattern),
        _ => unreachable!("the library has no status {status}"),
    }
}

#[repr(C)]
#[derive(Clone, Copy, Debug)]
pub(crate) struct Options {
    pub(crate) match_kind: u32,
    pub(crate) start_kind: u32,
    pub(crate) engine: u32,
    pub(crate) ignore_case: u32,
    pub(crate) prefilter: u32,
    pub(crate) byte_classes: u32,
    pub(crate) dense_depth: usize,
}

#[repr(C)]
#[derive(Clone, Copy, Debug)]
pub(crate) struct Span {
    pub(crate) start: usize,
    pub(crate) end: usize,
    pub(crate) anchored: u32,
    pub(crate) earliest: u32,
}

#[repr(C)]
#[derive(Clone, Copy, Debug, Default)]
pub(crate) struct Match {
    pub(crate) pattern: usize,
    pub(crate) start: usize,
    pub(crate) end: usize,
}

#[repr(C)]
#[derive(Clone, Copy, Debug)]
pub(crate) struct Cursor {
    pub(crate) at: usize,
    pub(crate) given: usize,
}

#[repr(C)]
#[derive(Clone, Copy, Debug, Default)]
pub(crate) struct Facts {
    pub(crate) patterns: usize,
    pub(crate) shortest: usize,
    pub(crate) longest: usize,
    pub(crate) memory: usize,
    pub(crate) engine: u32,
    pub(crate) match_kind: u32,
    pub(crate) start_kind: u32,
}

#[repr(C)]
#[derive(Debug)]
struct RawHandle {
    at: *mut u8,
}

#[repr(C)]
struct RawReader {
    at: *const u8,
}

type Batch = unsafe extern "C" fn(
    searcher: *mut RawReader,
    haystack: *const u8,
    haystack_len: usize,
    span: *const Span,
    cursor: *mut Cursor,
    out: *mut Match,
    out_len: usize,
    filled: *mut usize,
) -> i32;

unsafe extern "C" {
    fn ac_raw_open(
        options: *const Options,
        bytes: *const u8,
        bytes_len: usize,
        ends: *const usize,
        ends_len: usize,
        out: *mut RawHandle,
    ) -> i32;
    fn ac_raw_close(handle: RawHandle);
    fn ac_raw_facts(searcher: *mut RawReader, out: *mut Facts);
    fn ac_raw_find(
        searcher: *mut RawReader,
        haystack: *const u8,
        haystack_len: usize,
        span: *const Span,
        out: *mut Match,
    ) -> i32;
    fn ac_raw_is_match(searcher: *mut RawReader, haystack: *const u8, haystack_len: usize, span: *const Span) -> i32;
    fn ac_raw_count(
        searcher: *mut RawReader,
        haystack: *const u8,
        haystack_len: usize,
        span: *const Span,
        count: *mut usize,
    ) -> i32;
    fn ac_raw_walk(
        searcher: *mut RawReader,
        haystack: *const u8,
        haystack_len: usize,
        span: *const Span,
        cursor: *mut Cursor,
        out: *mut Match,
        out_len: usize,
        filled: *mut usize,
    ) -> i32;
    fn ac_raw_overlapping(
        searcher: *mut RawReader,
        haystack: *const u8,
        haystack_len: usize,
        span: *const Span,
        cursor: *mut Cursor,
        out: *mut Match,
        out_len: usize,
        filled: *mut usize,
    ) -> i32;
    fn ac_raw_stream_open(searcher: *mut RawReader, mode: u32, out: *mut RawHandle) -> i32;
    fn ac_raw_stream_feed(
        stream: *mut RawHandle,
        piece: *const u8,
        piece_len: usize,
        taken: *mut usize,
        out: *mut Match,
        out_len: usize,
        filled: *mut usize,
    ) -> i32;
    fn ac_raw_stream_end(stream: *mut RawHandle, out: *mut Match, out_len: usize, filled: *mut usize) -> i32;
}

/// An open searcher.
#[derive(Debug)]
pub(crate) struct Handle {
    at: *mut u8,
}

// SAFETY: the library's `Handle`, which this is, is proved to be `Send` (`crates/ac_c/src/handle.rt`).
unsafe impl Send for Handle {}

// SAFETY: what a `&Handle` gives is a reader for each call, and the library's `Reader` is proved to be `Send`, since a
// searcher is `Sync` (`crates/ac_c/src/reader.rt`). The handle itself changes only in `drop`, which has it alone.
unsafe impl Sync for Handle {}

impl Handle {
    pub(crate) fn open(options: &Options, bytes: &[u8], ends: &[usize]) -> Result<Handle, Refusal> {
        let mut handle = RawHandle { at: null_mut() };
        // SAFETY: pointers and lengths are those of slices, which are borrowed for the call; `handle` is an empty one.
        let status =
            unsafe { ac_raw_open(options, bytes.as_ptr(), bytes.len(), ends.as_ptr(), ends.len(), &mut handle) };
        answer(status).map(|_| Handle { at: handle.at })
    }

    /// The right to read, for one call: the borrow of `self` keeps the searcher open.
    fn reader(&self) -> RawReader {
        RawReader { at: self.at }
    }

    pub(crate) fn facts(&self) -> Facts {
        let mut facts = Facts::default();
        // SAFETY: the reader is that of an open searcher, and `facts` is borrowed for the call.
        unsafe { ac_raw_facts(&mut self.reader(), &mut facts) };
        facts
    }

    pub(crate) fn find(&self, haystack: &[u8], span: &Span) -> Result<Option<Match>, Refusal> {
        let mut found = Match::default();
        // SAFETY: the reader is that of an open searcher; all else is borrowed for the call.
        let status = unsafe { ac_raw_find(&mut self.reader(), haystack.as_ptr(), haystack.len(), span, &mut found) };
        answer(status).map(|is_found| is_found.then_some(found))
    }

    pub(crate) fn is_match(&self, haystack: &[u8], span: &Span) -> Result<bool, Refusal> {
        // SAFETY: as in `find`.
        answer(unsafe { ac_raw_is_match(&mut self.reader(), haystack.as_ptr(), haystack.len(), span) })
    }

    /// How many matches a walk has.
    pub(crate) fn count(&self, haystack: &[u8], span: &Span) -> Result<usize, Refusal> {
        let mut count = 0;
        // SAFETY: as in `find`.
        let status = unsafe { ac_raw_count(&mut self.reader(), haystack.as_ptr(), haystack.len(), span, &mut count) };
        answer(status).map(|_| count)
    }

    /// Fills `out` with the next matches of a walk and returns how many they are. Any cursor is safe.
    pub(crate) fn walk(
        &self,
        haystack: &[u8],
        span: &Span,
        cursor: &mut Cursor,
        out: &mut [Match],
    ) -> Result<usize, Refusal> {
        self.batch(ac_raw_walk, haystack, span, cursor, out)
    }

    /// The same for a listing of all occurrences.
    pub(crate) fn overlapping(
        &self,
        haystack: &[u8],
        span: &Span,
        cursor: &mut Cursor,
        out: &mut [Match],
    ) -> Result<usize, Refusal> {
        self.batch(ac_raw_overlapping, haystack, span, cursor, out)
    }

    fn batch(
        &self,
        call: Batch,
        haystack: &[u8],
        span: &Span,
        cursor: &mut Cursor,
        out: &mut [Match],
    ) -> Result<usize, Refusal> {
        let mut filled = 0;
        // SAFETY: as in `find`; `call` is one of the two exports of this type, and `out` has room for its length.
        let status = unsafe {
            call(
                &mut self.reader(),
                haystack.as_ptr(),
                haystack.len(),
                span,
                cursor,
                out.as_mut_ptr(),
                out.len(),
                &mut filled,
            )
        };
        answer(status).map(|_| filled)
    }
}

impl Drop for Handle {
    fn drop(&mut self) {
        // SAFETY: the searcher is open and given up here, once; no borrow of it is left.
        unsafe { ac_raw_close(RawHandle { at: self.at }) }
    }
}

/// What a stream gives.
#[derive(Clone, Copy, Debug, PartialEq, Eq)]
pub(crate) enum Mode {
    Walk = 0,
    Listing = 1,
}

/// An open search of a text that comes in pieces. It shares the engine of its searcher.
#[derive(Debug)]
pub(crate) struct Stream {
    raw: RawHandle,
}

// SAFETY: the library's `Handle`, which this is, is proved to be `Send`; and a `&Stream` gives nothing.
unsafe impl Send for Stream {}
unsafe impl Sync for Stream {}

impl Stream {
    pub(crate) fn open(searcher: &Handle, mode: Mode) -> Result<Stream, Refusal> {
        let mut raw = RawHandle { at: null_mut() };
        // SAFETY: the reader is that of an open searcher, and `raw` is an empty handle.
        let status = unsafe { ac_raw_stream_open(&mut searcher.reader(), mode as u32, &mut raw) };
        answer(status).map(|_| Stream { raw })
    }

    /// Takes bytes of a piece and fills `out` with the next matches. Returns how many bytes and how many matches.
    pub(crate) fn feed(&mut self, piece: &[u8], out: &mut [Match]) -> Result<(usize, usize), Refusal> {
        let (mut taken, mut filled) = (0, 0);
        let (bytes, len) = (piece.as_ptr(), piece.len());
        // SAFETY: the stream is open, and all is borrowed for the call; `out` has room for its length.
        let status = unsafe {
            ac_raw_stream_feed(&mut self.raw, bytes, len, &mut taken, out.as_mut_ptr(), out.len(), &mut filled)
        };
        answer(status).map(|_| (taken, filled))
    }

    /// Says that nothing follows, and fills `out` with the matches that are left. Returns how many they are.
    pub(crate) fn end(&mut self, out: &mut [Match]) -> Result<usize, Refusal> {
        let mut filled = 0;
        // SAFETY: as in `feed`.
        let status = unsafe { ac_raw_stream_end(&mut self.raw, out.as_mut_ptr(), out.len(), &mut filled) };
        answer(status).map(|_| filled)
    }
}

impl Drop for Stream {
    fn drop(&mut self) {
        // SAFETY: the stream is open and given up here, once.
        unsafe { ac_raw_close(RawHandle { at: self.raw.at }) }
    }
}
