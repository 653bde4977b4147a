/* The calls of ac.h. They test pointers, which the proofs assume to be valid, and call the proved library. */
#include "raw.h"

/* Where the proved library has the fields of what crosses the boundary, on x86-64. */
_Static_assert(offsetof(struct ac_raw_options, engine) == 8 && offsetof(struct ac_raw_options, prefilter) == 16 &&
               offsetof(struct ac_raw_options, dense_depth) == 24 && sizeof(struct ac_raw_options) == 32, "options");
_Static_assert(offsetof(struct ac_raw_facts, memory) == 24 && offsetof(struct ac_raw_facts, engine) == 32 &&
               offsetof(struct ac_raw_facts, start_kind) == 40 && sizeof(struct ac_raw_facts) == 48, "facts");
_Static_assert(offsetof(ac_span, anchored) == 16 && offsetof(ac_span, earliest) == 20 && sizeof(ac_span) == 24, "spans");
_Static_assert(offsetof(ac_match, start) == 8 && offsetof(ac_match, end) == 16 && sizeof(ac_match) == 24, "matches");
_Static_assert(offsetof(ac_cursor, given) == 8 && sizeof(ac_cursor) == 16, "cursors");
_Static_assert(sizeof(ac_raw_handle) == sizeof(ac_searcher) && sizeof(ac_raw_handle) == sizeof(ac_stream) &&
               sizeof(ac_raw_handle) == sizeof(ac_replacer) && sizeof(ac_raw_reader) == sizeof(ac_searcher), "handles");

/* A slice that may be null where it is empty. */
static int is_slice(const void *at, size_t len) {
    return at || len == 0;
}

/* Stands in for the null pointer of an empty slice, since the library takes no null pointer. It is never read. */
static const size_t nothing[1];

static const void *slice(const void *at) {
    return at ? at : nothing;
}

static int is_open(const ac_searcher *searcher) {
    return searcher && searcher->at;
}

static int is_search(const ac_searcher *searcher, const void *haystack, size_t haystack_len, const ac_span *span) {
    return is_open(searcher) && is_slice(haystack, haystack_len) && span;
}

static ac_raw_reader reader_of(const ac_searcher *searcher) {
    return (ac_raw_reader){searcher->at};
}

uint32_t ac_version(void) {
    return ac_raw_version();
}

const char *ac_error_text(int32_t status) {
    switch (status) {
    case AC_OK: return "done";
    case AC_FOUND: return "something was found";
    case AC_ARGUMENTS: return "an argument is wrong";
    case AC_MEMORY: return "an allocation failed";
    case AC_LIMIT: return "too many patterns, a pattern too long, or too many states";
    case AC_ANCHORED: return "the searcher doesn't support anchored searches";
    case AC_UNANCHORED: return "the searcher doesn't support unanchored searches";
    case AC_OVERLAPPING: return "overlapping searches and listings need the match kind AC_STANDARD";
    case AC_EMPTY_PATTERN: return "a text in pieces can't be searched for an empty pattern";
    default: return "no such status";
    }
}

int32_t ac_open(const ac_options *options, const void *bytes, size_t bytes_len, const size_t *ends, size_t ends_len,
                ac_searcher *out) {
    if (!options || options->size != sizeof *options || !is_slice(bytes, bytes_len) || !is_slice(ends, ends_len) || !out ||
        out->at)
        return AC_ARGUMENTS;
    struct ac_raw_options settings = {options->match_kind, options->start_kind, options->engine, options->ignore_case,
                                      options->prefilter, options->byte_classes, options->dense_depth};
    ac_raw_handle handle = {0};
    int32_t status = ac_raw_open(&settings, slice(bytes), bytes_len, slice(ends), ends_len, &handle);
    out->at = handle.at;
    return status;
}

int32_t ac_clone(const ac_searcher *searcher, ac_searcher *out) {
    if (!is_open(searcher) || !out || out->at)
        return AC_ARGUMENTS;
    ac_raw_reader reader = reader_of(searcher);
    ac_raw_handle handle = {0};
    int32_t status = ac_raw_clone(&reader, &handle);
    out->at = handle.at;
    return status;
}

void ac_close(ac_searcher *searcher) {
    if (!is_open(searcher))
        return;
    ac_raw_close((ac_raw_handle){searcher->at});
    searcher->at = 0;
}

int32_t ac_describe(const ac_searcher *searcher, ac_facts *out) {
    if (!is_open(searcher) || !out || out->size != sizeof *out)
        return AC_ARGUMENTS;
    ac_raw_reader reader = reader_of(searcher);
    struct ac_raw_facts facts;
    ac_raw_facts(&reader, &facts);
    *out = (ac_facts){sizeof *out, facts.patterns, facts.shortest, facts.longest, facts.memory, facts.engine, facts.match_kind,
                      facts.start_kind};
    return AC_OK;
}

int32_t ac_find(const ac_searcher *searcher, const void *haystack, size_t haystack_len, const ac_span *span, ac_match *out) {
    if (!is_search(searcher, haystack, haystack_len, span) || !out)
        return AC_ARGUMENTS;
    ac_raw_reader reader = reader_of(searcher);
    return ac_raw_find(&reader, slice(haystack), haystack_len, span, out);
}

int32_t ac_is_match(const ac_searcher *searcher, const void *haystack, size_t haystack_len, const ac_span *span) {
    if (!is_search(searcher, haystack, haystack_len, span))
        return AC_ARGUMENTS;
    ac_raw_reader reader = reader_of(searcher);
    return ac_raw_is_match(&reader, slice(haystack), haystack_len, span);
}

int32_t ac_count(const ac_searcher *searcher, const void *haystack, size_t haystack_len, const ac_span *span, size_t *count) {
    if (!is_search(searcher, haystack, haystack_len, span) || !count)
        return AC_ARGUMENTS;
    ac_raw_reader reader = reader_of(searcher);
    return ac_raw_count(&reader, slice(haystack), haystack_len, span, count);
}

int32_t ac_walk(const ac_searcher *searcher, const void *haystack, size_t haystack_len, const ac_span *span,
                ac_cursor *cursor, ac_match *out, size_t out_len, size_t *filled) {
    ac_match none;
    if (filled)
        *filled = 0;
    if (!is_search(searcher, haystack, haystack_len, span) || !cursor || !is_slice(out, out_len) || !filled)
        return AC_ARGUMENTS;
    ac_raw_reader reader = reader_of(searcher);
    return ac_raw_walk(&reader, slice(haystack), haystack_len, span, cursor, out ? out : &none, out_len, filled);
}

int32_t ac_overlapping(const ac_searcher *searcher, const void *haystack, size_t haystack_len, const ac_span *span,
                       ac_cursor *cursor, ac_match *out, size_t out_len, size_t *filled) {
    ac_match none;
    if (filled)
        *filled = 0;
    if (!is_search(searcher, haystack, haystack_len, span) || !cursor || !is_slice(out, out_len) || !filled)
        return AC_ARGUMENTS;
    ac_raw_reader reader = reader_of(searcher);
    return ac_raw_overlapping(&reader, slice(haystack), haystack_len, span, cursor, out ? out : &none, out_len, filled);
}

int32_t ac_replace(const ac_searcher *searcher, const void *haystack, size_t haystack_len, const void *bytes,
                   size_t bytes_len, const size_t *ends, size_t ends_len, void *out, size_t out_len, size_t *needed) {
    uint8_t none;
    if (!is_open(searcher) || !is_slice(haystack, haystack_len) || !is_slice(bytes, bytes_len) ||
        !is_slice(ends, ends_len) || !is_slice(out, out_len) || !needed)
        return AC_ARGUMENTS;
    ac_raw_reader reader = reader_of(searcher);
    return ac_raw_replace(&reader, slice(haystack), haystack_len, slice(bytes), bytes_len, slice(ends), ends_len,
                          out ? out : &none, out_len, needed);
}

static int is_stream(const ac_stream *stream) {
    return stream && stream->at;
}

int32_t ac_stream_open(const ac_searcher *searcher, uint32_t mode, ac_stream *out) {
    if (!is_open(searcher) || !out || out->at)
        return AC_ARGUMENTS;
    ac_raw_reader reader = reader_of(searcher);
    ac_raw_handle handle = {0};
    int32_t status = ac_raw_stream_open(&reader, mode, &handle);
    out->at = handle.at;
    return status;
}

int32_t ac_stream_feed(ac_stream *stream, const void *piece, size_t piece_len, size_t *taken, ac_match *out, size_t out_len,
                       size_t *filled) {
    ac_match none;
    if (taken)
        *taken = 0;
    if (filled)
        *filled = 0;
    if (!is_stream(stream) || !is_slice(piece, piece_len) || !taken || !is_slice(out, out_len) || !filled)
        return AC_ARGUMENTS;
    ac_raw_handle handle = {stream->at};
    int32_t status = ac_raw_stream_feed(&handle, slice(piece), piece_len, taken, out ? out : &none, out_len, filled);
    stream->at = handle.at;
    return status;
}

int32_t ac_stream_end(ac_stream *stream, ac_match *out, size_t out_len, size_t *filled) {
    ac_match none;
    if (filled)
        *filled = 0;
    if (!is_stream(stream) || !is_slice(out, out_len) || !filled)
        return AC_ARGUMENTS;
    ac_raw_handle handle = {stream->at};
    int32_t status = ac_raw_stream_end(&handle, out ? out : &none, out_len, filled);
    stream->at = handle.at;
    return status;
}

int32_t ac_stream_reset(ac_stream *stream) {
    if (!is_stream(stream))
        return AC_ARGUMENTS;
    ac_raw_handle handle = {stream->at};
    int32_t status = ac_raw_stream_reset(&handle);
    stream->at = handle.at;
    return status;
}

void ac_stream_close(ac_stream *stream) {
    if (!is_stream(stream))
        return;
    ac_raw_close((ac_raw_handle){stream->at});
    stream->at = 0;
}

static int is_replacer(const ac_replacer *replacer) {
    return replacer && replacer->at;
}

int32_t ac_replacer_open(const ac_searcher *searcher, const void *bytes, size_t bytes_len, const size_t *ends, size_t ends_len,
                         ac_replacer *out) {
    if (!is_open(searcher) || !is_slice(bytes, bytes_len) || !is_slice(ends, ends_len) || !out || out->at)
        return AC_ARGUMENTS;
    ac_raw_reader reader = reader_of(searcher);
    ac_raw_handle handle = {0};
    int32_t status = ac_raw_replacer_open(&reader, slice(bytes), bytes_len, slice(ends), ends_len, &handle);
    out->at = handle.at;
    return status;
}

int32_t ac_replacer_feed(ac_replacer *replacer, const void *piece, size_t piece_len, size_t *taken, void *out, size_t out_len,
                         size_t *filled) {
    uint8_t none;
    if (taken)
        *taken = 0;
    if (filled)
        *filled = 0;
    if (!is_replacer(replacer) || !is_slice(piece, piece_len) || !taken || !is_slice(out, out_len) || !filled)
        return AC_ARGUMENTS;
    ac_raw_handle handle = {replacer->at};
    int32_t status = ac_raw_replacer_feed(&handle, slice(piece), piece_len, taken, out ? out : &none, out_len, filled);
    replacer->at = handle.at;
    return status;
}

int32_t ac_replacer_end(ac_replacer *replacer, void *out, size_t out_len, size_t *filled) {
    uint8_t none;
    if (filled)
        *filled = 0;
    if (!is_replacer(replacer) || !is_slice(out, out_len) || !filled)
        return AC_ARGUMENTS;
    ac_raw_handle handle = {replacer->at};
    int32_t status = ac_raw_replacer_end(&handle, out ? out : &none, out_len, filled);
    replacer->at = handle.at;
    return status;
}

void ac_replacer_close(ac_replacer *replacer) {
    if (!is_replacer(replacer))
        return;
    ac_raw_close((ac_raw_handle){replacer->at});
    replacer->at = 0;
}
