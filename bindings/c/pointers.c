/* A test of ac.c alone, over exports that only look at their pointers: none is null, not even that of an empty slice. */
#include "raw.h"
#include <stdio.h>

static int32_t is_right(int has_all) {
    return has_all ? AC_OK : AC_LIMIT;
}

uint32_t ac_raw_version(void) {
    return AC_VERSION;
}

int32_t ac_raw_open(const struct ac_raw_options *options, const uint8_t *bytes, size_t bytes_len, const size_t *ends,
                    size_t ends_len, ac_raw_handle *out) {
    return is_right(options && bytes && !bytes_len && ends && !ends_len && out);
}

int32_t ac_raw_clone(ac_raw_reader *searcher, ac_raw_handle *out) {
    return is_right(searcher->at && out);
}

void ac_raw_close(ac_raw_handle handle) {
    (void)handle;
}

void ac_raw_facts(ac_raw_reader *searcher, struct ac_raw_facts *out) {
    *out = (struct ac_raw_facts){.patterns = searcher->at != NULL};
}

int32_t ac_raw_find(ac_raw_reader *searcher, const uint8_t *haystack, size_t haystack_len, const ac_span *span, ac_match *out) {
    return is_right(searcher->at && haystack && !haystack_len && span && out);
}

int32_t ac_raw_is_match(ac_raw_reader *searcher, const uint8_t *haystack, size_t haystack_len, const ac_span *span) {
    return is_right(searcher->at && haystack && !haystack_len && span);
}

int32_t ac_raw_count(ac_raw_reader *searcher, const uint8_t *haystack, size_t haystack_len, const ac_span *span,
                     size_t *count) {
    return is_right(searcher->at && haystack && !haystack_len && span && count);
}

int32_t ac_raw_walk(ac_raw_reader *searcher, const uint8_t *haystack, size_t haystack_len, const ac_span *span,
                    ac_cursor *cursor, ac_match *out, size_t out_len, size_t *filled) {
    return is_right(searcher->at && haystack && !haystack_len && span && cursor && out && !out_len && filled);
}

int32_t ac_raw_overlapping(ac_raw_reader *searcher, const uint8_t *haystack, size_t haystack_len, const ac_span *span,
                           ac_cursor *cursor, ac_match *out, size_t out_len, size_t *filled) {
    return ac_raw_walk(searcher, haystack, haystack_len, span, cursor, out, out_len, filled);
}

int32_t ac_raw_replace(ac_raw_reader *searcher, const uint8_t *haystack, size_t haystack_len, const uint8_t *bytes,
                       size_t bytes_len, const size_t *ends, size_t ends_len, uint8_t *out, size_t out_len, size_t *needed) {
    return is_right(searcher->at && haystack && !haystack_len && bytes && !bytes_len && ends && !ends_len && out && !out_len &&
                    needed);
}

int32_t ac_raw_stream_open(ac_raw_reader *searcher, uint32_t mode, ac_raw_handle *out) {
    return is_right(searcher->at && mode == AC_LISTING && out);
}

int32_t ac_raw_stream_feed(ac_raw_handle *stream, const uint8_t *piece, size_t piece_len, size_t *taken, ac_match *out,
                           size_t out_len, size_t *filled) {
    return is_right(stream->at && piece && !piece_len && taken && out && !out_len && filled);
}

int32_t ac_raw_stream_end(ac_raw_handle *stream, ac_match *out, size_t out_len, size_t *filled) {
    return is_right(stream->at && out && !out_len && filled);
}

int32_t ac_raw_stream_reset(ac_raw_handle *stream) {
    return is_right(stream->at != NULL);
}

int32_t ac_raw_replacer_open(ac_raw_reader *searcher, const uint8_t *bytes, size_t bytes_len, const size_t *ends,
                             size_t ends_len, ac_raw_handle *out) {
    return is_right(searcher->at && bytes && !bytes_len && ends && !ends_len && out && !out->at);
}

int32_t ac_raw_replacer_feed(ac_raw_handle *replacer, const uint8_t *piece, size_t piece_len, size_t *taken, uint8_t *out,
                             size_t out_len, size_t *filled) {
    return is_right(replacer->at && piece && !piece_len && taken && out && !out_len && filled);
}

int32_t ac_raw_replacer_end(ac_raw_handle *replacer, uint8_t *out, size_t out_len, size_t *filled) {
    return is_right(replacer->at && out && !out_len && filled);
}

int main(void) {
    const ac_options options = AC_DEFAULTS;
    const ac_span span = AC_WHOLE(0);
    ac_searcher empty = AC_EMPTY, searcher = {&empty};
    ac_stream none = AC_EMPTY, stream = {&empty};
    ac_replacer no_replacer = AC_EMPTY, replacer = {&empty};
    ac_cursor cursor = {0, 0};
    ac_match match;
    ac_facts facts = AC_NO_FACTS;
    size_t number, taken;
    const int32_t statuses[] = {
        ac_open(&options, NULL, 0, NULL, 0, &empty),
        ac_clone(&searcher, &empty),
        ac_describe(&searcher, &facts),
        ac_find(&searcher, NULL, 0, &span, &match),
        ac_is_match(&searcher, NULL, 0, &span),
        ac_count(&searcher, NULL, 0, &span, &number),
        ac_walk(&searcher, NULL, 0, &span, &cursor, NULL, 0, &number),
        ac_overlapping(&searcher, NULL, 0, &span, &cursor, NULL, 0, &number),
        ac_replace(&searcher, NULL, 0, NULL, 0, NULL, 0, NULL, 0, &number),
        ac_stream_open(&searcher, AC_LISTING, &none),
        ac_stream_feed(&stream, NULL, 0, &taken, NULL, 0, &number),
        ac_stream_end(&stream, NULL, 0, &number),
        ac_stream_reset(&stream),
        ac_replacer_open(&searcher, NULL, 0, NULL, 0, &no_replacer),
        ac_replacer_feed(&replacer, NULL, 0, &taken, NULL, 0, &number),
        ac_replacer_end(&replacer, NULL, 0, &number),
    };
    int faults = facts.patterns != 1;
    for (size_t i = 0; i < sizeof statuses / sizeof *statuses; i++)
        faults += statuses[i] != AC_OK;
    printf("%zu checks, %d faults found\n", sizeof statuses / sizeof *statuses, faults);
    return faults != 0;
}
