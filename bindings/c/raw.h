/* The exports of the proved static library ac_c. They do what ac.h says, but test no pointer: ac.c does, and the types of
   ../rust do. A slice is a pointer and a length, and its pointer isn't null, even if the length is 0. ac_raw_open,
   ac_raw_clone, ac_raw_stream_open and ac_raw_replacer_open free what `out` held, unless they return an error. */
#ifndef AC_RAW_H
#define AC_RAW_H
#include "ac.h"

/* The settings and the facts, without the sizes of ac.h. */
struct ac_raw_options { uint32_t match_kind, start_kind, engine, ignore_case, prefilter, byte_classes; size_t dense_depth; };
struct ac_raw_facts { size_t patterns, shortest, longest, memory; uint32_t engine, match_kind, start_kind; };

/* A searcher on the heap, or a stream or a replacer with its searcher, or nothing where `at` is null. */
typedef struct ac_raw_handle { void *at; } ac_raw_handle;
/* The right to read one: `at` is that of a handle, and isn't null. Each call has one of its own. */
typedef struct ac_raw_reader { const void *at; } ac_raw_reader;

uint32_t ac_raw_version(void);
int32_t ac_raw_open(const struct ac_raw_options *options, const uint8_t *bytes, size_t bytes_len, const size_t *ends,
                    size_t ends_len, ac_raw_handle *out);
int32_t ac_raw_clone(ac_raw_reader *searcher, ac_raw_handle *out);
void ac_raw_close(ac_raw_handle handle);
void ac_raw_facts(ac_raw_reader *searcher, struct ac_raw_facts *out);
int32_t ac_raw_find(ac_raw_reader *searcher, const uint8_t *haystack, size_t haystack_len, const ac_span *span, ac_match *out);
int32_t ac_raw_is_match(ac_raw_reader *searcher, const uint8_t *haystack, size_t haystack_len, const ac_span *span);
int32_t ac_raw_count(ac_raw_reader *searcher, const uint8_t *haystack, size_t haystack_len, const ac_span *span, size_t *count);
int32_t ac_raw_walk(ac_raw_reader *searcher, const uint8_t *haystack, size_t haystack_len, const ac_span *span,
                    ac_cursor *cursor, ac_match *out, size_t out_len, size_t *filled);
int32_t ac_raw_overlapping(ac_raw_reader *searcher, const uint8_t *haystack, size_t haystack_len, const ac_span *span,
                           ac_cursor *cursor, ac_match *out, size_t out_len, size_t *filled);
int32_t ac_raw_stream_open(ac_raw_reader *searcher, uint32_t mode, ac_raw_handle *out);
int32_t ac_raw_stream_feed(ac_raw_handle *stream, const uint8_t *piece, size_t piece_len, size_t *taken, ac_match *out,
                           size_t out_len, size_t *filled);
int32_t ac_raw_stream_end(ac_raw_handle *stream, ac_match *out, size_t out_len, size_t *filled);
int32_t ac_raw_stream_reset(ac_raw_handle *stream);
int32_t ac_raw_replacer_open(ac_raw_reader *searcher, const uint8_t *bytes, size_t bytes_len, const size_t *ends,
                             size_t ends_len, ac_raw_handle *out);
int32_t ac_raw_replacer_feed(ac_raw_handle *replacer, const uint8_t *piece, size_t piece_len, size_t *taken, uint8_t *out,
                             size_t out_len, size_t *filled);
int32_t ac_raw_replacer_end(ac_raw_handle *replacer, uint8_t *out, size_t out_len, size_t *filled);
int32_t ac_raw_replace(ac_raw_reader *searcher, const uint8_t *haystack, size_t haystack_len, const uint8_t *bytes,
                       size_t bytes_len, const size_t *ends, size_t ends_len, uint8_t *out, size_t out_len, size_t *needed);
#endif
