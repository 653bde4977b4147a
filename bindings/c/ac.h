/* Aho-Corasick: searches a haystack of bytes for many patterns at once. The searcher under these calls is proved to find
   what this header says.

   #include "ac.h"
   #include <stdio.h>
   int main(void) {
       const char text[] = "Nobody likes maple in their apple flavored Snapple.";
       size_t filled = 0, ends[] = {5, 10, 17};
       ac_options options = AC_DEFAULTS;
       ac_searcher searcher = AC_EMPTY;
       ac_span span = AC_WHOLE(sizeof text - 1);
       ac_cursor cursor = {0, 0};
       ac_match found[8];
       if (ac_open(&options, "applemapleSnapple", 17, ends, 3, &searcher) == AC_OK)
           ac_walk(&searcher, text, sizeof text - 1, &span, &cursor, found, 8, &filled);
       for (size_t i = 0; i < filled; i++) printf("%zu at %zu..%zu\n", found[i].pattern, found[i].start, found[i].end);
       ac_close(&searcher);
   }

   What is found. A pattern occurs in a span of the haystack where its bytes are, all of them inside the span. Patterns are
   numbered from 0, in the order of the list. Of all occurrences the match kind picks one, the match:
     AC_STANDARD          the one that ends first, of these the one that starts first
     AC_LEFTMOST_FIRST    the one that starts first, of these the one with the least number
     AC_LEFTMOST_LONGEST  the one that starts first, of these the longest
   and of equal ones the one with the least number. With `earliest` every kind picks as AC_STANDARD does.

   What the caller owes in every call:
   - A pointer with a length points to that many bytes, numbers or matches, which may be read, and written if the call writes
     there. If the length is 0 the pointer may be null.
   - What a call writes overlaps nothing else that the same call reads or writes. No call writes to what it only reads.
   - A searcher is empty, which is all zero, or comes from ac_open or ac_clone and wasn't closed. A copy of the struct is the
     same searcher: closing one closes both. So it is with a stream, which comes from ac_stream_open, and with a replacer, which
     comes from ac_replacer_open.

   Threads. Any number of them may use one searcher at once, in the calls that take a `const ac_searcher *`: they leave it
   as it was, and no search waits for another. The caller owes that
   - what one call writes (a cursor, matches, bytes, numbers, a stream, a replacer, another searcher) no other call uses
     meanwhile: a walk, a listing, a stream or a replacer is for one thread at a time, but many of them may go over one searcher
     at once;
   - ac_close waits for all: it is called once every other call with this searcher has returned;
   - between threads these are ordered, as the use of a searcher after ac_open or ac_clone is: by the start or the join of a
     thread, a lock, or an atomic of memory_order_seq_cst;
   - a signal handler uses no searcher, and no clone of one, that a call may be using.
   With ac_clone each thread has a searcher of its own, which it closes when it likes. */
#ifndef AC_H
#define AC_H
#include <stddef.h>
#include <stdint.h>
#ifdef __cplusplus
extern "C" {
#endif

/* major * 10000 + minor * 100 + patch; ac_version() returns that of the library that was linked. */
#define AC_VERSION 100

/* What a call returns. Below 0 it is an error: the call has done nothing, except that *filled is 0. So what is found can be
   tested by `ac_find(..) > 0`. */
enum {
    AC_OK = 0,           /* done; nothing was found, where something is looked for */
    AC_FOUND = 1,        /* something was found */
    AC_ARGUMENTS = -1,   /* a null pointer, an empty searcher, or an argument that the call rules out */
    AC_MEMORY = -2,      /* an allocation failed */
    AC_LIMIT = -3,       /* too many patterns, a pattern too long, or too many states */
    AC_ANCHORED = -4,    /* the searcher doesn't support anchored searches */
    AC_UNANCHORED = -5,  /* the searcher doesn't support unanchored searches */
    AC_OVERLAPPING = -6, /* overlapping searches and listings need AC_STANDARD */
    AC_EMPTY_PATTERN = -7 /* a text in pieces can't be searched for an empty pattern */
};

/* Returns what a status says, in English, or "no such status". The text is the library's. */
const char *ac_error_text(int32_t status);

enum { AC_STANDARD = 0, AC_LEFTMOST_FIRST = 1, AC_LEFTMOST_LONGEST = 2 };                    /* match_kind */
enum { AC_START_UNANCHORED = 0, AC_START_ANCHORED = 1, AC_START_BOTH = 2 };                  /* start_kind */
enum { AC_AUTO = 0, AC_NONCONTIGUOUS_NFA = 1, AC_CONTIGUOUS_NFA = 2, AC_DFA = 3 };           /* engine */

/* A searcher. Who opens or clones it owns it, and has to close it. */
typedef struct ac_searcher { void *at; } ac_searcher;
#define AC_EMPTY { 0 }

/* The search of a text that comes in pieces. Who opens it owns it, and has to close it. */
typedef struct ac_stream { void *at; } ac_stream;
enum { AC_WALK = 0, AC_LISTING = 1 };                                                        /* what a stream gives */

/* The replacement in a text that comes in pieces. Who opens it owns it, and has to close it. */
typedef struct ac_replacer { void *at; } ac_replacer;

/* The settings of a searcher; ignore_case, prefilter and byte_classes are 0 or 1. start_kind says which searches it supports;
   with ignore_case the two cases of an ASCII letter are the same. engine and the last three change no answer. `size` is that of
   the struct, so that a later version may have more settings. */
typedef struct ac_options {
    size_t size;
    uint32_t match_kind, start_kind, engine, ignore_case, prefilter, byte_classes;
    size_t dense_depth;
} ac_options;
#define AC_DEFAULTS { sizeof(ac_options), AC_STANDARD, AC_START_UNANCHORED, AC_AUTO, 0, 1, 1, 2 }

/* What is searched, and how: from byte start up to byte end, as if there were nothing else. The other two are 0 or 1. In an
   anchored search a match has to begin at start; in a walk, where the match before it ended. */
typedef struct ac_span { size_t start, end; uint32_t anchored, earliest; } ac_span;
#define AC_WHOLE(haystack_len) { 0, (haystack_len), 0, 0 }

typedef struct ac_match { size_t pattern, start, end; } ac_match;
/* How far a walk or a listing has come. {0, 0} begins one; any numbers are safe. */
typedef struct ac_cursor { size_t at, given; } ac_cursor;
/* engine is never AC_AUTO. Without patterns shortest is SIZE_MAX, and longest is 0. The caller sets `size` to the size of the
   struct, as AC_NO_FACTS does. */
typedef struct ac_facts { size_t size, patterns, shortest, longest, memory; uint32_t engine, match_kind, start_kind; } ac_facts;
#define AC_NO_FACTS { sizeof(ac_facts), 0, 0, 0, 0, 0, 0, 0 }

uint32_t ac_version(void);

/* Builds a searcher. `bytes` has all patterns one after another: pattern i ends before ends[i], and begins where the one
   before it ended. A pattern may be empty. The searcher keeps a copy of them.
   AC_OK; AC_ARGUMENTS if an option has no such value, or their size isn't that of ac_options, if ends go down or past bytes_len,
   or if `out` isn't empty; AC_MEMORY; AC_LIMIT. */
int32_t ac_open(const ac_options *options, const void *bytes, size_t bytes_len, const size_t *ends, size_t ends_len,
                ac_searcher *out);

/* Leaves in `out` a searcher that does the same. Both share one engine, so this takes no time and a few bytes; each has to be
   closed, and the last one frees the engine. AC_OK; AC_ARGUMENTS if `out` isn't empty; AC_MEMORY. Unless it is AC_OK, `out`
   is as it was. */
int32_t ac_clone(const ac_searcher *searcher, ac_searcher *out);

/* Frees a searcher, and leaves it empty. Does nothing if it is empty or null. */
void ac_close(ac_searcher *searcher);

/* Writes the facts of a searcher. AC_OK; AC_ARGUMENTS if their size isn't that of ac_facts. */
int32_t ac_describe(const ac_searcher *searcher, ac_facts *out);

/* The searches. Each also returns AC_ARGUMENTS if the span starts past its end, ends past the haystack, or has a setting above
   1; and AC_ANCHORED or AC_UNANCHORED if start_kind doesn't support the search. None takes memory. */

/* Writes the match in the span. AC_FOUND; or AC_OK if no pattern occurs, and `out` is as it was. */
int32_t ac_find(const ac_searcher *searcher, const void *haystack, size_t haystack_len, const ac_span *span, ac_match *out);

/* Returns what ac_find returns. It stops as soon as it knows of an occurrence. */
int32_t ac_is_match(const ac_searcher *searcher, const void *haystack, size_t haystack_len, const ac_span *span);

/* Writes how many matches a walk has in all. AC_OK. */
int32_t ac_count(const ac_searcher *searcher, const void *haystack, size_t haystack_len, const ac_span *span, size_t *count);

/* Writes the next matches of a walk, at most out_len, and how many they are, and moves the cursor past them. A walk has the
   match in the span, then the match in what follows it, and so on; an empty match is left out where the one before it ended.
   Fewer than out_len are written only if no more follow. AC_OK. Pass the same span and haystack in all calls of a walk.
   Under a leftmost kind a call that goes on may read as many bytes again as the longest pattern has. So where out_len is small
   and patterns are long, as when others choose them, walk by a stream (ac_stream_feed), which reads each byte once. */
int32_t ac_walk(const ac_searcher *searcher, const void *haystack, size_t haystack_len, const ac_span *span,
                ac_cursor *cursor, ac_match *out, size_t out_len, size_t *filled);

/* The same for a listing: every occurrence, ordered by end, then start, then number. Also AC_OVERLAPPING if the searcher
   isn't AC_STANDARD, and AC_ANCHORED if the span is anchored. A call that goes on reads as many bytes again as the longest
   pattern has, and lists what ends in them again: a stream does not. */
int32_t ac_overlapping(const ac_searcher *searcher, const void *haystack, size_t haystack_len, const ac_span *span,
                       ac_cursor *cursor, ac_match *out, size_t out_len, size_t *filled);

/* Replaces each match of a walk over the whole haystack by the text of its pattern. `bytes` and `ends` are the texts, one for
   each pattern, as in ac_open. Writes the length of the result to *needed, and the result to `out` if out_len is enough; else
   `out` is as it was. AC_OK; AC_ARGUMENTS if there aren't as many texts as patterns, or if ends go down or past bytes_len;
   AC_UNANCHORED; AC_MEMORY. Where you don't know the length, a replacer (ac_replacer_feed) writes the result in one pass. */
int32_t ac_replace(const ac_searcher *searcher, const void *haystack, size_t haystack_len, const void *bytes,
                   size_t bytes_len, const size_t *ends, size_t ends_len, void *out, size_t out_len, size_t *needed);

/* The search of a text that comes in pieces, as from a file or a socket. Each piece is handed to ac_stream_feed, which keeps
   no byte of it. Found is what ac_walk or ac_overlapping finds in the whole text, however it is cut; offsets count from its
   beginning. A match is written once no byte to come can change it: in a listing and under AC_STANDARD when its last byte is
   taken, else at most one byte after that is so. A stream shares the engine of its searcher, which may be closed before it.
   Only ac_stream_open takes memory. All calls on a stream read each byte once. This finds in standard input, with 64 KiB and
   no more:

       #include "ac.h"
       #include <stdio.h>
       static void print(const ac_match *found, size_t filled) {
           for (size_t i = 0; i < filled; i++) printf("%zu at %zu..%zu\n", found[i].pattern, found[i].start, found[i].end);
       }
       int main(void) {
           static char piece[65536];
           size_t len, taken, filled, ends[] = {5, 10, 17};
           ac_options options = AC_DEFAULTS;
           ac_searcher searcher = AC_EMPTY;
           ac_stream stream = AC_EMPTY;
           ac_match found[64];
           if (ac_open(&options, "applemapleSnapple", 17, ends, 3, &searcher) < 0) return 1;
           if (ac_stream_open(&searcher, AC_WALK, &stream) < 0) return 1;
           while ((len = fread(piece, 1, sizeof piece, stdin)) > 0)
               for (size_t at = 0; at < len; at += taken) {
                   ac_stream_feed(&stream, piece + at, len - at, &taken, found, 64, &filled);
                   print(found, filled);
               }
           do {
               ac_stream_end(&stream, found, 64, &filled);
               print(found, filled);
           } while (filled == 64);
           ac_stream_close(&stream);
           ac_close(&searcher);
       } */

/* Begins the search of a text. AC_OK; AC_ARGUMENTS if there is no such mode, or if `out` isn't empty; AC_UNANCHORED if the
   searcher doesn't support unanchored searches; AC_OVERLAPPING for a listing if it isn't AC_STANDARD; AC_EMPTY_PATTERN;
   AC_MEMORY. */
int32_t ac_stream_open(const ac_searcher *searcher, uint32_t mode, ac_stream *out);

/* Takes bytes of a piece, and writes how many to *taken; writes the next matches, at most out_len, and how many they are. What
   wasn't taken is fed again, before what follows it. Fewer than out_len are written only if the piece was taken whole and no
   more matches are settled. AC_OK; AC_ARGUMENTS also if the piece isn't empty though ac_stream_end was called. Unless it is
   AC_OK, *taken and *filled are 0, and the stream is as it was. */
int32_t ac_stream_feed(ac_stream *stream, const void *piece, size_t piece_len, size_t *taken, ac_match *out, size_t out_len,
                       size_t *filled);

/* Says that nothing follows, and writes the next of the matches that are left. Fewer than out_len are written only if no more are
   left; else it is called again. AC_OK. */
int32_t ac_stream_end(ac_stream *stream, ac_match *out, size_t out_len, size_t *filled);

/* Begins the search of another text, from offset 0. AC_OK; or AC_MEMORY if more share its engine than a size_t counts: then the
   stream is as it was. */
int32_t ac_stream_reset(ac_stream *stream);

/* Frees a stream, and leaves it empty. Does nothing if it is empty or null. */
void ac_stream_close(ac_stream *stream);

/* The replacement in a text that comes in pieces. Each piece is handed to ac_replacer_feed. What the calls write, one after
   another, is the result: what ac_replace gives for the whole text, however it is cut and however much room each call has. A call
   writes what is settled, which no byte to come can change: the text of a match once ac_stream_feed would write the match, and
   any other byte at the latest once as many bytes of the text came after it as the longest pattern has. A replacer shares the
   engine of its searcher, which may be closed before it. Only ac_replacer_open takes memory: for a copy of the texts, and for a
   buffer of 65,536 bytes, or of eight times as many as the longest pattern has if that is more. This copies standard input to
   standard output and replaces three words in it, with three buffers of 64 KiB, one of which is the replacer's:

       #include "ac.h"
       #include <stdio.h>
       int main(void) {
           static char piece[65536], out[65536];
           size_t len, taken, filled, ends[] = {5, 10, 17}, text_ends[] = {4, 7, 7};
           ac_options options = AC_DEFAULTS;
           ac_searcher searcher = AC_EMPTY;
           ac_replacer replacer = AC_EMPTY;
           if (ac_open(&options, "applemapleSnapple", 17, ends, 3, &searcher) < 0) return 1;
           if (ac_replacer_open(&searcher, "pearoak", 7, text_ends, 3, &replacer) < 0) return 1;
           while ((len = fread(piece, 1, sizeof piece, stdin)) > 0)
               for (size_t at = 0; at < len; at += taken) {
                   ac_replacer_feed(&replacer, piece + at, len - at, &taken, out, sizeof out, &filled);
                   fwrite(out, 1, filled, stdout);
               }
           do {
               ac_replacer_end(&replacer, out, sizeof out, &filled);
               fwrite(out, 1, filled, stdout);
           } while (filled == sizeof out);
           ac_replacer_close(&replacer);
           ac_close(&searcher);
           return ferror(stdin) || fclose(stdout) != 0;
       } */

/* Begins the replacement in a text. `bytes` and `ends` are the texts that replace matches, one for each pattern, as in
   ac_replace. AC_OK; AC_ARGUMENTS if there aren't as many texts as patterns, if ends go down or past bytes_len, or if `out` isn't
   empty; AC_UNANCHORED if the searcher doesn't support unanchored searches; AC_EMPTY_PATTERN; AC_MEMORY. Unless it is AC_OK,
   `out` is as it was. */
int32_t ac_replacer_open(const ac_searcher *searcher, const void *bytes, size_t bytes_len, const size_t *ends, size_t ends_len,
                         ac_replacer *out);

/* Takes bytes of a piece, and writes how many to *taken; writes the next bytes of the result, at most out_len, and how many they
   are. What wasn't taken is fed again, before what follows it. Fewer than out_len are written only if the piece was taken whole
   and no more of the result is settled; if out_len is 0, nothing is taken. AC_OK; AC_ARGUMENTS also if the piece isn't empty
   though ac_replacer_end was called. Unless it is AC_OK, *taken and *filled are 0, and the replacer is as it was. */
int32_t ac_replacer_feed(ac_replacer *replacer, const void *piece, size_t piece_len, size_t *taken, void *out, size_t out_len,
                         size_t *filled);

/* Says that nothing follows, and writes the next bytes of what is left of the result. Fewer than out_len are written only if no
   more are left; else it is called again. AC_OK. */
int32_t ac_replacer_end(ac_replacer *replacer, void *out, size_t out_len, size_t *filled);

/* Frees a replacer, and leaves it empty. Does nothing if it is empty or null. */
void ac_replacer_close(ac_replacer *replacer);

#ifdef __cplusplus
}
#endif
#endif
