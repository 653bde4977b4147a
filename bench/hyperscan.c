/* Measures the listing by a stream of the C library beside Hyperscan's streaming mode, over the same pieces of 64 KiB, by turns. Prints
   a row: the best of so many turns, in megabytes a second, and the number of matches, which is the same.

       cc -O2 -Ibindings/c bench/hyperscan.c bindings/c/out/libac.a -lhs -o hyperscan && ./hyperscan NAME PATTERNS TEXT TURNS

   PATTERNS is a file with a pattern on each line, and TEXT one with the text. Hyperscan reports where matches end, and not where they
   start: to report that too costs it more. */
#include "ac.h"
#include <hs/hs.h>
#include <stdio.h>
#include <stdlib.h>
#include <string.h>
#include <time.h>

enum { PIECE = 65536, ROOM = 512, MOST = 20000 };

static char *text, *lines, *patterns[MOST];
static size_t text_len, patterns_len;

static char *contents(const char *path, size_t *len) {
    FILE *file = fopen(path, "rb");
    if (!file || fseek(file, 0, SEEK_END))
        exit(1);
    *len = (size_t)ftell(file);
    rewind(file);
    char *all = malloc(*len + 1);
    if (!all || fread(all, 1, *len, file) != *len)
        exit(1);
    all[*len] = 0;
    fclose(file);
    return all;
}

static double now(void) {
    struct timespec at;
    clock_gettime(CLOCK_MONOTONIC, &at);
    return (double)at.tv_sec + 1e-9 * (double)at.tv_nsec;
}

static ac_stream our_stream(uint32_t engine) {
    size_t len = 0, *ends = malloc(patterns_len * sizeof *ends);
    char *bytes = malloc(strlen(lines) + text_len + 1);
    for (size_t i = 0; i < patterns_len; i++) {
        memcpy(bytes + len, patterns[i], strlen(patterns[i]));
        ends[i] = len += strlen(patterns[i]);
    }
    ac_options options = AC_DEFAULTS;
    options.engine = engine;
    ac_searcher searcher = AC_EMPTY;
    ac_stream stream = AC_EMPTY;
    if (ac_open(&options, bytes, len, ends, patterns_len, &searcher) || ac_stream_open(&searcher, AC_LISTING, &stream))
        exit(1);
    ac_close(&searcher);
    return stream;
}

static size_t ours(ac_stream *stream) {
    static ac_match found[ROOM];
    size_t count = 0, taken, filled;
    ac_stream_reset(stream);
    for (size_t at = 0; at < text_len; at += PIECE) {
        size_t len = text_len - at < PIECE ? text_len - at : PIECE, done = 0;
        do {
            ac_stream_feed(stream, text + at + done, len - done, &taken, found, ROOM, &filled);
            done += taken;
            count += filled;
        } while (filled == ROOM);
    }
    return count;
}

static int one_more(unsigned id, unsigned long long from, unsigned long long to, unsigned flags, void *count) {
    (void)id, (void)from, (void)to, (void)flags;
    ++*(size_t *)count;
    return 0;
}

static hs_database_t *their_database(void) {
    unsigned ids[MOST], flags[MOST] = {0};
    size_t lens[MOST];
    hs_database_t *database;
    hs_compile_error_t *error;
    for (size_t i = 0; i < patterns_len; i++)
        ids[i] = (unsigned)i, lens[i] = strlen(patterns[i]);
    if (hs_compile_lit_multi((const char *const *)patterns, flags, ids, lens, (unsigned)patterns_len, HS_MODE_STREAM, NULL,
                             &database, &error))
        exit(1);
    return database;
}

static size_t theirs(hs_database_t *database, hs_scratch_t *scratch) {
    size_t count = 0;
    hs_stream_t *stream;
    if (hs_open_stream(database, 0, &stream))
        exit(1);
    for (size_t at = 0; at < text_len; at += PIECE) {
        size_t len = text_len - at < PIECE ? text_len - at : PIECE;
        hs_scan_stream(stream, text + at, (unsigned)len, 0, scratch, one_more, &count);
    }
    hs_close_stream(stream, scratch, one_more, &count);
    return count;
}

int main(int argc, char **argv) {
    size_t lines_len, counts[3];
    if (argc != 5)
        return 1;
    lines = contents(argv[2], &lines_len);
    text = contents(argv[3], &text_len);
    for (char *line = strtok(lines, "\n"); line && patterns_len < MOST; line = strtok(NULL, "\n"))
        patterns[patterns_len++] = line;
    ac_stream by_default = our_stream(AC_AUTO), by_dfa = our_stream(AC_DFA);
    hs_database_t *database = their_database();
    hs_scratch_t *scratch = NULL;
    if (hs_alloc_scratch(database, &scratch))
        return 1;
    double best[3] = {1e9, 1e9, 1e9};
    for (int turn = 0; turn < atoi(argv[4]); turn++)
        for (int way = 0; way < 3; way++) {
            double before = now();
            counts[way] = way == 0 ? ours(&by_default) : way == 1 ? ours(&by_dfa) : theirs(database, scratch);
            double took = now() - before;
            best[way] = took < best[way] ? took : best[way];
        }
    double megabytes = 1e-6 * (double)text_len;
    printf("%s\t%.0f\t%.0f\t%.0f\t%zu\t%zu\n", argv[1], megabytes / best[0], megabytes / best[1], megabytes / best[2], counts[0],
           counts[2]);
    ac_stream_close(&by_default);
    ac_stream_close(&by_dfa);
    return counts[0] == counts[1] && counts[0] == counts[2] ? 0 : 1;
}
