/* Measures a replacement in one call of the C library (ac_replace) beside one by pieces of 64 KiB (ac_replacer_feed), by turns, over 64 MiB
   in which a word of the list stands every so many bytes, or never. Prints rows: the best of five turns, in milliseconds.

       cc -O2 -Ibindings/c bench/replacer.c bindings/c/out/libac.a -o replacer && ./replacer */
#include "ac.h"
#include <stdio.h>
#include <stdlib.h>
#include <string.h>
#include <time.h>

enum { PIECE = 65536, LEN = 64 << 20, TURNS = 5 };

static const char words[] = "applemapleSnapple", texts[] = "pearfig";
static const size_t ends[] = {5, 10, 17}, text_ends[] = {4, 7, 7};
static char text[LEN], out[LEN];

static double now(void) {
    struct timespec at;
    clock_gettime(CLOCK_MONOTONIC, &at);
    return 1e3 * (double)at.tv_sec + 1e-6 * (double)at.tv_nsec;
}

static void write_text(size_t every) {
    for (size_t i = 0; i < LEN; i++)
        text[i] = "bcdefghijklmnoqrstuvwxyz \n"[(i * 2654435761u >> 13) % 26];
    for (size_t i = 0; every && i + 5 <= LEN; i += every)
        memcpy(text + i, "apple", 5);
}

static size_t at_once(const ac_searcher *searcher) {
    size_t needed = 0;
    if (ac_replace(searcher, text, LEN, texts, 7, text_ends, 3, out, LEN, &needed))
        exit(1);
    return needed;
}

static size_t by_pieces(const ac_searcher *searcher, size_t room) {
    ac_replacer replacer = AC_EMPTY;
    if (ac_replacer_open(searcher, texts, 7, text_ends, 3, &replacer))
        exit(1);
    size_t taken, filled, written = 0;
    for (size_t at = 0; at < LEN; at += taken) {
        ac_replacer_feed(&replacer, text + at, LEN - at < PIECE ? LEN - at : PIECE, &taken, out, room, &filled);
        written += filled;
    }
    do {
        ac_replacer_end(&replacer, out, room, &filled);
        written += filled;
    } while (filled == room);
    ac_replacer_close(&replacer);
    return written;
}

static void measure(uint32_t kind, size_t every, size_t room) {
    ac_options options = AC_DEFAULTS;
    options.match_kind = kind;
    ac_searcher searcher = AC_EMPTY;
    if (ac_open(&options, words, 17, ends, 3, &searcher))
        exit(1);
    write_text(every);
    double best[2] = {1e9, 1e9};
    for (int turn = 0; turn < TURNS; turn++) {
        double first = now();
        size_t whole = at_once(&searcher);
        double second = now();
        size_t written = by_pieces(&searcher, room);
        double third = now();
        if (whole != written)
            exit(1);
        best[0] = second - first < best[0] ? second - first : best[0];
        best[1] = third - second < best[1] ? third - second : best[1];
    }
    printf("%u\t%zu\t%zu\t%.0f\t%.0f\n", kind, every, room, best[0], best[1]);
    ac_close(&searcher);
}

int main(void) {
    puts("kind\ta word every\troom\tat once, ms\tby pieces, ms");
    for (uint32_t kind = AC_STANDARD; kind <= AC_LEFTMOST_FIRST; kind++) {
        measure(kind, 0, PIECE);
        measure(kind, 1000, PIECE);
        measure(kind, 64, PIECE);
        measure(kind, 8, PIECE);
        measure(kind, 64, 16);
    }
}
