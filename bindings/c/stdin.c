#include "ac.h"
#include <stdio.h>
static void print(const ac_match *found, size_t filled) {
    for (size_t i = 0; i < filled; i++) printf("%zu at %zu..%zu\n", found[i].pattern, found[i].start, found[i].end);
}
int main(void) {
    static char piece[65536];
    size_t len, taken, filled, ends[] = {5, 10, 17};
    ac_options options = AC_DEFAULTS;
    ac_searcher searcher = AC_EMPTY;
    ac_stream stream = AC_EMPTY;
    ac_match found[64];
    if (ac_open(&options, "applemapleSnapple", 17, ends, 3, &searcher) < 0) return 1;
    if (ac_stream_open(&searcher, AC_WALK, &stream) < 0) return 1;
    while ((len = fread(piece, 1, sizeof piece, stdin)) > 0)
        for (size_t at = 0; at < len; at += taken) {
            ac_stream_feed(&stream, piece + at, len - at, &taken, found, 64, &filled);
            print(found, filled);
        }
    do {
        ac_stream_end(&stream, found, 64, &filled);
        print(found, filled);
    } while (filled == 64);
    ac_stream_close(&stream);
    ac_close(&searcher);
}
