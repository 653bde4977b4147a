#include "ac.h"
#include <stdio.h>
int main(void) {
    static char piece[65536], out[65536];
    size_t len, taken, filled, ends[] = {5, 10, 17}, text_ends[] = {4, 7, 7};
    ac_options options = AC_DEFAULTS;
    ac_searcher searcher = AC_EMPTY;
    ac_replacer replacer = AC_EMPTY;
    if (ac_open(&options, "applemapleSnapple", 17, ends, 3, &searcher) < 0) return 1;
    if (ac_replacer_open(&searcher, "pearoak", 7, text_ends, 3, &replacer) < 0) return 1;
    while ((len = fread(piece, 1, sizeof piece, stdin)) > 0)
        for (size_t at = 0; at < len; at += taken) {
            ac_replacer_feed(&replacer, piece + at, len - at, &taken, out, sizeof out, &filled);
            fwrite(out, 1, filled, stdout);
        }
    do {
        ac_replacer_end(&replacer, out, sizeof out, &filled);
        fwrite(out, 1, filled, stdout);
    } while (filled == sizeof out);
    ac_replacer_close(&replacer);
    ac_close(&searcher);
    return ferror(stdin) || fclose(stdout) != 0;
}
