#include "ac.h"
#include <stdio.h>
int main(void) {
    const char text[] = "Nobody likes maple in their apple flavored Snapple.";
    size_t filled = 0, ends[] = {5, 10, 17};
    ac_options options = AC_DEFAULTS;
    ac_searcher searcher = AC_EMPTY;
    ac_span span = AC_WHOLE(sizeof text - 1);
    ac_cursor cursor = {0, 0};
    ac_match found[8];
    if (ac_open(&options, "applemapleSnapple", 17, ends, 3, &searcher) == AC_OK)
        ac_walk(&searcher, text, sizeof text - 1, &span, &cursor, found, 8, &filled);
    for (size_t i = 0; i < filled; i++) printf("%zu at %zu..%zu\n", found[i].pattern, found[i].start, found[i].end);
    ac_close(&searcher);
}
