/* Tests of the streams of ac.h: whatever the pieces and the room, a stream writes what a walk or a listing of the whole text
   does. Linked with --wrap for malloc and realloc, which count requests. */
#include "ac.h"
#include <stdio.h>
#include <stdlib.h>
#include <string.h>

static long checks, faults, requests;
#define CHECK(it) (checks++, (it) ? (void)0 : report(__LINE__, #it))

static void report(int line, const char *wanted) {
    if (faults++ < 20)
        printf("line %d: %s\n", line, wanted);
}

static int refuse;
void *__real_malloc(size_t size);
void *__real_realloc(void *from, size_t size);

void *__wrap_malloc(size_t size) {
    requests++;
    return refuse ? NULL : __real_malloc(size);
}

void *__wrap_realloc(void *from, size_t size) {
    requests++;
    return refuse ? NULL : __real_realloc(from, size);
}

/* Numbers below `bound`, the same in every run. */
static size_t below(size_t bound) {
    static uint64_t state = 1;
    state = state * 6364136223846793005u + 1442695040888963407u;
    return (size_t)(state >> 33) % bound;
}

enum { TEXT = 40, MOST = 512 };

typedef struct matches { ac_match at[MOST]; size_t len; } matches;

static int are_equal(const matches *a, const matches *b) {
    return a->len == b->len && !memcmp(a->at, b->at, a->len * sizeof *a->at);
}

/* All matches of a text, with room for all. */
static matches listed(const ac_searcher *searcher, uint32_t mode, const char *text, size_t len) {
    static matches all;
    ac_span span = AC_WHOLE(len);
    ac_cursor cursor = {0, 0};
    int32_t status = mode == AC_WALK ? ac_walk(searcher, text, len, &span, &cursor, all.at, MOST, &all.len)
                                     : ac_overlapping(searcher, text, len, &span, &cursor, all.at, MOST, &all.len);
    CHECK(status == AC_OK && all.len < MOST);
    return all;
}

/* The same by a stream, in pieces of at most `most` bytes, with room for so many; where these are 0, random ones. */
static matches streamed(ac_stream *stream, const char *text, size_t len, size_t most, size_t room) {
    static matches all;
    ac_match found[8];
    size_t taken, filled;
    all.len = 0;
    for (size_t at = 0; at < len;) {
        size_t piece = most ? most : below(5), some = room ? room : below(4);
        piece = piece < len - at ? piece : len - at;
        int32_t status = ac_stream_feed(stream, text + at, piece, &taken, found, some, &filled);
        CHECK(status == AC_OK);
        if (status != AC_OK)
            return all;
        CHECK(taken <= piece && filled <= some && (filled == some || taken == piece));
        memcpy(all.at + all.len, found, filled * sizeof *found);
        all.len += filled;
        at += taken;
        for (size_t i = 0; i < filled; i++)
            CHECK(found[i].end <= at);
    }
    do {
        CHECK(ac_stream_end(stream, found, 2, &filled) == AC_OK && filled <= 2);
        memcpy(all.at + all.len, found, filled * sizeof *found);
        all.len += filled;
    } while (filled == 2);
    return all;
}

/* A random list of words over two letters, without an empty one. */
static ac_searcher random_words(uint32_t kind, uint32_t engine) {
    char bytes[64];
    size_t ends[8], count = 1 + below(5), len = 0;
    for (size_t i = 0; i < count; i++) {
        for (size_t left = 1 + below(6); left > 0; left--)
            bytes[len++] = (char)('a' + below(2));
        ends[i] = len;
    }
    ac_options options = AC_DEFAULTS;
    options.match_kind = kind;
    options.engine = engine;
    ac_searcher searcher = AC_EMPTY;
    CHECK(ac_open(&options, bytes, len, ends, count, &searcher) == AC_OK);
    return searcher;
}

static ac_stream opened(const ac_searcher *searcher, uint32_t mode) {
    ac_stream stream = AC_EMPTY;
    CHECK(ac_stream_open(searcher, mode, &stream) == AC_OK && stream.at);
    return stream;
}

/* Each cut and each room has the matches of the whole, and a stream that begins anew has them again. */
static void check_pieces(const ac_searcher *searcher, uint32_t mode) {
    char text[TEXT];
    size_t len = below(TEXT);
    for (size_t i = 0; i < len; i++)
        text[i] = (char)('a' + below(2));
    matches wanted = listed(searcher, mode, text, len);
    ac_stream stream = opened(searcher, mode);
    long before = requests;
    for (size_t most = 0; most < 4; most++)
        for (size_t room = 0; room < 4; room++) {
            matches got = streamed(&stream, text, len, most, room);
            CHECK(are_equal(&got, &wanted));
            CHECK(ac_stream_reset(&stream) == AC_OK);
        }
    CHECK(requests == before);
    ac_stream_close(&stream);
    CHECK(!stream.at);
}

static void check_answers(void) {
    for (uint32_t engine = AC_AUTO; engine <= AC_DFA; engine++)
        for (uint32_t kind = AC_STANDARD; kind <= AC_LEFTMOST_LONGEST; kind++)
            for (int turn = 0; turn < 40; turn++) {
                ac_searcher searcher = random_words(kind, engine);
                check_pieces(&searcher, AC_WALK);
                if (kind == AC_STANDARD)
                    check_pieces(&searcher, AC_LISTING);
                ac_close(&searcher);
            }
}

/* A match is written when its last byte is taken under AC_STANDARD, and else as soon as no byte to come can change it. */
static void check_when(void) {
    struct { uint32_t mode, kind; const char *piece; size_t taken, filled; } rows[] = {
        {AC_WALK, AC_STANDARD, "xaby", 2, 1}, {AC_LISTING, AC_STANDARD, "xaby", 2, 1}, {AC_WALK, AC_LEFTMOST_FIRST, "xabc", 3, 1},
        {AC_WALK, AC_LEFTMOST_LONGEST, "xab", 3, 0}, {AC_WALK, AC_LEFTMOST_LONGEST, "xabab", 4, 1},
        {AC_WALK, AC_STANDARD, "", 0, 0}, {AC_WALK, AC_STANDARD, "xyz", 3, 0},
    };
    for (size_t i = 0; i < sizeof rows / sizeof *rows; i++) {
        ac_options options = AC_DEFAULTS;
        options.match_kind = rows[i].kind;
        ac_searcher searcher = AC_EMPTY;
        CHECK(ac_open(&options, "aabc", 4, (size_t[]){1, 4}, 2, &searcher) == AC_OK);
        ac_stream stream = opened(&searcher, rows[i].mode);
        ac_close(&searcher);
        ac_match found = {9, 9, 9};
        size_t taken = 9, filled = 9, len = strlen(rows[i].piece);
        CHECK(ac_stream_feed(&stream, rows[i].piece, len, &taken, &found, 1, &filled) == AC_OK);
        CHECK(taken == rows[i].taken && filled == rows[i].filled && (filled ? found.start == 1 : found.start == 9));
        ac_stream_close(&stream);
    }
}

/* A call that is refused takes nothing and writes nothing. */
#define REFUSES(it) CHECK((it) == AC_ARGUMENTS && !taken && !filled)

/* Calls in any order do no harm. */
static void check_wild(void) {
    ac_searcher searcher = random_words(AC_LEFTMOST_FIRST, AC_AUTO), empty = AC_EMPTY;
    ac_stream stream = AC_EMPTY, none = AC_EMPTY;
    ac_match found[4];
    size_t taken, filled;
    CHECK(ac_stream_open(&searcher, 2, &stream) == AC_ARGUMENTS);
    CHECK(ac_stream_open(&searcher, UINT32_MAX, &stream) == AC_ARGUMENTS);
    CHECK(ac_stream_open(&empty, AC_WALK, &stream) == AC_ARGUMENTS);
    CHECK(ac_stream_open(NULL, AC_WALK, &stream) == AC_ARGUMENTS);
    CHECK(ac_stream_open(&searcher, AC_WALK, NULL) == AC_ARGUMENTS);
    CHECK(ac_stream_open(&searcher, AC_LISTING, &stream) == AC_OVERLAPPING && !stream.at);
    refuse = 1;
    CHECK(ac_stream_open(&searcher, AC_WALK, &stream) == AC_MEMORY && !stream.at);
    refuse = 0;
    stream = opened(&searcher, AC_WALK);
    CHECK(ac_stream_open(&searcher, AC_WALK, &stream) == AC_ARGUMENTS);
    for (int turn = 0; turn < 4000; turn++) {
        size_t len = below(4), room = below(4);
        taken = filled = 9;
        switch (below(9)) {
        case 0: CHECK(ac_stream_reset(&stream) == AC_OK); break;
        case 1: CHECK(ac_stream_end(&stream, found, room, &filled) == AC_OK && filled <= room); break;
        case 2: CHECK(ac_stream_feed(&stream, NULL, 0, &taken, NULL, 0, &filled) == AC_OK && !taken && !filled); break;
        case 3: REFUSES(ac_stream_feed(&none, "ab", len % 3, &taken, found, room, &filled)); break;
        case 4: REFUSES(ac_stream_feed(&stream, NULL, 1, &taken, found, room, &filled)); break;
        case 5: REFUSES(ac_stream_feed(&stream, "ab", len % 3, &taken, NULL, 1, &filled)); break;
        case 6: CHECK(ac_stream_end(&stream, NULL, 1, &filled) == AC_ARGUMENTS && !filled); break;
        default: ac_stream_feed(&stream, "abb", len, &taken, found, room, &filled); CHECK(taken <= len && filled <= room);
        }
    }
    CHECK(ac_stream_end(&stream, found, 4, &filled) == AC_OK && ac_stream_end(&stream, found, 4, &filled) == AC_OK);
    CHECK(ac_stream_feed(&stream, "a", 1, &taken, found, 4, &filled) == AC_ARGUMENTS && !taken && !filled);
    CHECK(ac_stream_feed(&stream, "", 0, &taken, found, 4, &filled) == AC_OK && !taken);
    CHECK(ac_stream_end(&none, found, 4, &filled) == AC_ARGUMENTS && ac_stream_reset(&none) == AC_ARGUMENTS);
    CHECK(ac_stream_end(NULL, found, 4, &filled) == AC_ARGUMENTS && ac_stream_reset(NULL) == AC_ARGUMENTS);
    CHECK(ac_stream_feed(NULL, "a", 1, &taken, found, 4, &filled) == AC_ARGUMENTS);
    ac_stream_close(&stream);
    ac_stream_close(&stream);
    ac_stream_close(NULL);
    ac_close(&searcher);
}

/* Which searchers have a stream. */
static void check_refused(void) {
    struct { uint32_t start, kind, mode; size_t shortest; int32_t status; } rows[] = {
        {AC_START_UNANCHORED, AC_STANDARD, AC_WALK, 1, AC_OK}, {AC_START_BOTH, AC_LEFTMOST_FIRST, AC_WALK, 1, AC_OK},
        {AC_START_ANCHORED, AC_STANDARD, AC_WALK, 1, AC_UNANCHORED}, {AC_START_ANCHORED, AC_STANDARD, AC_WALK, 0, AC_UNANCHORED},
        {AC_START_BOTH, AC_STANDARD, AC_WALK, 0, AC_EMPTY_PATTERN}, {AC_START_BOTH, AC_STANDARD, AC_LISTING, 0, AC_EMPTY_PATTERN},
        {AC_START_BOTH, AC_LEFTMOST_LONGEST, AC_LISTING, 0, AC_OVERLAPPING}, {AC_START_BOTH, AC_STANDARD, AC_LISTING, 1, AC_OK},
        {AC_START_ANCHORED, AC_LEFTMOST_FIRST, AC_LISTING, 0, AC_UNANCHORED},
    };
    for (size_t i = 0; i < sizeof rows / sizeof *rows; i++) {
        ac_options options = AC_DEFAULTS;
        options.match_kind = rows[i].kind;
        options.start_kind = rows[i].start;
        ac_searcher searcher = AC_EMPTY;
        ac_stream stream = AC_EMPTY;
        CHECK(ac_open(&options, "abc", 3, (size_t[]){3, 3}, rows[i].shortest ? 1 : 2, &searcher) == AC_OK);
        CHECK(ac_stream_open(&searcher, rows[i].mode, &stream) == rows[i].status && !stream.at == (rows[i].status != AC_OK));
        ac_stream_close(&stream);
        ac_close(&searcher);
    }
}

int main(void) {
    check_answers();
    check_when();
    check_wild();
    check_refused();
    printf("%ld checks, %ld faults\n", checks, faults);
    return faults != 0;
}
