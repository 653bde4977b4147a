/* Tests of the replacers of ac.h: whatever the pieces and the room, a replacer writes what ac_replace gives for the whole text,
   as early as ac.h says. Linked with --wrap for malloc and realloc, which count requests and may refuse them. */
#include "ac.h"
#include <stdio.h>
#include <stdlib.h>
#include <string.h>

static long checks, faults, requests;
#define CHECK(it) (checks++, (it) ? (void)0 : report(__LINE__, #it))

static void report(int line, const char *wanted) {
    if (faults++ < 20)
        printf("line %d: %s\n", line, wanted);
}

/* How many requests are granted before one is refused, or all from there on; below 0 none is. What the largest one asked for. */
static long granted = -1;
static int lasting, was_refused;
static size_t largest;
void *__real_malloc(size_t size);
void *__real_realloc(void *from, size_t size);

static int refused(size_t size) {
    requests++;
    largest = size > largest ? size : largest;
    if (granted != 0) {
        if (granted > 0)
            granted--;
        return 0;
    }
    was_refused = 1;
    if (!lasting)
        granted = -1;
    return 1;
}

void *__wrap_malloc(size_t size) {
    return refused(size) ? NULL : __real_malloc(size);
}

void *__wrap_realloc(void *from, size_t size) {
    return refused(size) ? NULL : __real_realloc(from, size);
}

/* Numbers below `bound`, the same in every run. */
static size_t below(size_t bound) {
    static uint64_t state = 1;
    state = state * 6364136223846793005u + 1442695040888963407u;
    return (size_t)(state >> 33) % bound;
}

static size_t least(size_t a, size_t b) {
    return a < b ? a : b;
}

/* Strings one after another, as ac_open takes them, and how many bytes the longest has. */
enum { STRINGS = 6, BYTES = 1 << 15 };
typedef struct strings { char bytes[BYTES]; size_t ends[STRINGS], count, len, longest; } strings;

static size_t length_of(const strings *all, size_t number) {
    return all->ends[number] - (number ? all->ends[number - 1] : 0);
}

static void add(strings *all, const char *bytes, size_t len) {
    memcpy(all->bytes + all->len, bytes, len);
    all->ends[all->count++] = all->len += len;
    all->longest = len > all->longest ? len : all->longest;
}

/* What is replaced by what. */
typedef struct list { strings patterns, texts; ac_searcher searcher; } list;

static void clear(list *list) {
    list->patterns.count = list->patterns.len = list->patterns.longest = list->texts.count = list->texts.len = 0;
}

static void add_pair(list *list, const char *pattern, size_t len, const char *text, size_t text_len) {
    add(&list->patterns, pattern, len);
    add(&list->texts, text, text_len);
}

static void open_list(list *list, const ac_options *options) {
    const strings *all = &list->patterns;
    list->searcher = (ac_searcher)AC_EMPTY;
    CHECK(ac_open(options, all->bytes, all->len, all->ends, all->count, &list->searcher) == AC_OK);
}

/* What ac_replace gives, which the caller frees. */
static char *replaced(const list *list, const char *text, size_t len, size_t *needed) {
    const strings *all = &list->texts;
    char *result;
    CHECK(ac_replace(&list->searcher, text, len, all->bytes, all->len, all->ends, all->count, NULL, 0, needed) == AC_OK);
    result = malloc(*needed + 1);
    CHECK(ac_replace(&list->searcher, text, len, all->bytes, all->len, all->ends, all->count, result, *needed, needed) == AC_OK);
    return result;
}

/* A replacer whose texts were overwritten once it was opened. */
static ac_replacer opened(const list *list) {
    static strings copy;
    ac_replacer replacer = AC_EMPTY;
    copy = list->texts;
    CHECK(ac_replacer_open(&list->searcher, copy.bytes, copy.len, copy.ends, copy.count, &replacer) == AC_OK && replacer.at);
    memset(&copy, '!', copy.len);
    memset(copy.ends, 0, sizeof copy.ends);
    return replacer;
}

/* A text that is fed, and what it should become; how much of it was taken, and how much was written. A stream that is fed the
   same bytes says where the last settled match ends, and how long the result is up to there. */
typedef struct run {
    const list *list;
    ac_replacer replacer;
    ac_stream stream;
    const char *text, *result;
    size_t len, result_len, taken, written, match_end, match_written;
    int has_ended;
} run;

static run begun(const list *list, const char *text, size_t len, const char *result, size_t result_len) {
    run run = {.list = list, .replacer = opened(list), .text = text, .len = len, .result = result, .result_len = result_len};
    CHECK(ac_stream_open(&list->searcher, AC_WALK, &run.stream) == AC_OK);
    return run;
}

/* Has the stream follow so many bytes more. */
static void follow(run *run, size_t count) {
    ac_match found[16];
    for (size_t passed, filled = 16; (count || filled == 16) && !faults; count -= passed) {
        CHECK(ac_stream_feed(&run->stream, run->text + run->taken, count, &passed, found, 16, &filled) == AC_OK);
        run->taken += passed;
        for (size_t i = 0; i < filled; i++) {
            run->match_written += found[i].start - run->match_end + length_of(&run->list->texts, found[i].pattern);
            run->match_end = found[i].end;
        }
    }
}

/* How much of the result is written at least where there is room: all matches that are settled, and all but as many of the last
   bytes as the longest pattern has. After the end it is all. */
static size_t settled(const run *run) {
    size_t kept = least(run->list->patterns.longest, run->taken - run->match_end);
    return run->has_ended ? run->result_len : run->match_written + run->taken - kept - run->match_end;
}

/* What a call writes to, and whether it wrote nothing after what it says that it wrote. */
enum { ROOM = 1 << 17, GUARD = 64 };
static char out[ROOM + GUARD];

static void clear_out(size_t room) {
    memset(out, '#', least(room, GUARD));
    memset(out + room, '#', GUARD);
}

static int is_clear(size_t room, size_t filled) {
    static char marks[GUARD];
    memset(marks, '#', GUARD);
    return !memcmp(out + room, marks, GUARD) && (filled > GUARD || !memcmp(out + filled, marks, least(room, GUARD) - filled));
}

/* Checks what a call with so much room has written. */
static void check_written(run *run, size_t room, size_t filled) {
    CHECK(filled <= room && filled <= run->result_len - run->written);
    if (faults)
        return;
    CHECK(!memcmp(out, run->result + run->written, filled) && is_clear(room, filled));
    run->written += filled;
    CHECK(filled == room || run->written >= settled(run));
}

static void feed(run *run, size_t piece, size_t room) {
    size_t taken = 99, filled = 99;
    clear_out(room);
    CHECK(ac_replacer_feed(&run->replacer, run->text + run->taken, piece, &taken, out, room, &filled) == AC_OK);
    CHECK(taken <= piece && (room || !taken) && (filled == room || taken == piece));
    if (!faults)
        follow(run, taken);
    check_written(run, room, filled);
}

static void end(run *run, size_t room) {
    size_t filled = 99;
    clear_out(room);
    CHECK(ac_replacer_end(&run->replacer, out, room, &filled) == AC_OK);
    run->has_ended = 1;
    check_written(run, room, filled);
}

/* A call that is refused takes nothing and writes nothing. */
#define REFUSES_FEED(it) CHECK((taken = filled = 9, (it) == AC_ARGUMENTS) && !taken && !filled && *out == '#')
#define REFUSES_END(it) CHECK((filled = 9, (it) == AC_ARGUMENTS) && !filled && *out == '#')

/* Calls that are refused change nothing, so they may stand between any others. */
static void check_refused_calls(run *run) {
    ac_replacer *replacer = &run->replacer, none = AC_EMPTY;
    const strings *all = &run->list->texts;
    size_t taken, filled;
    clear_out(1);
    REFUSES_FEED(ac_replacer_feed(replacer, NULL, 1, &taken, out, 1, &filled));
    REFUSES_FEED(ac_replacer_feed(replacer, "ab", 2, &taken, NULL, 1, &filled));
    REFUSES_FEED(ac_replacer_feed(&none, "ab", 2, &taken, out, 1, &filled));
    REFUSES_FEED(ac_replacer_feed(NULL, "ab", 2, &taken, out, 1, &filled));
    if (run->has_ended)
        REFUSES_FEED(ac_replacer_feed(replacer, "ab", 2, &taken, out, 1, &filled));
    REFUSES_END(ac_replacer_feed(replacer, "ab", 2, NULL, out, 1, &filled));
    REFUSES_END(ac_replacer_end(replacer, NULL, 1, &filled));
    REFUSES_END(ac_replacer_end(&none, out, 1, &filled));
    REFUSES_END(ac_replacer_end(NULL, out, 1, &filled));
    CHECK((taken = 9, ac_replacer_feed(replacer, "ab", 2, &taken, out, 1, NULL)) == AC_ARGUMENTS && !taken && *out == '#');
    CHECK(ac_replacer_end(replacer, out, 1, NULL) == AC_ARGUMENTS && *out == '#');
    CHECK(ac_replacer_open(&run->list->searcher, all->bytes, all->len, all->ends, all->count, replacer) == AC_ARGUMENTS);
}

/* A size, or where that is 0, a random one. */
static size_t size_of(size_t size, size_t most) {
    return size ? size : below(5) ? below(4) : below(most);
}

/* Ends a run by calls with so much room each. An empty piece after the end writes what is left as well. Then nothing is. */
static void finish(run *run, size_t room) {
    end(run, size_of(room, 40));
    while (run->written < run->result_len && !faults)
        below(3) ? end(run, size_of(room, 40)) : feed(run, 0, size_of(room, 40));
    feed(run, 0, 3);
    end(run, 3);
    CHECK(run->written == run->result_len);
    check_refused_calls(run);
}

static void close_run(run *run) {
    ac_stream_close(&run->stream);
    ac_replacer_close(&run->replacer);
    CHECK(!run->replacer.at);
    ac_replacer_close(&run->replacer);
    ac_replacer_close(NULL);
}

/* Feeds the whole text in pieces of a size with so much room for each; where these are 0, random ones. No call requests
   memory. */
static void check_run(run *run, size_t size, size_t room) {
    long before = requests;
    while (run->taken < run->len && !faults) {
        feed(run, least(size_of(size, 40), run->len - run->taken), size_of(room, 40));
        if (!size && !below(20))
            check_refused_calls(run);
    }
    finish(run, room);
    CHECK(requests == before);
    close_run(run);
}

static const char letters[][3] = {"ab", "abA", {0, '\377'}};

/* Some random bytes, of a few letters. */
static const char *random_bytes(size_t len, size_t alphabet) {
    static char bytes[256];
    for (size_t i = 0; i < len; i++)
        bytes[i] = letters[alphabet][below(alphabet == 1 ? 3 : 2)];
    return bytes;
}

/* A random list of a few patterns, none of them empty, with texts that may be empty and may have what is replaced. */
static void random_list(list *list, uint32_t kind, uint32_t engine, size_t alphabet) {
    ac_options options = AC_DEFAULTS;
    options.match_kind = kind;
    options.engine = engine;
    options.start_kind = below(2) ? AC_START_UNANCHORED : AC_START_BOTH;
    options.ignore_case = below(2);
    options.prefilter = below(2);
    clear(list);
    for (size_t left = below(STRINGS); left > 0; left--) {
        size_t len = 1 + below(below(3) ? 5 : 12), text_len = below(6);
        add(&list->patterns, random_bytes(len, alphabet), len);
        add(&list->texts, below(2) ? random_bytes(text_len, alphabet) : "vwxyz", text_len);
    }
    open_list(list, &options);
}

/* Each cut and each room gives the same, in the last run by a replacer whose searcher was closed before. */
static void check_pieces(uint32_t kind, uint32_t engine) {
    static list list;
    size_t alphabet = below(3), len = below(below(4) ? 40 : 250), result_len;
    random_list(&list, kind, engine, alphabet);
    char text[256];
    memcpy(text, random_bytes(len, alphabet), len);
    char *result = replaced(&list, text, len, &result_len);
    for (size_t size = 0; size < 4; size++)
        for (size_t room = 0; room < 4; room++) {
            run run = begun(&list, text, len, result, result_len);
            if (size == 3 && room == 3)
                ac_close(&list.searcher);
            check_run(&run, size, room == 3 ? 500 : room);
        }
    free(result);
}

/* All cuts of a short text in two and in three, with much room and with little. */
static void check_cuts(uint32_t kind, uint32_t engine) {
    static list list;
    size_t len = 1 + below(7), result_len;
    random_list(&list, kind, engine, 0);
    char text[8];
    memcpy(text, random_bytes(len, 0), len);
    char *result = replaced(&list, text, len, &result_len);
    for (size_t i = 0; i <= len; i++)
        for (size_t k = i; k <= len; k++) {
            run run = begun(&list, text, len, result, result_len);
            size_t room = (i + k) % 2 ? 500 : 2, cuts[] = {i, k, len};
            for (size_t cut = 0; cut < 3; cut++)
                while (run.taken < cuts[cut] && !faults)
                    feed(&run, cuts[cut] - run.taken, room);
            finish(&run, room);
            close_run(&run);
        }
    free(result);
    ac_close(&list.searcher);
}

/* All texts of six letters, a byte at a time with much room: what was written stays right, whatever follows. */
static void check_all_texts(uint32_t kind, uint32_t engine) {
    static list list;
    random_list(&list, kind, engine, 0);
    for (unsigned number = 0; number < 64; number++) {
        char text[6];
        size_t result_len;
        for (size_t i = 0; i < 6; i++)
            text[i] = "ab"[number >> i & 1];
        char *result = replaced(&list, text, 6, &result_len);
        run run = begun(&list, text, 6, result, result_len);
        check_run(&run, 1, 500);
        free(result);
    }
    ac_close(&list.searcher);
}

/* A worked text by each kind, whose result is written out here. */
static void check_worked(void) {
    const char *text = "append the app to the appendage";
    const char *results[] = {"-end the - to the -endage", "x the - to the xage", "x the - to the zz"};
    for (uint32_t kind = AC_STANDARD; kind <= AC_LEFTMOST_LONGEST; kind++) {
        static list list;
        ac_options options = AC_DEFAULTS;
        options.match_kind = kind;
        clear(&list);
        add_pair(&list, "append", 6, "x", 1);
        add_pair(&list, "appendage", 9, "zz", 2);
        add_pair(&list, "app", 3, "-", 1);
        open_list(&list, &options);
        for (size_t size = 1; size < 40; size++) {
            run run = begun(&list, text, strlen(text), results[kind], strlen(results[kind]));
            check_run(&run, size, 41 - size);
        }
        ac_close(&list.searcher);
    }
}

/* Without patterns the text is written as it comes. */
static void check_no_patterns(void) {
    for (uint32_t kind = AC_STANDARD; kind <= AC_LEFTMOST_LONGEST; kind++) {
        static list list;
        ac_options options = AC_DEFAULTS;
        options.match_kind = kind;
        open_list(&list, &options);
        run run = begun(&list, "abcdef", 6, "abcdef", 6);
        feed(&run, 4, 9);
        CHECK(run.written == 4);
        check_run(&run, 1, 1);
        ac_close(&list.searcher);
    }
}

/* A text of several times what the buffer has, in which most of a long pattern occurs again and again, and now and then all of
   it. Short patterns occur inside, where a leftmost kind picks none of them before the long one has failed. */
enum { LONG = 9000, LONG_TEXT = 200000 };

static void check_long(uint32_t kind, uint32_t engine, int has_long, int has_short, size_t size, size_t room) {
    static list list;
    static char text[LONG_TEXT], pattern[LONG], filler[20000];
    ac_options options = AC_DEFAULTS;
    options.match_kind = kind;
    options.engine = engine;
    clear(&list);
    for (size_t i = 0; i < LONG; i++)
        pattern[i] = "ab"[below(2)];
    memset(filler, 'L', sizeof filler);
    if (has_long)
        add_pair(&list, pattern, LONG, filler, has_short ? 2 : sizeof filler);
    if (has_short) {
        add_pair(&list, "abba", 4, "", 0);
        add_pair(&list, "cc", 2, "<cc>", 4);
    }
    for (size_t at = 0; at < LONG_TEXT;) {
        size_t part = least(at && below(5) ? LONG - 1 - below(below(2) ? 4 : LONG) : LONG, LONG_TEXT - at);
        memcpy(text + at, pattern, part);
        at += part;
        for (size_t left = below(300); left > 0 && at < LONG_TEXT; left--)
            text[at++] = "abc"[below(3)];
    }
    size_t result_len;
    open_list(&list, &options);
    char *result = replaced(&list, text, LONG_TEXT, &result_len);
    CHECK(result_len != LONG_TEXT);
    run run = begun(&list, text, LONG_TEXT, result, result_len);
    check_run(&run, size, room);
    free(result);
    ac_close(&list.searcher);
}

static void check_long_texts(void) {
    const struct { size_t size, room; } rows[] = {{65536, 65536}, {LONG_TEXT, 1000}, {70, 5000}, {8192, ROOM}, {4096, 77}};
    for (uint32_t i = 0; i < 12; i++) {
        check_long(i % 3, i / 3, 1, 0, rows[i % 5].size, rows[i % 5].room);
        check_long(i % 3, i / 3, 1, 1, rows[(i + 2) % 5].size, rows[(i + 2) % 5].room);
        check_long(i % 3, i / 3, 0, 1, rows[(i + 3) % 5].size, rows[(i + 3) % 5].room);
    }
    check_long(AC_STANDARD, AC_AUTO, 1, 1, 5, 300);
    check_long(AC_LEFTMOST_FIRST, AC_AUTO, 1, 1, LONG_TEXT, 5);
}

/* Calls in any order: what they have written is the result for what was taken. */
static void check_wild(uint32_t kind, uint32_t engine) {
    static list list;
    random_list(&list, kind, engine, 0);
    ac_replacer replacer = opened(&list);
    char text[600], written[4000], piece[6];
    size_t len = 0, written_len = 0, has_ended = 0, taken, filled, needed;
    for (int turn = 0; turn < 100 && !faults; turn++) {
        size_t piece_len = below(7), room = below(9);
        char *at = room ? written + written_len : NULL;
        memcpy(piece, random_bytes(piece_len, 0), piece_len);
        taken = filled = 9;
        if (turn > 60 && !below(8)) {
            CHECK(ac_replacer_end(&replacer, at, room, &filled) == AC_OK && filled <= room);
            taken = 0;
            has_ended = 1;
        } else {
            int32_t status = ac_replacer_feed(&replacer, piece_len ? piece : NULL, piece_len, &taken, at, room, &filled);
            CHECK(status == (has_ended && piece_len ? AC_ARGUMENTS : AC_OK) && (status == AC_OK || !filled));
            CHECK(taken <= piece_len && filled <= room && ((room && !has_ended) || !taken));
        }
        if (faults)
            return;
        memcpy(text + len, piece, taken);
        len += taken;
        written_len += filled;
    }
    do {
        CHECK(ac_replacer_end(&replacer, written + written_len, 5, &filled) == AC_OK && filled <= 5);
        written_len += filled;
    } while (filled == 5 && written_len < sizeof written - 5);
    char *result = replaced(&list, text, len, &needed);
    CHECK(needed == written_len && !memcmp(result, written, needed));
    free(result);
    ac_replacer_close(&replacer);
    ac_close(&list.searcher);
}

/* Which searchers have a replacer, and with which texts. */
static void check_statuses(void) {
    enum { U = AC_START_UNANCHORED, A = AC_START_ANCHORED, B = AC_START_BOTH };
    enum { S = AC_STANDARD, F = AC_LEFTMOST_FIRST, L = AC_LEFTMOST_LONGEST };
    const struct { uint32_t start, kind; size_t shortest, ends[3], ends_len; int32_t status; } rows[] = {
        {U, S, 1, {1, 3}, 2, AC_OK}, {B, F, 1, {1, 3}, 2, AC_OK}, {U, L, 1, {0, 0}, 2, AC_OK}, {B, S, 1, {1, 1}, 2, AC_OK},
        {A, S, 1, {1, 3}, 2, AC_UNANCHORED}, {A, F, 0, {1, 3}, 2, AC_UNANCHORED}, {A, L, 1, {0, 0}, 2, AC_UNANCHORED},
        {U, S, 0, {1, 3}, 2, AC_EMPTY_PATTERN}, {B, F, 0, {1, 3}, 2, AC_EMPTY_PATTERN}, {B, L, 0, {0, 0}, 2, AC_EMPTY_PATTERN},
        {U, S, 1, {1}, 1, AC_ARGUMENTS}, {U, S, 1, {0}, 0, AC_ARGUMENTS}, {U, S, 1, {1, 2, 3}, 3, AC_ARGUMENTS},
        {U, S, 1, {2, 1}, 2, AC_ARGUMENTS}, {U, S, 1, {1, 4}, 2, AC_ARGUMENTS}, {U, S, 1, {4, 4}, 2, AC_ARGUMENTS},
        {U, S, 1, {SIZE_MAX, SIZE_MAX}, 2, AC_ARGUMENTS}, {A, S, 0, {1, 4}, 2, AC_ARGUMENTS}, {B, S, 0, {1}, 1, AC_ARGUMENTS},
    };
    for (size_t i = 0; i < sizeof rows / sizeof *rows; i++) {
        ac_options options = AC_DEFAULTS;
        options.match_kind = rows[i].kind;
        options.start_kind = rows[i].start;
        ac_searcher searcher = AC_EMPTY;
        ac_replacer replacer = AC_EMPTY;
        CHECK(ac_open(&options, "abc", 3, (size_t[]){rows[i].shortest, 3}, 2, &searcher) == AC_OK);
        CHECK(ac_replacer_open(&searcher, "xyz", 3, rows[i].ends, rows[i].ends_len, &replacer) == rows[i].status);
        CHECK(!replacer.at == (rows[i].status != AC_OK));
        ac_replacer_close(&replacer);
        ac_close(&searcher);
    }
}

/* First one request of an opening is refused, then another one: there is no replacer, and the searcher does what it did. The
   largest request is that for the buffer. */
static void check_memory(size_t longest, size_t buffer) {
    static list list;
    static char pattern[LONG];
    const strings *all = &list.texts;
    ac_options options = AC_DEFAULTS;
    memset(pattern, 'a', sizeof pattern);
    clear(&list);
    add_pair(&list, pattern, longest, "xyz", 3);
    add_pair(&list, "b", 1, "", 0);
    open_list(&list, &options);
    for (lasting = 0; lasting < 2; lasting++) {
        was_refused = 1;
        for (long number = 0; was_refused && !faults; number++) {
            ac_replacer replacer = AC_EMPTY;
            size_t needed;
            granted = number;
            was_refused = largest = 0;
            int32_t status = ac_replacer_open(&list.searcher, all->bytes, all->len, all->ends, all->count, &replacer);
            granted = -1;
            CHECK(status == AC_OK ? replacer.at != NULL : was_refused && status == AC_MEMORY && !replacer.at);
            CHECK(was_refused || (number > 1 && largest >= buffer && largest < 2 * buffer));
            ac_replacer_close(&replacer);
            free(replaced(&list, "abba", 4, &needed));
            CHECK(needed == (longest == 1 ? 6 : 2));
        }
    }
    ac_close(&list.searcher);
}

int main(void) {
    for (uint32_t engine = AC_AUTO; engine <= AC_DFA; engine++)
        for (uint32_t kind = AC_STANDARD; kind <= AC_LEFTMOST_LONGEST; kind++) {
            for (int turn = 0; turn < 12; turn++)
                check_pieces(kind, engine);
            for (int turn = 0; turn < 8; turn++)
                check_cuts(kind, engine);
            for (int turn = 0; turn < 10; turn++)
                check_wild(kind, engine);
            check_all_texts(kind, engine);
        }
    check_worked();
    check_no_patterns();
    check_long_texts();
    check_statuses();
    check_memory(1, 65536);
    check_memory(8192, 65536);
    check_memory(LONG, 72000);
    printf("%ld checks, %ld faults\n", checks, faults);
    return faults != 0;
}
