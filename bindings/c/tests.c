/* Tests of ac.h: what crosses the boundary and what is refused there. That answers are right is proved, and compared with
   a slow search in ../python. Linked with --wrap for malloc and realloc, so that each request can be refused. */
#include "ac.h"
#include <pthread.h>
#include <stdio.h>
#include <stdlib.h>
#include <string.h>

static long checks, faults;
#define CHECK(it) (checks++, (it) ? (void)0 : report(__LINE__, #it))

static void report(int line, const char *wanted) {
    if (faults++ < 20)
        printf("line %d: %s\n", line, wanted);
}

/* How many requests are granted before one is refused, or all from there on; below 0 none is. */
static long granted = -1;
static int lasting, was_refused;
void *__real_malloc(size_t size);
void *__real_realloc(void *from, size_t size);

static int refused(void) {
    if (granted != 0) {
        if (granted > 0)
            granted--;
        return 0;
    }
    was_refused = 1;
    if (!lasting)
        granted = -1;
    return 1;
}

void *__wrap_malloc(size_t size) {
    return refused() ? NULL : __real_malloc(size);
}

void *__wrap_realloc(void *from, size_t size) {
    return refused() ? NULL : __real_realloc(from, size);
}

/* The options with a match kind, a start kind and an engine, and usual ones else. */
static ac_options options_of(uint32_t match_kind, uint32_t start_kind, uint32_t engine) {
    ac_options options = AC_DEFAULTS;
    options.match_kind = match_kind;
    options.start_kind = start_kind;
    options.engine = engine;
    return options;
}

/* Opens a searcher over patterns, with a bar after each. */
static int32_t open_words(const ac_options *options, const char *words, ac_searcher *out) {
    char bytes[256];
    size_t ends[64], len = 0, count = 0;
    for (; *words; words++)
        if (*words == '|')
            ends[count++] = len;
        else
            bytes[len++] = *words;
    return ac_open(options, bytes, len, ends, count, out);
}

static ac_searcher opened(ac_options options, const char *words) {
    ac_searcher searcher = AC_EMPTY;
    CHECK(open_words(&options, words, &searcher) == AC_OK && searcher.at);
    return searcher;
}

static ac_span whole(const char *haystack) {
    ac_span span = AC_WHOLE(strlen(haystack));
    return span;
}

static ac_span anchored(ac_span span) {
    span.anchored = 1;
    return span;
}

typedef int32_t search(const ac_searcher *, const void *, size_t, const ac_span *, ac_cursor *, ac_match *, size_t, size_t *);

enum { TEXT = 1 << 15 };

/* All matches of a walk or a listing in batches, as text: pattern, start and end of each. Null if it is refused. */
static const char *text_of(search *by, const ac_searcher *searcher, const char *haystack, ac_span span, size_t batch) {
    static _Thread_local char text[TEXT];
    ac_cursor cursor = {span.start, 0};
    ac_match found[64];
    size_t filled = batch, len = 0;
    for (*text = 0; filled == batch && len < TEXT / 2;) {
        if (by(searcher, haystack, strlen(haystack), &span, &cursor, found, batch, &filled) != AC_OK || filled > batch)
            return NULL;
        for (size_t i = 0; i < filled; i++)
            len += (size_t)sprintf(text + len, "%zu:%zu-%zu ", found[i].pattern, found[i].start, found[i].end);
    }
    return text;
}

static int gives(search *by, const ac_searcher *searcher, const char *haystack, ac_span span, size_t batch,
                 const char *wanted) {
    const char *got = text_of(by, searcher, haystack, span, batch);
    return got && !strcmp(got, wanted);
}

/* Each engine has the same matches, in batches of each size. */
static void check_matches(search *by, uint32_t kind, const char *words, const char *haystack, const char *wanted) {
    for (uint32_t engine = AC_AUTO; engine <= AC_DFA; engine++) {
        ac_searcher searcher = opened(options_of(kind, AC_START_UNANCHORED, engine), words);
        for (size_t batch = 1; batch < 12; batch++)
            CHECK(gives(by, &searcher, haystack, whole(haystack), batch, wanted));
        ac_close(&searcher);
    }
}

static const char *hobbits = "append the app to the appendage", *fruit = "Nobody likes maple in their apple flavored Snapple.";

static void check_answers(void) {
    const char *words = "append|appendage|app|", *empty = "|ab|c|";
    check_matches(ac_walk, AC_STANDARD, words, hobbits, "2:0-3 2:11-14 2:22-25 ");
    check_matches(ac_walk, AC_LEFTMOST_FIRST, words, hobbits, "0:0-6 2:11-14 0:22-28 ");
    check_matches(ac_walk, AC_LEFTMOST_LONGEST, words, hobbits, "0:0-6 2:11-14 1:22-31 ");
    check_matches(ac_overlapping, AC_STANDARD, words, hobbits, "2:0-3 0:0-6 2:11-14 2:22-25 0:22-28 1:22-31 ");
    check_matches(ac_walk, AC_STANDARD, empty, "zabc", "0:0-0 0:1-1 0:2-2 0:3-3 0:4-4 ");
    check_matches(ac_walk, AC_LEFTMOST_FIRST, empty, "zabc", "0:0-0 0:1-1 0:2-2 0:3-3 0:4-4 ");
    check_matches(ac_walk, AC_LEFTMOST_LONGEST, empty, "zabc", "0:0-0 1:1-3 2:3-4 ");
    check_matches(ac_overlapping, AC_STANDARD, empty, "zabc", "0:0-0 0:1-1 0:2-2 1:1-3 0:3-3 2:3-4 0:4-4 ");
    check_matches(ac_overlapping, AC_STANDARD, "||", "a", "0:0-0 1:0-0 0:1-1 1:1-1 ");
    for (uint32_t kind = AC_STANDARD; kind <= AC_LEFTMOST_LONGEST; kind++) {
        check_matches(ac_walk, kind, "apple|maple|Snapple|", fruit, "1:13-18 0:28-33 2:43-50 ");
        check_matches(ac_walk, kind, "", "abc", "");
        check_matches(ac_walk, kind, "|", "", "0:0-0 ");
    }
}

static void check_finds(void) {
    ac_searcher searcher = opened(options_of(AC_LEFTMOST_FIRST, AC_START_BOTH, AC_AUTO), "b|abc|abcd|");
    const char *haystack = "foo abcd";
    ac_span span = whole(haystack);
    ac_match match;
    size_t count = 9;
    CHECK(ac_find(&searcher, haystack, 8, &span, &match) == AC_FOUND);
    CHECK(match.pattern == 1 && match.start == 4 && match.end == 7);
    CHECK(ac_is_match(&searcher, haystack, 8, &span) == AC_FOUND);
    CHECK(ac_count(&searcher, haystack, 8, &span, &count) == AC_OK && count == 1);
    span.earliest = 1;
    CHECK(ac_find(&searcher, haystack, 8, &span, &match) == AC_FOUND && match.pattern == 0 && match.start == 5);
    span = anchored(whole(haystack));
    CHECK(ac_find(&searcher, haystack, 8, &span, &match) == AC_OK && match.pattern == 0 && match.start == 5);
    CHECK(ac_is_match(&searcher, haystack, 8, &span) == AC_OK);
    CHECK(ac_count(&searcher, haystack, 8, &span, &count) == AC_OK && count == 0);
    span.start = 4;
    CHECK(ac_find(&searcher, haystack, 8, &span, &match) == AC_FOUND && match.pattern == 1 && match.end == 7);
    ac_close(&searcher);
}

static void check_spans(void) {
    ac_searcher searcher = opened(options_of(AC_STANDARD, AC_START_UNANCHORED, AC_AUTO), "abc|");
    struct { ac_span span; int32_t status; } rows[] = {
        {{1, 4, 0, 0}, AC_FOUND}, {{0, 5, 0, 0}, AC_FOUND}, {{1, 3, 0, 0}, AC_OK}, {{2, 5, 0, 0}, AC_OK},
        {{5, 5, 0, 0}, AC_OK}, {{4, 3, 0, 0}, AC_ARGUMENTS}, {{0, 6, 0, 0}, AC_ARGUMENTS},
        {{6, 6, 0, 0}, AC_ARGUMENTS}, {{0, SIZE_MAX, 0, 0}, AC_ARGUMENTS}, {{SIZE_MAX, SIZE_MAX, 0, 0}, AC_ARGUMENTS},
        {{SIZE_MAX, 0, 0, 0}, AC_ARGUMENTS}, {{1, 4, 1, 0}, AC_ANCHORED}, {{1, 4, 2, 0}, AC_ARGUMENTS},
        {{1, 4, UINT32_MAX, 0}, AC_ARGUMENTS}, {{1, 4, 0, 2}, AC_ARGUMENTS}, {{1, 4, 0, UINT32_MAX}, AC_ARGUMENTS},
    };
    for (size_t i = 0; i < sizeof rows / sizeof *rows; i++) {
        int32_t status = rows[i].status, without = status == AC_FOUND ? AC_OK : status;
        const ac_span *span = &rows[i].span;
        ac_match match = {7, 8, 9};
        ac_cursor cursor = {span->start, 0};
        size_t count = 77, filled = 77;
        CHECK(ac_find(&searcher, "xabcx", 5, span, &match) == status && (status == AC_FOUND ? match.end == 4 : match.end == 9));
        CHECK(ac_is_match(&searcher, "xabcx", 5, span) == status);
        CHECK(ac_count(&searcher, "xabcx", 5, span, &count) == without && count == (without == AC_OK ? status == AC_FOUND : 77));
        CHECK(ac_walk(&searcher, "xabcx", 5, span, &cursor, &match, 1, &filled) == without && filled == (status == AC_FOUND));
        cursor = (ac_cursor){span->start, 0};
        filled = 77;
        CHECK(ac_overlapping(&searcher, "xabcx", 5, span, &cursor, &match, 1, &filled) == without);
        CHECK(filled == (status == AC_FOUND));
    }
    ac_close(&searcher);
}

static void check_anchored(void) {
    for (uint32_t engine = AC_AUTO; engine <= AC_DFA; engine++) {
        ac_searcher searcher = opened(options_of(AC_LEFTMOST_FIRST, AC_START_ANCHORED, engine), "foo|bar|quux|");
        const char *haystack = "fooquuxbar foo";
        ac_span loose = whole(haystack);
        size_t count;
        CHECK(gives(ac_walk, &searcher, haystack, anchored(loose), 2, "0:0-3 2:3-7 1:7-10 "));
        CHECK(ac_count(&searcher, haystack, 14, &loose, &count) == AC_UNANCHORED);
        CHECK(ac_is_match(&searcher, haystack, 14, &loose) == AC_UNANCHORED);
        CHECK(ac_replace(&searcher, haystack, 14, "", 0, (size_t[]){0, 0, 0}, 3, NULL, 0, &count) == AC_UNANCHORED);
        ac_close(&searcher);
    }
    ac_searcher searcher = opened(options_of(AC_STANDARD, AC_START_BOTH, AC_AUTO), "a|");
    ac_span span = anchored(whole("aa"));
    ac_cursor cursor = {0, 0};
    ac_match match;
    size_t filled;
    CHECK(ac_overlapping(&searcher, "aa", 2, &span, &cursor, &match, 1, &filled) == AC_ANCHORED);
    CHECK(gives(ac_overlapping, &searcher, "aa", whole("aa"), 1, "0:0-1 0:1-2 "));
    ac_close(&searcher);
    searcher = opened(options_of(AC_LEFTMOST_LONGEST, AC_START_BOTH, AC_AUTO), "a|");
    CHECK(ac_overlapping(&searcher, "aa", 2, &(ac_span){0, 2, 0, 0}, &cursor, &match, 1, &filled) == AC_OVERLAPPING);
    ac_close(&searcher);
}

static void check_opens(void) {
    ac_searcher searcher = AC_EMPTY;
    size_t fall[] = {2, 1}, far[] = {2, 4}, right[] = {1, 2};
    const ac_options usual = AC_DEFAULTS;
    CHECK(ac_open(&usual, "abc", 3, fall, 2, &searcher) == AC_ARGUMENTS && !searcher.at);
    CHECK(ac_open(&usual, "abc", 3, far, 2, &searcher) == AC_ARGUMENTS && !searcher.at);
    for (size_t i = 0; i < 6; i++) {
        const uint32_t greatest[] = {2, 2, 3, 1, 1, 1};
        for (uint32_t beyond = 0; beyond < 2; beyond++) {
            ac_options wrong = usual;
            (&wrong.match_kind)[i] = beyond ? UINT32_MAX : greatest[i] + 1;
            CHECK(ac_open(&wrong, "abc", 3, right, 2, &searcher) == AC_ARGUMENTS && !searcher.at);
            (&wrong.match_kind)[i] = greatest[i];
            CHECK(ac_open(&wrong, "abc", 3, right, 2, &searcher) == AC_OK && searcher.at);
            ac_close(&searcher);
        }
    }
    for (size_t depth = 0; depth < 5; depth++) {
        ac_options deep = options_of(AC_STANDARD, AC_START_UNANCHORED, AC_CONTIGUOUS_NFA);
        deep.dense_depth = depth == 4 ? SIZE_MAX : depth;
        searcher = opened(deep, "ab|abc|");
        CHECK(gives(ac_walk, &searcher, "xabcab", whole("xabcab"), 8, "0:1-3 0:4-6 "));
        ac_close(&searcher);
    }
    CHECK(ac_open(&usual, "abc", 3, right, 2, &searcher) == AC_OK);
    void *before = searcher.at;
    CHECK(ac_open(&usual, "abc", 3, right, 2, &searcher) == AC_ARGUMENTS && searcher.at == before);
    ac_close(&searcher);
    CHECK(!searcher.at);
    ac_close(&searcher);
    ac_close(NULL);
    CHECK(ac_version() == AC_VERSION);
}

/* A size that isn't the struct's is refused, and nothing is written. */
static void check_sizes(void) {
    ac_searcher searcher = AC_EMPTY;
    const size_t end = 1, sizes[] = {0, sizeof(ac_options) - 1, sizeof(ac_options) + 1, SIZE_MAX};
    for (size_t i = 0; i < 4; i++) {
        ac_options options = AC_DEFAULTS;
        options.size = sizes[i];
        CHECK(ac_open(&options, "a", 1, &end, 1, &searcher) == AC_ARGUMENTS && !searcher.at);
    }
    searcher = opened(options_of(AC_STANDARD, AC_START_UNANCHORED, AC_AUTO), "a|");
    const size_t others[] = {0, sizeof(ac_facts) - 1, sizeof(ac_facts) + 1, SIZE_MAX};
    for (size_t i = 0; i < 4; i++) {
        ac_facts facts = AC_NO_FACTS;
        facts.size = others[i];
        CHECK(ac_describe(&searcher, &facts) == AC_ARGUMENTS && facts.size == others[i] && !facts.patterns);
    }
    ac_close(&searcher);
}

/* Errors are below 0, the text of each status has a word that no other one has, and no other number has such a text. */
static void check_statuses(void) {
    const struct { int32_t status; const char *word; } rows[] = {
        {AC_OK, "done"}, {AC_FOUND, "found"}, {AC_ARGUMENTS, "argument"}, {AC_MEMORY, "allocation"}, {AC_LIMIT, "too many"},
        {AC_ANCHORED, " anchored"}, {AC_UNANCHORED, " unanchored"}, {AC_OVERLAPPING, "overlapping"},
        {AC_EMPTY_PATTERN, "empty"},
    };
    const int32_t others[] = {INT32_MIN, AC_EMPTY_PATTERN - 1, AC_FOUND + 1, INT32_MAX};
    for (size_t i = 0; i < 9; i++)
        for (size_t k = 0; k < 9; k++)
            CHECK(!strstr(ac_error_text(rows[i].status), rows[k].word) == (i != k));
    for (size_t i = 0; i < 4; i++)
        CHECK(!strcmp(ac_error_text(others[i]), "no such status"));
    CHECK(AC_OK == 0 && AC_FOUND > 0 && AC_ARGUMENTS < 0 && AC_MEMORY < 0 && AC_LIMIT < 0 && AC_ANCHORED < 0 &&
          AC_UNANCHORED < 0 && AC_OVERLAPPING < 0);
}

/* Returns how much memory a searcher for one word takes, and sets how many requests for memory its opening made. */
static size_t memory_by(ac_options options, long *requests) {
    const long most = 1000;
    ac_facts facts = AC_NO_FACTS;
    granted = most;
    ac_searcher searcher = opened(options, "abcdefghij|");
    *requests = most - granted;
    granted = -1;
    CHECK(ac_describe(&searcher, &facts) == AC_OK);
    ac_close(&searcher);
    return facts.memory;
}

/* Each of these settings is seen by what it does alone. A prefilter for one word is a copy of it, which no fact counts. Without
   classes a row has an entry for each byte. A greater depth packs fewer states; the start is never packed, so depths 0 and 1 are
   the same. The usual settings are 1, 1 and 2. */
static void check_usual_settings(void) {
    const ac_options usual = options_of(AC_STANDARD, AC_START_UNANCHORED, AC_CONTIGUOUS_NFA);
    ac_options plain = usual, wide = usual, deep = usual;
    long requests, others;
    size_t memory = memory_by(usual, &requests), before = 0;
    plain.prefilter = 0;
    CHECK(memory_by(plain, &others) == memory && others < requests);
    wide.byte_classes = 0;
    CHECK(memory_by(wide, &others) > 2 * memory);
    for (deep.dense_depth = 0; deep.dense_depth < 6; deep.dense_depth++) {
        size_t now = memory_by(deep, &others);
        CHECK((deep.dense_depth == 1 ? now == before : now > before) && (now == memory) == (deep.dense_depth == 2));
        before = now;
    }
}

static void check_settings(void) {
    ac_options options = AC_DEFAULTS;
    ac_searcher searcher = opened(options, "a|A|");
    CHECK(gives(ac_walk, &searcher, "aA", whole("aA"), 8, "0:0-1 1:1-2 "));
    ac_close(&searcher);
    options.ignore_case = 1;
    searcher = opened(options, "a|A|");
    CHECK(gives(ac_walk, &searcher, "aA", whole("aA"), 8, "0:0-1 0:1-2 "));
    ac_span early = whole("abcd");
    early.earliest = 1;
    ac_close(&searcher);
    searcher = opened(options_of(AC_LEFTMOST_LONGEST, AC_START_BOTH, AC_AUTO), "a|abcd|cd|");
    CHECK(gives(ac_walk, &searcher, "abcd", whole("abcd"), 8, "1:0-4 "));
    CHECK(gives(ac_walk, &searcher, "abcd", early, 8, "0:0-1 2:2-4 "));
    CHECK(gives(ac_walk, &searcher, "abcd", anchored(early), 8, "0:0-1 "));
    ac_close(&searcher);
}

/* 5,000 equal patterns end at one place, in batches of 8. The usual engine is AC_AUTO, which serves so many without a DFA. */
static void check_equal_patterns(void) {
    enum { MANY = 5000 };
    static char bytes[MANY];
    static size_t ends[MANY];
    memset(bytes, 'a', MANY);
    for (size_t i = 0; i < MANY; i++)
        ends[i] = i + 1;
    const ac_options options = AC_DEFAULTS;
    const ac_span span = AC_WHOLE(2);
    ac_searcher searcher = AC_EMPTY;
    ac_cursor cursor = {0, 0};
    ac_match found[8];
    ac_facts facts = AC_NO_FACTS;
    size_t filled = 8, given = 0, wrong = 0;
    CHECK(ac_open(&options, bytes, MANY, ends, MANY, &searcher) == AC_OK);
    CHECK(ac_describe(&searcher, &facts) == AC_OK && facts.patterns == MANY && facts.engine == AC_CONTIGUOUS_NFA);
    while (filled == 8 && ac_overlapping(&searcher, "aa", 2, &span, &cursor, found, 8, &filled) == AC_OK)
        for (size_t i = 0; i < filled; i++, given++)
            wrong += found[i].pattern != given % MANY || found[i].end != 1 + given / MANY;
    CHECK(given == 2 * MANY && !wrong);
    ac_close(&searcher);
}

static void check_facts(void) {
    ac_facts facts = AC_NO_FACTS;
    for (uint32_t i = 0; i < 4 * 3 * 3; i++) {
        uint32_t kind = i % 3, start = i / 3 % 3, engine = i / 9;
        ac_options options = options_of(kind, start, engine);
        ac_searcher searcher = opened(options, "foo|bar|quux|baz|");
        CHECK(ac_describe(&searcher, &facts) == AC_OK && facts.patterns == 4 && facts.shortest == 3 && facts.longest == 4);
        CHECK(facts.engine == (engine ? engine : start == AC_START_BOTH ? AC_CONTIGUOUS_NFA : AC_DFA));
        CHECK(facts.match_kind == kind && facts.start_kind == start && facts.size == sizeof facts);
        ac_close(&searcher);
        searcher = opened(options, "");
        CHECK(ac_describe(&searcher, &facts) == AC_OK && !facts.patterns && facts.shortest == SIZE_MAX && !facts.longest);
        ac_close(&searcher);
    }
    ac_searcher usual = opened((ac_options)AC_DEFAULTS, "a|");
    CHECK(ac_describe(&usual, &facts) == AC_OK && facts.match_kind == AC_STANDARD && facts.start_kind == AC_START_UNANCHORED);
    CHECK(facts.engine == AC_DFA);
    ac_close(&usual);
}

/* A clone does what its searcher does, whichever of them is closed first, and a clone of a clone does too. */
static void check_clones(void) {
    for (uint32_t i = 0; i < 8; i++) {
        ac_searcher searcher = opened(options_of(AC_STANDARD, AC_START_UNANCHORED, i / 2), "append|appendage|app|");
        ac_searcher clone = AC_EMPTY, second = AC_EMPTY;
        ac_facts facts = AC_NO_FACTS, cloned = AC_NO_FACTS;
        CHECK(ac_clone(&searcher, &clone) == AC_OK && clone.at && clone.at != searcher.at);
        CHECK(ac_clone(&clone, &second) == AC_OK && second.at && second.at != clone.at);
        CHECK(ac_describe(&searcher, &facts) == AC_OK && ac_describe(&second, &cloned) == AC_OK);
        CHECK(facts.engine == cloned.engine && facts.patterns == cloned.patterns && facts.memory == cloned.memory);
        ac_close(i % 2 ? &searcher : &second);
        CHECK(gives(ac_walk, &clone, hobbits, whole(hobbits), 2, "2:0-3 2:11-14 2:22-25 "));
        ac_close(&clone);
        CHECK(gives(ac_walk, i % 2 ? &second : &searcher, hobbits, whole(hobbits), 2, "2:0-3 2:11-14 2:22-25 "));
        ac_close(&searcher);
        ac_close(&second);
    }
}

/* Null stands for an empty slice, and is refused anywhere else, as an empty searcher is. */
#define REFUSES(call) CHECK((call) == AC_ARGUMENTS)

static const ac_span no_byte = {0, 0, 0, 0}, one_byte = {0, 1, 0, 0};
static const ac_searcher empty = AC_EMPTY;

static ac_searcher check_pointers_of_open(void) {
    const ac_options usual = AC_DEFAULTS;
    const size_t end = 1;
    ac_searcher searcher = AC_EMPTY;
    REFUSES(ac_open(NULL, "a", 1, &end, 1, &searcher));
    REFUSES(ac_open(&usual, NULL, 1, &end, 1, &searcher));
    REFUSES(ac_open(&usual, "a", 1, NULL, 1, &searcher));
    REFUSES(ac_open(&usual, "a", 1, &end, 1, NULL));
    CHECK(!searcher.at && ac_open(&usual, NULL, 0, NULL, 0, &searcher) == AC_OK && searcher.at);
    ac_close(&searcher);
    CHECK(ac_open(&usual, "a", 1, &end, 1, &searcher) == AC_OK);
    return searcher;
}

static void check_pointers_of_finds(const ac_searcher *searcher) {
    ac_match match;
    ac_facts facts = AC_NO_FACTS;
    size_t count;
    CHECK(ac_find(searcher, NULL, 0, &no_byte, &match) == AC_OK && ac_is_match(searcher, NULL, 0, &no_byte) == AC_OK);
    CHECK(ac_count(searcher, NULL, 0, &no_byte, &count) == AC_OK && !count);
    REFUSES(ac_find(&empty, "a", 1, &one_byte, &match));
    REFUSES(ac_find(NULL, "a", 1, &one_byte, &match));
    REFUSES(ac_find(searcher, NULL, 1, &one_byte, &match));
    REFUSES(ac_find(searcher, "a", 1, NULL, &match));
    REFUSES(ac_find(searcher, "a", 1, &one_byte, NULL));
    REFUSES(ac_is_match(&empty, "a", 1, &one_byte));
    REFUSES(ac_is_match(NULL, "a", 1, &one_byte));
    REFUSES(ac_is_match(searcher, NULL, 1, &one_byte));
    REFUSES(ac_is_match(searcher, "a", 1, NULL));
    REFUSES(ac_count(&empty, "a", 1, &one_byte, &count));
    REFUSES(ac_count(NULL, "a", 1, &one_byte, &count));
    REFUSES(ac_count(searcher, NULL, 1, &one_byte, &count));
    REFUSES(ac_count(searcher, "a", 1, NULL, &count));
    REFUSES(ac_count(searcher, "a", 1, &one_byte, NULL));
    REFUSES(ac_describe(&empty, &facts));
    REFUSES(ac_describe(NULL, &facts));
    REFUSES(ac_describe(searcher, NULL));
}

static void check_pointers_of_clone(const ac_searcher *searcher) {
    ac_searcher clone = AC_EMPTY, full = *searcher;
    REFUSES(ac_clone(&empty, &clone));
    REFUSES(ac_clone(NULL, &clone));
    REFUSES(ac_clone(searcher, NULL));
    REFUSES(ac_clone(searcher, &full));
    CHECK(!clone.at && full.at == searcher->at);
}

static void check_pointers_of_batches(search *by, const ac_searcher *searcher) {
    ac_cursor cursor = {0, 0};
    ac_match match;
    size_t filled;
    CHECK(by(searcher, NULL, 0, &no_byte, &cursor, NULL, 0, &filled) == AC_OK && !filled);
    cursor = (ac_cursor){0, 0};
    CHECK(by(searcher, "a", 1, &one_byte, &cursor, NULL, 0, &filled) == AC_OK && !filled);
    CHECK(by(searcher, "a", 1, &one_byte, &cursor, &match, 1, &filled) == AC_OK && filled == 1);
    CHECK(by(searcher, NULL, 1, &one_byte, &cursor, &match, 1, &filled) == AC_ARGUMENTS && !filled);
    REFUSES(by(searcher, "a", 1, NULL, &cursor, &match, 1, &filled));
    REFUSES(by(searcher, "a", 1, &one_byte, NULL, &match, 1, &filled));
    REFUSES(by(searcher, "a", 1, &one_byte, &cursor, NULL, 1, &filled));
    REFUSES(by(searcher, "a", 1, &one_byte, &cursor, &match, 1, NULL));
    REFUSES(by(&empty, "a", 1, &one_byte, &cursor, &match, 1, &filled));
    REFUSES(by(NULL, "a", 1, &one_byte, &cursor, &match, 1, &filled));
}

static void check_pointers_of_replace(const ac_searcher *searcher) {
    size_t end = 1, needed;
    uint8_t byte;
    CHECK(ac_replace(searcher, NULL, 0, "b", 1, &end, 1, NULL, 0, &needed) == AC_OK && !needed);
    CHECK(ac_replace(searcher, "a", 1, "b", 1, &end, 1, NULL, 0, &needed) == AC_OK && needed == 1);
    CHECK(ac_replace(searcher, "a", 1, "b", 1, &end, 1, &byte, 1, &needed) == AC_OK && needed == 1 && byte == 'b');
    REFUSES(ac_replace(&empty, "a", 1, "b", 1, &end, 1, &byte, 1, &needed));
    REFUSES(ac_replace(NULL, "a", 1, "b", 1, &end, 1, &byte, 1, &needed));
    REFUSES(ac_replace(searcher, NULL, 1, "b", 1, &end, 1, &byte, 1, &needed));
    REFUSES(ac_replace(searcher, "a", 1, NULL, 1, &end, 1, &byte, 1, &needed));
    REFUSES(ac_replace(searcher, "a", 1, "b", 1, NULL, 1, &byte, 1, &needed));
    REFUSES(ac_replace(searcher, "a", 1, "b", 1, &end, 1, NULL, 1, &needed));
    REFUSES(ac_replace(searcher, "a", 1, "b", 1, &end, 1, &byte, 1, NULL));
}

static void check_pointers_of_replacer(const ac_searcher *searcher) {
    ac_replacer replacer = AC_EMPTY, none = AC_EMPTY;
    size_t end = 1, taken = 9, filled = 9;
    uint8_t byte = '#';
    REFUSES(ac_replacer_open(&empty, "b", 1, &end, 1, &replacer));
    REFUSES(ac_replacer_open(NULL, "b", 1, &end, 1, &replacer));
    REFUSES(ac_replacer_open(searcher, NULL, 1, &end, 1, &replacer));
    REFUSES(ac_replacer_open(searcher, "b", 1, NULL, 1, &replacer));
    REFUSES(ac_replacer_open(searcher, "b", 1, &end, 1, NULL));
    CHECK(!replacer.at && ac_replacer_open(searcher, "b", 1, &end, 1, &replacer) == AC_OK && replacer.at);
    void *before = replacer.at;
    REFUSES(ac_replacer_open(searcher, "b", 1, &end, 1, &replacer));
    CHECK(replacer.at == before);
    CHECK(ac_replacer_feed(&replacer, NULL, 0, &taken, NULL, 0, &filled) == AC_OK && !taken && !filled);
    CHECK(ac_replacer_feed(&replacer, "a", 1, &taken, NULL, 0, &filled) == AC_OK && !taken && !filled);
    REFUSES(ac_replacer_feed(&none, "a", 1, &taken, &byte, 1, &filled));
    REFUSES(ac_replacer_feed(NULL, "a", 1, &taken, &byte, 1, &filled));
    REFUSES(ac_replacer_feed(&replacer, NULL, 1, &taken, &byte, 1, &filled));
    REFUSES(ac_replacer_feed(&replacer, "a", 1, NULL, &byte, 1, &filled));
    REFUSES(ac_replacer_feed(&replacer, "a", 1, &taken, NULL, 1, &filled));
    REFUSES(ac_replacer_feed(&replacer, "a", 1, &taken, &byte, 1, NULL));
    REFUSES(ac_replacer_end(&none, &byte, 1, &filled));
    REFUSES(ac_replacer_end(NULL, &byte, 1, &filled));
    REFUSES(ac_replacer_end(&replacer, NULL, 1, &filled));
    REFUSES(ac_replacer_end(&replacer, &byte, 1, NULL));
    CHECK(replacer.at == before && byte == '#');
    CHECK(ac_replacer_feed(&replacer, "a", 1, &taken, &byte, 1, &filled) == AC_OK && taken == 1 && filled == 1 && byte == 'b');
    CHECK(ac_replacer_end(&replacer, NULL, 0, &filled) == AC_OK && !filled);
    ac_replacer_close(&replacer);
    CHECK(!replacer.at);
    ac_replacer_close(&replacer);
    ac_replacer_close(NULL);
}

static void check_pointers(void) {
    ac_searcher searcher = check_pointers_of_open();
    check_pointers_of_finds(&searcher);
    check_pointers_of_clone(&searcher);
    check_pointers_of_batches(ac_walk, &searcher);
    check_pointers_of_batches(ac_overlapping, &searcher);
    check_pointers_of_replace(&searcher);
    check_pointers_of_replacer(&searcher);
    ac_close(&searcher);
}

/* No cursor leads out of the span, or to more matches than there is room for. */
static void check_wild_cursors(void) {
    const size_t wild[] = {0, 1, 2, 5, 6, 7, 63, SIZE_MAX / 2, SIZE_MAX - 1, SIZE_MAX};
    search *both[] = {ac_walk, ac_overlapping};
    for (uint32_t engine = AC_AUTO; engine <= AC_DFA; engine++) {
        ac_searcher searcher = opened(options_of(AC_STANDARD, AC_START_UNANCHORED, engine), "|ab|b|");
        ac_span span = {2, 5, 0, 0};
        for (int i = 0; i < 2 * 10 * 10; i++) {
            ac_cursor cursor = {wild[i / 2 % 10], wild[i / 20]};
            ac_match found[3];
            size_t filled = 0;
            for (int call = 0; call < 5; call++) {
                CHECK(both[i % 2](&searcher, "xabbab", 6, &span, &cursor, found, 3, &filled) == AC_OK && filled <= 3);
                for (size_t k = 0; k < filled; k++)
                    CHECK(found[k].pattern < 3 && found[k].start <= found[k].end && found[k].end <= 5);
            }
        }
        ac_close(&searcher);
    }
}

static void check_replaces(void) {
    ac_searcher searcher = opened(options_of(AC_LEFTMOST_FIRST, AC_START_UNANCHORED, AC_AUTO), "append|appendage|app|");
    const char *wanted = "x the zz to the xage";
    size_t ends[] = {1, 1, 3, 3}, fall[] = {1, 0, 3}, far[] = {1, 2, 4}, needed = 0, len = strlen(wanted);
    for (size_t room = 0; room < 40; room++) {
        char out[40];
        memset(out, '#', sizeof out);
        CHECK(ac_replace(&searcher, hobbits, 31, "xzz", 3, ends, 3, out, room, &needed) == AC_OK && needed == len);
        CHECK(room < len ? out[0] == '#' : !memcmp(out, wanted, len));
        CHECK(room == 0 || room >= len || out[room - 1] == '#');
        CHECK(out[room < len ? 0 : len] == '#');
    }
    CHECK(ac_replace(&searcher, hobbits, 31, "xzz", 3, ends, 2, NULL, 0, &needed) == AC_ARGUMENTS);
    CHECK(ac_replace(&searcher, hobbits, 31, "xzz", 3, ends, 4, NULL, 0, &needed) == AC_ARGUMENTS);
    CHECK(ac_replace(&searcher, hobbits, 31, "xzz", 3, fall, 3, NULL, 0, &needed) == AC_ARGUMENTS);
    CHECK(ac_replace(&searcher, hobbits, 31, "xzz", 3, far, 3, NULL, 0, &needed) == AC_ARGUMENTS);
    ac_close(&searcher);
}

static const char *pronouns = "he|her|his|hers||";

/* An opening, or a clone of an open searcher or a replacement by it: the status says that there was no memory, and nothing
   has changed. */
static int open_scarce(ac_options options, ac_searcher *searcher) {
    int32_t status = open_words(&options, pronouns, searcher);
    int is_right = status == AC_OK ? searcher->at != NULL : status == AC_MEMORY && !searcher->at;
    granted = -1;
    ac_close(searcher);
    return is_right;
}

static int clone_scarce(ac_options options, ac_searcher *searcher) {
    ac_searcher clone = AC_EMPTY;
    int32_t status = ac_clone(searcher, &clone);
    (void)options;
    granted = -1;
    int is_right = status == AC_OK ? clone.at != NULL : status == AC_MEMORY && !clone.at;
    is_right = is_right && ac_describe(searcher, &(ac_facts)AC_NO_FACTS) == AC_OK;
    ac_close(&clone);
    return is_right;
}

static int replace_scarce(ac_options options, ac_searcher *searcher) {
    size_t ends[] = {1, 2, 3, 4, 5}, needed = 77;
    char out[64] = "#";
    int32_t status = ac_replace(searcher, "ushers", 6, "12345", 5, ends, 5, out, sizeof out, &needed);
    (void)options;
    return status == AC_OK ? needed != 77 && out[0] != '#' : status == AC_MEMORY && needed == 77 && out[0] == '#';
}

/* Makes a call again and again: first its first request is refused, then its second, and so on. */
static long refuse_each(int call(ac_options, ac_searcher *), ac_options options, ac_searcher *searcher) {
    for (long number = 0;; number++) {
        granted = number;
        was_refused = 0;
        CHECK(call(options, searcher));
        granted = -1;
        if (!was_refused)
            return number;
    }
}

static void check_refusals(void) {
    for (uint32_t i = 0; i < 2 * 4 * 3 * 3; i++) {
        ac_options options = options_of(i % 3, i / 3 % 3, i / 9 % 4);
        ac_searcher searcher = AC_EMPTY;
        lasting = i >= 36;
        CHECK(refuse_each(open_scarce, options, &searcher) > 0);
        searcher = opened(options, pronouns);
        CHECK(refuse_each(clone_scarce, options, &searcher) == 1);
        if (options.start_kind != AC_START_ANCHORED)
            CHECK(refuse_each(replace_scarce, options, &searcher) > 0);
        ac_close(&searcher);
    }
}

/* What a thread does, with a searcher of its own. Null if all is right. */
static void *work(void *number) {
    uint32_t engine = *(uint32_t *)number;
    for (int round = 0; round < 50; round++) {
        ac_options options = options_of(AC_STANDARD, AC_START_UNANCHORED, engine);
        ac_searcher searcher = AC_EMPTY;
        int is_right = open_words(&options, "append|appendage|app|", &searcher) == AC_OK &&
                       gives(ac_walk, &searcher, hobbits, whole(hobbits), 2, "2:0-3 2:11-14 2:22-25 ");
        ac_close(&searcher);
        if (!is_right)
            return number;
    }
    return NULL;
}

static void check_threads(void) {
    pthread_t threads[4];
    uint32_t engines[] = {AC_AUTO, AC_NONCONTIGUOUS_NFA, AC_CONTIGUOUS_NFA, AC_DFA};
    for (int i = 0; i < 4; i++)
        CHECK(pthread_create(&threads[i], NULL, work, &engines[i]) == 0);
    for (int i = 0; i < 4; i++) {
        void *fault;
        CHECK(pthread_join(threads[i], &fault) == 0 && !fault);
    }
}

static uint64_t number = 0x9E3779B97F4A7C15;

static uint32_t below(uint32_t bound) {
    number ^= number << 13;
    number ^= number >> 7;
    number ^= number << 17;
    return (uint32_t)(number >> 33) % bound;
}

/* Random text of a few letters; in a list of patterns bars among them, and one at its end. */
static const char *random_text(char *text, const char *letters, uint32_t most, const char *end) {
    uint32_t len = below(most + 1);
    for (uint32_t i = 0; i < len; i++)
        text[i] = letters[below((uint32_t)strlen(letters))];
    strcpy(text + len, end);
    return text;
}

/* All engines have the same matches in batches of any size, and the other calls agree with them. */
static void check_random_list(void) {
    char words[40], haystack[40], wanted[TEXT];
    random_text(words, "abB|", 30, "|");
    random_text(haystack, "abBc", 30, "");
    uint32_t kind = below(3), ignores = below(2), lists = kind == AC_STANDARD && below(2);
    search *by = lists ? ac_overlapping : ac_walk;
    uint32_t len = (uint32_t)strlen(haystack), start = below(len + 1);
    ac_span span = {start, start + below(len - start + 1), 0, below(2)};
    for (uint32_t engine = AC_AUTO; engine <= AC_DFA; engine++) {
        ac_options options = options_of(kind, 2 * below(2), engine);
        options.ignore_case = ignores;
        options.prefilter = below(2);
        options.byte_classes = below(2);
        options.dense_depth = below(4);
        ac_searcher searcher = opened(options, words);
        const char *got = text_of(by, &searcher, haystack, span, 1 + below(12));
        if (engine == AC_AUTO)
            strcpy(wanted, got ? got : "refused");
        CHECK(got && !strcmp(got, wanted));
        ac_match match;
        size_t count, spaces = 0;
        int32_t found = *wanted ? AC_FOUND : AC_OK;
        for (const char *at = wanted; *at; at++)
            spaces += *at == ' ';
        CHECK(ac_find(&searcher, haystack, len, &span, &match) == found);
        CHECK(ac_is_match(&searcher, haystack, len, &span) == found);
        CHECK(ac_count(&searcher, haystack, len, &span, &count) == AC_OK && (lists || count == spaces));
        ac_close(&searcher);
    }
}

int main(void) {
    check_answers();
    check_finds();
    check_spans();
    check_anchored();
    check_opens();
    check_sizes();
    check_statuses();
    check_usual_settings();
    check_settings();
    check_equal_patterns();
    check_facts();
    check_clones();
    check_pointers();
    check_wild_cursors();
    check_replaces();
    check_refusals();
    check_threads();
    for (int i = 0; i < 300; i++)
        check_random_list();
    printf("%ld checks, %ld faults found\n", checks, faults);
    return faults ? 1 : 0;
}
