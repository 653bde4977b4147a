/* Threads that share a searcher, at full speed and under helgrind: each has the answers that one has alone. */
#include "ac.h"
#include <pthread.h>
#include <stdio.h>
#include <string.h>

enum { THREADS = 4, ROUNDS = 5, BATCH = 7, MOST = 500 };

static const char words[] = "appleappendageappendappmaplepee", texts[] = "0123456";
static const size_t word_ends[] = {5, 14, 20, 23, 28, 30, 31}, text_ends[] = {1, 2, 3, 4, 5, 6, 7};
enum { WORDS = sizeof word_ends / sizeof *word_ends };
static char haystack[2000];

/* What the calls answer about the haystack. */
typedef struct answers {
    ac_match found, walked[MOST], listed[MOST], streamed[MOST];
    size_t walked_len, listed_len, streamed_len, count, patterns, engine, replaced_len, pieced_len;
    int32_t statuses[5];
    char replaced[sizeof haystack], pieced[sizeof haystack];
} answers;

typedef int32_t search(const ac_searcher *, const void *, size_t, const ac_span *, ac_cursor *, ac_match *, size_t, size_t *);

/* All matches of a walk or a listing, by a cursor of its own. */
static size_t all_matches(search *by, const ac_searcher *searcher, ac_match *out) {
    const ac_span span = AC_WHOLE(sizeof haystack);
    ac_cursor cursor = {0, 0};
    size_t len = 0;
    for (size_t filled = BATCH; filled == BATCH && len + BATCH <= MOST; len += filled)
        if (by(searcher, haystack, sizeof haystack, &span, &cursor, out + len, BATCH, &filled) != AC_OK)
            return MOST + 1;
    return len;
}

/* All occurrences, by a stream of its own that is fed a few bytes at a time. */
static size_t all_streamed(const ac_searcher *searcher, ac_match *out) {
    ac_stream stream = AC_EMPTY;
    size_t len = 0, taken, filled;
    if (ac_stream_open(searcher, AC_LISTING, &stream) != AC_OK)
        return MOST + 1;
    for (size_t at = 0; at < sizeof haystack && len + BATCH <= MOST; at += taken, len += filled) {
        size_t piece = sizeof haystack - at < 50 ? sizeof haystack - at : 50;
        ac_stream_feed(&stream, haystack + at, piece, &taken, out + len, BATCH, &filled);
    }
    ac_stream_end(&stream, out + len, BATCH, &filled);
    ac_stream_close(&stream);
    return len + filled;
}

/* The replaced haystack, by a replacer of its own that is fed a few bytes at a time. */
static size_t all_replaced(const ac_searcher *searcher, char *out) {
    ac_replacer replacer = AC_EMPTY;
    size_t len = 0, taken, filled;
    if (ac_replacer_open(searcher, texts, sizeof texts - 1, text_ends, WORDS, &replacer) != AC_OK)
        return sizeof haystack + 1;
    for (size_t at = 0; at < sizeof haystack && len < sizeof haystack; at += taken, len += filled) {
        size_t piece = sizeof haystack - at < 50 ? sizeof haystack - at : 50;
        ac_replacer_feed(&replacer, haystack + at, piece, &taken, out + len, sizeof haystack - len, &filled);
    }
    ac_replacer_end(&replacer, out + len, sizeof haystack - len, &filled);
    ac_replacer_close(&replacer);
    return len + filled;
}

static void answer(const ac_searcher *searcher, answers *out) {
    const ac_span span = AC_WHOLE(sizeof haystack);
    ac_facts facts = AC_NO_FACTS;
    memset(out, 0, sizeof *out);
    out->statuses[0] = ac_find(searcher, haystack, sizeof haystack, &span, &out->found);
    out->statuses[1] = ac_is_match(searcher, haystack, sizeof haystack, &span);
    out->statuses[2] = ac_count(searcher, haystack, sizeof haystack, &span, &out->count);
    out->statuses[3] = ac_describe(searcher, &facts);
    out->statuses[4] = ac_replace(searcher, haystack, sizeof haystack, texts, sizeof texts - 1, text_ends, WORDS, out->replaced,
                                  sizeof out->replaced, &out->replaced_len);
    out->patterns = facts.patterns;
    out->engine = facts.engine;
    out->walked_len = all_matches(ac_walk, searcher, out->walked);
    out->listed_len = all_matches(ac_overlapping, searcher, out->listed);
    out->streamed_len = all_streamed(searcher, out->streamed);
    out->pieced_len = all_replaced(searcher, out->pieced);
}

/* What a thread works with, and how many of its checks failed. */
typedef struct job {
    pthread_t thread;
    const ac_searcher *shared;
    ac_searcher own;
    const answers *wanted;
    long checks, faults;
} job;

/* A check of the job's own thread, or of the main one while that doesn't run. */
static void check(job *job, int is_right) {
    job->checks++;
    job->faults += !is_right;
}

static void check_answers(job *job, const ac_searcher *searcher) {
    answers got;
    answer(searcher, &got);
    check(job, !memcmp(&got, job->wanted, sizeof got));
}

/* Asks the searcher that all threads share, clones of it, and a clone that is this thread's from the start. */
static void *work(void *at) {
    job *job = at;
    for (int round = 0; round < ROUNDS; round++) {
        ac_searcher clone = AC_EMPTY;
        check_answers(job, job->shared);
        check(job, ac_clone(job->shared, &clone) == AC_OK && clone.at);
        check_answers(job, &clone);
        ac_close(&clone);
        check(job, !clone.at && ac_clone(&job->own, &clone) == AC_OK);
        ac_close(&job->own);
        job->own = clone;
        check_answers(job, &job->own);
    }
    return NULL;
}

/* The same for a clone alone, while the searcher that it came from is closed. */
static void *work_alone(void *at) {
    job *job = at;
    for (int round = 0; round < ROUNDS; round++)
        check_answers(job, &job->own);
    ac_close(&job->own);
    return NULL;
}

static long checks, faults;

/* Runs threads with a searcher and a clone for each, which it takes; `between` is done while they run. */
static void run(void *work(void *), ac_searcher *searcher, const answers *wanted, void between(ac_searcher *)) {
    job jobs[THREADS];
    for (int i = 0; i < THREADS; i++) {
        jobs[i] = (job){.shared = searcher, .own = AC_EMPTY, .wanted = wanted};
        check(&jobs[i], ac_clone(searcher, &jobs[i].own) == AC_OK);
        faults += pthread_create(&jobs[i].thread, NULL, work, &jobs[i]) != 0;
    }
    between(searcher);
    for (int i = 0; i < THREADS; i++) {
        check(&jobs[i], pthread_join(jobs[i].thread, NULL) == 0);
        ac_close(&jobs[i].own);
        checks += jobs[i].checks;
        faults += jobs[i].faults;
    }
}

static void nothing(ac_searcher *searcher) {
    (void)searcher;
}

int main(void) {
    static answers wanted;
    for (size_t i = 0; i < sizeof haystack; i++)
        haystack[i] = "an append, the appendage; a maple, apples. "[i % 43];
    for (uint32_t engine = AC_NONCONTIGUOUS_NFA; engine <= AC_DFA; engine++) {
        ac_options options = AC_DEFAULTS;
        ac_searcher searcher = AC_EMPTY;
        options.engine = engine;
        faults += ac_open(&options, words, sizeof words - 1, word_ends, WORDS, &searcher) != AC_OK;
        answer(&searcher, &wanted);
        faults += wanted.patterns != WORDS || wanted.engine != engine || wanted.count != wanted.walked_len ||
                  wanted.walked_len < 90 || wanted.listed_len <= wanted.walked_len || wanted.listed_len > MOST ||
                  wanted.streamed_len != wanted.listed_len || memcmp(wanted.streamed, wanted.listed, sizeof wanted.listed) ||
                  wanted.pieced_len != wanted.replaced_len || memcmp(wanted.pieced, wanted.replaced, sizeof wanted.replaced);
        run(work, &searcher, &wanted, nothing);
        run(work_alone, &searcher, &wanted, ac_close);
        ac_close(&searcher);
    }
    printf("%ld checks, %ld faults found\n", checks, faults);
    return faults != 0;
}
