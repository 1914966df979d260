/* 1,000,000 commits, put in and asked, and how long each takes: two lines from a root, each fourth commit of which merges the other line's
 * commit four steps below. */
#define _POSIX_C_SOURCE 199309L
#include "case.h"

#include <time.h>

enum { COMMITS = 1000000 };

static gix_id numbered(uint32_t number) {
    gix_id id = id_of(0);
    for (int i = 0; i < 4; i++)
        id.bytes[i] = (uint8_t)(number >> (24 - 8 * i));
    return id;
}

static double last;

/* Prints the processor time since the last call. */
static void lap(const char *what) {
    struct timespec at;
    clock_gettime(CLOCK_PROCESS_CPUTIME_ID, &at);
    double now = (double)at.tv_sec * 1e3 + (double)at.tv_nsec * 1e-6;
    if (*what)
        printf("%-40s %9.3f ms\n", what, now - last);
    last = now;
}

/* Asks for the merge bases of two commits, of which there is one. */
static void ask(gix_history *history, uint32_t first, uint32_t other, uint32_t base, const char *what) {
    gix_id a = numbered(first), b = numbered(other), out[4], wanted = numbered(base);
    size_t count = 0;
    lap("");
    EXPECT(gix_history_merge_bases(history, &a, &b, 1, out, 4, &count) == GIX_OK);
    lap(what);
    EXPECT(count == 1 && memcmp(out, &wanted, sizeof wanted) == 0);
}

int main(void) {
    gix_history *history = NULL;
    EXPECT(gix_history_new(0, &history) == GIX_OK);
    lap("");
    for (uint32_t i = 0; i < COMMITS; i++) {
        gix_id id = numbered(i), parents[2];
        size_t len = 0;
        if (i > 0)
            parents[len++] = numbered(i > 1 ? i - 2 : 0);
        if (i >= 16 && i < COMMITS - 64 && i % 8 < 2)
            parents[len++] = numbered((i ^ 1) - 8);
        EXPECT(gix_history_insert(history, &id, parents, len, (int64_t)i, false, 0) == GIX_OK);
        if (i == 99999)
            lap("100,000 commits put in");
    }
    lap("900,000 more");
    /* The last merges are those of COMMITS - 72 and COMMITS - 71; each side reaches both commits eight below. */
    uint32_t one = COMMITS - 1, two = COMMITS - 2;
    gix_id a = numbered(one), b = numbered(two), out[4];
    size_t count = 0;
    EXPECT(gix_history_merge_bases(history, &a, &b, 1, out, 4, &count) == GIX_OK && count == 2);
    lap("merge bases, first");
    EXPECT(gix_history_merge_bases(history, &a, &b, 1, out, 4, &count) == GIX_OK && count == 2);
    lap("merge bases, again");
    gix_id next = numbered(COMMITS), parents[2];
    parents[0] = a;
    parents[1] = b;
    EXPECT(gix_history_insert(history, &next, parents, 2, COMMITS, false, 0) == GIX_OK);
    lap("one commit put in");
    ask(history, COMMITS, one, one, "merge bases, after that commit");

    gix_name name = {numbered(COMMITS - 9), text_of("v1"), 2};
    gix_how how = GIX_HOW_INIT;
    uint8_t text[32];
    size_t len = 0;
    uint32_t depth = 0;
    EXPECT(gix_history_describe(history, &a, &name, 1, &how, text, sizeof text, &len, &depth) == GIX_OK && depth == 4);
    lap("describe, a name 4 commits away");
    EXPECT(gix_history_merge_bases(history, &a, &b, 1, out, 4, &count) == GIX_OK && count == 2);
    lap("merge bases, after that");
    size_t ahead = 0, behind = 0;
    EXPECT(gix_history_ahead_behind(history, &next, &b, &ahead, &behind) == GIX_OK && ahead > behind && behind == 0);
    lap("ahead and behind");
    gix_id root = numbered(0);
    EXPECT(gix_history_is_ancestor(history, &root, &next) == GIX_OK);
    lap("whether the root is an ancestor");
    EXPECT(gix_history_missing(history, &a, 0, out, 4, &count) == GIX_OK && count == 0);
    lap("what is missing, first");
    EXPECT(gix_history_missing(history, &a, 0, out, 4, &count) == GIX_OK && count == 0);
    lap("what is missing, again");
    gix_history_free(history);
    lap("free");
    puts(failed ? "failed" : "passed");
    return failed;
}
