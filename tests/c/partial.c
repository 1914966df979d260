/* Random histories: each question about a partial history, which is put in as it is wanted, is answered as that about the whole
 * one. */
#include "case.h"

#include <stdlib.h>

enum { COMMITS = 40, ROUNDS = 60, QUESTIONS = 14 };

static struct {
    int parents[3];
    size_t count;
    int64_t time;
} commits[COMMITS];

static gix_history *whole, *part;

static uint32_t below(uint32_t limit) {
    static uint32_t state = 1;
    state = state * 1664525 + 1013904223;
    return (state >> 8) % limit;
}

static gix_id id_at(int number) {
    gix_id id = id_of(0);
    id.bytes[0] = (uint8_t)(37 * number + 11);
    id.bytes[19] = (uint8_t)number;
    return id;
}

static gix_id any(void) { return id_at((int)below(COMMITS)); }

static int32_t put_in(gix_history *history, int number) {
    gix_id id = id_at(number), parents[3];
    for (size_t i = 0; i < commits[number].count; i++)
        parents[i] = id_at(commits[number].parents[i]);
    return gix_history_insert(history, &id, parents, commits[number].count, commits[number].time, false, 0);
}

/* Each commit has up to three parents among the eight before it. */
static void make(void) {
    for (int number = 0; number < COMMITS; number++) {
        commits[number].count = number < 8 || below(12) == 0 ? (size_t)(number > 0 && number < 8) : 1 + below(3);
        for (size_t i = 0; i < commits[number].count; i++)
            commits[number].parents[i] = number < 8 ? number - 1 : number - 8 + (int)(below(2) + 3 * i);
        commits[number].time = below(5) == 0 ? (int64_t)below(100) : 2 * (int64_t)number;
    }
}

/* Puts in the commit that is wanted, which was not there, and up to three of its ancestors. */
static void give(void) {
    gix_id wanted, known;
    EXPECT(gix_history_wanted(part, &wanted) == GIX_OK);
    int number = wanted.bytes[19];
    known = id_at(number);
    EXPECT(number < COMMITS && memcmp(&wanted, &known, sizeof known) == 0);
    if (number >= COMMITS || put_in(part, number) != GIX_OK) {
        printf("a commit is wanted that is there\n");
        exit(1);
    }
    for (uint32_t i = below(4); i > 0 && commits[number].count > 0; i--) {
        number = commits[number].parents[below((uint32_t)commits[number].count)];
        int32_t code = put_in(part, number);
        EXPECT(code == GIX_OK || code == GIX_ALREADY_THERE);
    }
}

/* Asks both histories, and expects one code. */
#define ASK(of_whole, of_part)                         \
    do {                                               \
        int32_t first = (of_whole), second;            \
        while ((second = (of_part)) == GIX_WANTS)      \
            give();                                    \
        EXPECT(first == second && first != GIX_WANTS); \
    } while (0)

static void bases(void) {
    gix_id one = any(), two = any(), others[3], left[COMMITS], right[COMMITS];
    size_t count = 0, same = 0, behind = 0, other = 0, given = 1 + below(3);
    for (int i = 0; i < 3; i++)
        others[i] = any();
    memset(left, 0, sizeof left);
    memset(right, 0, sizeof right);
    ASK(gix_history_merge_bases(whole, &one, others, given, left, COMMITS, &count),
        gix_history_merge_bases(part, &one, others, given, right, COMMITS, &same));
    EXPECT(count == same && memcmp(left, right, sizeof left) == 0);
    ASK(gix_history_octopus(whole, &one, others, given, left), gix_history_octopus(part, &one, others, given, right));
    EXPECT(memcmp(left, right, sizeof left) == 0);
    ASK(gix_history_is_ancestor(whole, &one, &two), gix_history_is_ancestor(part, &one, &two));
    ASK(gix_history_reaches(whole, &one, &two), gix_history_reaches(part, &one, &two));
    ASK(gix_history_independent(whole, others, 3, left, COMMITS, &count), gix_history_independent(part, others, 3, right, COMMITS, &same));
    EXPECT(count == same && memcmp(left, right, sizeof left) == 0);
    ASK(gix_history_newest_first(whole, others, 3, left, COMMITS, &count), gix_history_newest_first(part, others, 3, right, COMMITS, &same));
    EXPECT(count == same && memcmp(left, right, sizeof left) == 0);
    ASK(gix_history_ahead_behind(whole, &one, &two, &count, &behind), gix_history_ahead_behind(part, &one, &two, &same, &other));
    EXPECT(count == same && behind == other);
}

static void texts(void) {
    static const char *const revisions[] = {"m", "m~2", "m^2", "m..n", "m...n", "n^!", "n^@", "m^-", "m~3^2", "n^{commit}", "m^{tree}", "x"};
    const char *revision = revisions[below(sizeof revisions / sizeof *revisions)];
    gix_id one = any(), two = any(), left[COMMITS], right[COMMITS];
    gix_span span = {below(6), one, two}, other = span;
    gix_fault fault = {0, 0, 0}, its = fault;
    gix_name name;
    gix_how how = GIX_HOW_INIT;
    uint8_t text[80], same[80];
    size_t count = 0, len = 0;
    uint32_t depth = 0, its_depth = 0;
    memset(left, 0, sizeof left);
    memset(right, 0, sizeof right);
    ASK(gix_history_count(whole, &span, &count), gix_history_count(part, &other, &len));
    EXPECT(count == len);
    ASK(gix_history_list(whole, &span, NULL, 0, left, COMMITS, &count), gix_history_list(part, &span, NULL, 0, right, COMMITS, &len));
    EXPECT(count == len && memcmp(left, right, sizeof left) == 0);
    name.id = any();
    name.text = text_of("v1");
    name.text_len = 2;
    how.first_parent = below(2) == 1;
    count = len = 0;
    ASK(gix_history_describe(whole, &one, &name, 1, &how, text, sizeof text, &count, &depth),
        gix_history_describe(part, &one, &name, 1, &how, same, sizeof same, &len, &its_depth));
    EXPECT(count == len && depth == its_depth && memcmp(text, same, len) == 0);
    for (int i = 0; i < 2; i++) {
        gix_history *history = i == 0 ? whole : part;
        EXPECT(gix_history_name(history, text_of("m"), 1, &one) == GIX_OK && gix_history_name(history, text_of("n"), 1, &two) == GIX_OK);
    }
    ASK(gix_history_rev_parse(whole, text_of(revision), strlen(revision), 0, 0, &span, &fault),
        gix_history_rev_parse(part, text_of(revision), strlen(revision), 0, 0, &other, &its));
    EXPECT(memcmp(&span, &other, sizeof span) == 0 && fault.number == its.number && fault.start == its.start);
    ASK(gix_history_resolve(whole, text_of(revision), strlen(revision), 0, 0, &span, &fault),
        gix_history_resolve(part, text_of(revision), strlen(revision), 0, 0, &other, &its));
    EXPECT(memcmp(&span, &other, sizeof span) == 0 && fault.number == its.number && fault.length == its.length);
}

int main(void) {
    for (int round = 0; round < ROUNDS; round++) {
        make();
        EXPECT(gix_history_new(1, &whole) == GIX_OK);
        for (int number = 0; number < COMMITS; number++)
            EXPECT(put_in(whole, number) == GIX_OK);
        for (int question = 0; question < QUESTIONS; question++) {
            EXPECT(gix_history_new(2, &part) == GIX_OK);
            gix_history_set_partial(part, true);
            bases();
            texts();
            gix_history_free(part);
        }
        gix_history_free(whole);
    }
    printf("%s\n", failed ? "failed" : "passed");
    return failed;
}
