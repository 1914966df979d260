/* Each allocation fails in turn: the call is refused and repeated, then answers right, and nothing leaks.
 * Linked with --wrap for the three functions that take memory. */
#include "case.h"

#include <stdlib.h>

static long left = -1; /* allocations until one fails; below 0 none does */
static long live = 0, refused = 0;

static int fails(void) {
    if (left < 0)
        return 0;
    if (left-- > 0)
        return 0;
    refused++;
    return 1;
}

void *__real_malloc(size_t size);
void *__real_realloc(void *block, size_t size);
void __real_free(void *block);
void *__wrap_malloc(size_t size);
void *__wrap_realloc(void *block, size_t size);
void __wrap_free(void *block);

void *__wrap_malloc(size_t size) {
    if (fails())
        return NULL;
    void *block = __real_malloc(size);
    live += block != NULL;
    return block;
}

void *__wrap_realloc(void *block, size_t size) {
    if (fails())
        return NULL;
    void *moved = __real_realloc(block, size);
    live += block == NULL && moved != NULL;
    return moved;
}

void __wrap_free(void *block) {
    live -= block != NULL;
    __real_free(block);
}

/* Repeats a call that is refused for want of memory. */
#define UNTIL(code, call)                                                     \
    do {                                                                      \
        int32_t got = (call);                                                 \
        if (got == GIX_OUT_OF_MEMORY)                                         \
            got = (call);                                                     \
        if (got != (code)) {                                                  \
            printf("line %d: code %d, allocation %ld\n", __LINE__, got, turn); \
            failed = 1;                                                       \
        }                                                                     \
    } while (0)

static const char content[] = "tree 4b825dc642cb6eb9a060e54bf8d69288fbee4904\n"
                              "parent 1111111111111111111111111111111111111111\n"
                              "author a <a@b> 5 +0000\ncommitter a <a@b> 7 +0000\n\nm\n";

static void calls(gix_history *history, long turn) {
    gix_id one = id_of(0x11), four = id_of(0x44), five = id_of(0x55), out[4];
    gix_name name = {one, text_of("v1"), 2};
    gix_how how = GIX_HOW_INIT;
    gix_span span;
    gix_fault fault;
    gix_commit commit;
    gix_id object;
    gix_ids *list = NULL;
    gix_names *table = NULL;
    uint8_t text[32];
    size_t count = 0, len = 0;
    uint32_t depth = 0;
    EXPECT(gix_id_read(&object, "163ba4c0c966e03dfae90637407a44f5437f71f8", 40));
    UNTIL(GIX_OK, put(history, 0x11, 0, 0, 1));
    UNTIL(GIX_OK, put(history, 0x22, 0x11, 0, 2));
    UNTIL(GIX_OK, put(history, 0x33, 0x11, 0, 2));
    UNTIL(GIX_OK, put(history, 0x44, 0x22, 0x33, 4));
    UNTIL(GIX_OK, put(history, 0x55, 0x22, 0x33, 5));
    UNTIL(GIX_OK, gix_history_merge_bases(history, &four, &five, 1, out, 4, &count));
    EXPECT(count == 2 && is_id(&out[0], 0x22) && is_id(&out[1], 0x33));
    UNTIL(GIX_OK, gix_history_octopus(history, &four, &five, 1, out));
    EXPECT(is_id(out, 0x22));
    UNTIL(GIX_OK, gix_history_is_ancestor(history, &one, &five));
    UNTIL(GIX_OK, gix_history_independent(history, &one, 1, out, 4, &count));
    EXPECT(count == 1 && is_id(out, 0x11));
    UNTIL(GIX_OK, gix_history_ahead_behind(history, &five, &one, &count, &len));
    EXPECT(count == 3 && len == 0);
    UNTIL(GIX_OK, gix_history_newest_first(history, &four, 1, out, 4, &count));
    EXPECT(count == 1 && is_id(out, 0x44));
    UNTIL(GIX_OK, put(history, 0x66, 0x99, 0x77, 6));
    UNTIL(GIX_OK, gix_history_missing(history, &one, 0, out, 4, &count));
    EXPECT(count == 2 && is_id(&out[0], 0x77) && is_id(&out[1], 0x99));
    UNTIL(GIX_OK, gix_history_missing_all(history, &list));
    EXPECT(gix_ids_read(list, 0, out, 4) == 2 && is_id(&out[0], 0x77) && is_id(&out[1], 0x99));
    gix_ids_free(list);
    UNTIL(GIX_OK, gix_names_new(&name, 1, 0, &table));
    UNTIL(GIX_OK, gix_history_describe(history, &four, &name, 1, &how, text, sizeof text, &len, &depth));
    EXPECT(len == 13 && memcmp(text, "v1-3-g4444444", 13) == 0);
    memset(text, '.', sizeof text);
    UNTIL(GIX_OK, gix_history_describe_by(history, &four, table, &how, text, sizeof text, &len, &depth));
    EXPECT(len == 13 && memcmp(text, "v1-3-g4444444", 13) == 0);
    gix_names_free(table);
    UNTIL(1, gix_history_reaches(history, &five, &one));
    UNTIL(GIX_OK, gix_history_commit(history, &four, &commit, out, 4));
    EXPECT(commit.time == 4 && commit.parents_len == 2 && is_id(&out[0], 0x22) && is_id(&out[1], 0x33));
    UNTIL(GIX_OK, gix_history_insert_object(history, &object, text_of(content), sizeof content - 1));
    EXPECT(gix_history_len(history) == 7);
    UNTIL(GIX_OK, gix_history_name(history, text_of("main"), 4, &four));
    UNTIL(GIX_OK, gix_history_resolve(history, text_of("5555~1..main^{commit}"), 21, 0, 0, &span, &fault));
    UNTIL(GIX_OK, gix_history_rev_parse(history, text_of("5555^..main^{}"), 14, 0, 0, &span, &fault));
    UNTIL(GIX_OK, gix_history_list(history, &span, &one, 0, out, 4, &count));
    EXPECT(count == 2 && is_id(&out[0], 0x33) && is_id(&out[1], 0x44));
    UNTIL(GIX_OK, gix_history_list_all(history, &span, &list));
    EXPECT(gix_ids_read(list, 0, out, 4) == 2 && is_id(&out[0], 0x33) && is_id(&out[1], 0x44));
    gix_ids_free(list);
    UNTIL(GIX_OK, gix_history_count(history, &span, &count));
    EXPECT(count == 2);
}

/* A commit above those of the opened files. */
static void newer(gix_history *history, long turn) {
    gix_id four = id_of(0x44), six = id_of(0x66), out[4];
    size_t count = 0;
    UNTIL(GIX_OK, put(history, 0x66, 0x55, 0, 6));
    UNTIL(GIX_OK, gix_history_merge_bases(history, &four, &six, 1, out, 4, &count));
    EXPECT(count == 2 && is_id(&out[0], 0x22) && is_id(&out[1], 0x33));
    gix_history_free(history);
}

/* A file, and a chain of files. */
static void opened(long turn) {
    gix_history *history = NULL;
    uint8_t file[FILE_OF_FIVE];
    chain_of_three chain;
    write_file(file);
    write_chain(&chain);
    UNTIL(GIX_OK, gix_history_open(file, sizeof file, 0, &history));
    newer(history, turn);
    UNTIL(GIX_OK, gix_history_open_chain(chain.files, 3, 0, &history));
    newer(history, turn);
}

/* A partial history, which wants two commits. */
static void partial(long turn) {
    gix_history *history = NULL;
    gix_id one = id_of(0x11), two = id_of(0x22), out[2];
    gix_name name = {one, text_of("v1"), 2};
    gix_how how = GIX_HOW_INIT;
    gix_span span;
    gix_fault fault;
    uint8_t text[32];
    size_t count = 0;
    uint32_t depth = 0;
    UNTIL(GIX_OK, gix_history_new(0, &history));
    gix_history_set_partial(history, true);
    UNTIL(GIX_OK, gix_history_name(history, text_of("main"), 4, &two));
    UNTIL(GIX_WANTS, gix_history_rev_parse(history, text_of("main~1"), 6, 0, 0, &span, &fault));
    EXPECT(gix_history_wanted(history, out) == GIX_OK && is_id(out, 0x22));
    UNTIL(GIX_OK, put(history, 0x22, 0x11, 0, 2));
    UNTIL(GIX_WANTS, gix_history_merge_bases(history, &one, &two, 1, out, 2, &count));
    EXPECT(gix_history_wanted(history, out) == GIX_OK && is_id(out, 0x11));
    UNTIL(GIX_OK, put(history, 0x11, 0, 0, 1));
    UNTIL(GIX_OK, gix_history_merge_bases(history, &one, &two, 1, out, 2, &count));
    EXPECT(count == 1 && is_id(out, 0x11));
    UNTIL(GIX_OK, gix_history_describe(history, &two, &name, 1, &how, text, sizeof text, &count, &depth));
    UNTIL(GIX_OK, gix_history_rev_parse(history, text_of("main~1"), 6, 0, 0, &span, &fault));
    EXPECT(is_id(&span.first, 0x11));
    gix_history_free(history);
}

int main(void) {
    long turn = -1, before;
    do {
        gix_history *history = NULL;
        turn++;
        before = refused;
        left = turn;
        UNTIL(GIX_OK, gix_history_new(0, &history));
        calls(history, turn);
        gix_history_free(history);
        opened(turn);
        partial(turn);
        EXPECT(live == 0);
    } while (refused > before);
    left = -1;
    printf("%ld allocations failed in turn: %s\n", turn, failed ? "failed" : "passed");
    return failed;
}
