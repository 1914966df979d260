/* Answers the lines `commit`, `base`, `octopus` and `ahead-behind` of revtool through the library, as revtool does; with the path of a
 * commit-graph file over that, and with the paths of several over a chain of them. */
#include "case.h"

#include <stdlib.h>

static int by_bytes(const void *a, const void *b) { return memcmp(a, b, sizeof(gix_id)); }

/* Reads the ids of the words that are left of a line. */
static size_t read_ids(gix_id *ids, size_t room) {
    size_t count = 0;
    for (char *word = strtok(NULL, " \n"); word && count < room; word = strtok(NULL, " \n"), count++)
        for (size_t i = 0; i < 20; i++) {
            char digits[3] = {word[2 * i], word[2 * i + 1], 0};
            ids[count].bytes[i] = (uint8_t)strtoul(digits, NULL, 16);
        }
    return count;
}

static void print_ids(const char *word, gix_id *ids, size_t count) {
    qsort(ids, count, sizeof *ids, by_bytes);
    fputs(word, stdout);
    if (count == 0)
        fputs(" none", stdout);
    for (size_t i = 0; i < count; i++) {
        putchar(' ');
        for (int j = 0; j < 20; j++)
            printf("%02x", ids[i].bytes[j]);
    }
    putchar('\n');
}

static void put_commit(gix_history *history) {
    gix_id id, parents[16];
    char *word = strtok(NULL, " \n");
    for (size_t i = 0; i < 20; i++) {
        char digits[3] = {word[2 * i], word[2 * i + 1], 0};
        id.bytes[i] = (uint8_t)strtoul(digits, NULL, 16);
    }
    int64_t time = strtoll(strtok(NULL, " \n"), NULL, 10);
    const char *generation = strtok(NULL, " \n");
    size_t count = read_ids(parents, 16);
    EXPECT(gix_history_insert(history, &id, parents, count, time, *generation != '-', (uint32_t)strtoul(generation, NULL, 10)) == GIX_OK);
}

/* A history over the file at a path, or over a chain of files, the lowest first. */
static gix_history *open_files(char **paths, size_t count) {
    static uint8_t bytes[4][1 << 20];
    gix_bytes files[4];
    gix_history *history = NULL;
    if (count > 4)
        exit(2);
    for (size_t i = 0; i < count; i++) {
        FILE *file = fopen(paths[i], "rb");
        if (!file)
            exit(2);
        files[i].bytes = bytes[i];
        files[i].bytes_len = fread(bytes[i], 1, sizeof bytes[i], file);
        fclose(file);
    }
    if ((count == 1 ? gix_history_open(files[0].bytes, files[0].bytes_len, 0, &history) : gix_history_open_chain(files, count, 0, &history)) != GIX_OK)
        exit(3);
    return history;
}

int main(int argc, char **argv) {
    gix_history *history = NULL;
    char line[1024];
    if (argc > 1)
        history = open_files(argv + 1, (size_t)argc - 1);
    else
        EXPECT(gix_history_new(0, &history) == GIX_OK);
    while (fgets(line, sizeof line, stdin)) {
        gix_id ids[16], out[64];
        size_t count = 0;
        const char *word = strtok(line, " \n");
        if (strcmp(word, "commit") == 0) {
            put_commit(history);
            continue;
        }
        size_t given = read_ids(ids, 16);
        if (strcmp(word, "ahead-behind") == 0) {
            size_t behind = 0;
            EXPECT(gix_history_ahead_behind(history, ids, ids + 1, &count, &behind) == GIX_OK);
            printf("%s %zu %zu\n", word, count, behind);
            continue;
        }
        if (strcmp(word, "base") == 0) {
            EXPECT(gix_history_merge_bases(history, ids, ids + 1, given - 1, out, 64, &count) >= GIX_OK);
        } else {
            int32_t code = gix_history_octopus(history, ids, ids + 1, given - 1, out);
            EXPECT(code >= GIX_OK);
            count = code == GIX_OK;
        }
        print_ids(word, out, count);
    }
    gix_history_free(history);
    return failed;
}
