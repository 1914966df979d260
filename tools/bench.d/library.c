/*
 * Times the C library: library ID ID [FILE]
 *
 * Reads `commit` lines from standard input. If there is a FILE, it is git's
 * commit-graph file of the same commits, and the library opens it instead.
 *
 * Prints three processor times in seconds:
 *   to insert a commit, or to open the file, divided by the number of commits
 *   to find the merge bases of the two ids for the first time
 *   to find them again: the average of as many calls as take 0.2 seconds
 */
#define _POSIX_C_SOURCE 199309L
#include "gix_revision.h"

#include <stdio.h>
#include <stdlib.h>
#include <string.h>
#include <time.h>

enum { PARENTS = 16 };

typedef struct {
    gix_id id, parents[PARENTS];
    size_t parents_len;
    int64_t time;
} commit;

static double now(void) {
    struct timespec at;
    clock_gettime(CLOCK_PROCESS_CPUTIME_ID, &at);
    return (double)at.tv_sec + (double)at.tv_nsec * 1e-9;
}

static void expect(int is_so, const char *what) {
    if (!is_so) {
        fprintf(stderr, "library: %s\n", what);
        exit(1);
    }
}

static gix_id id_of(const char *digits) {
    gix_id id;
    expect(digits && strlen(digits) >= 40, "not an id of 40 digits");
    for (size_t i = 0; i < 20; i++) {
        char byte[3] = {digits[2 * i], digits[2 * i + 1], 0};
        id.bytes[i] = (uint8_t)strtoul(byte, NULL, 16);
    }
    return id;
}

/* Returns the commit of a line `commit ID TIME - PARENT..`. */
static commit commit_of(char *line) {
    commit read = {0};
    strtok(line, " \n");
    read.id = id_of(strtok(NULL, " \n"));
    read.time = strtoll(strtok(NULL, " \n"), NULL, 10);
    strtok(NULL, " \n");
    for (char *word = strtok(NULL, " \n"); word; word = strtok(NULL, " \n")) {
        expect(read.parents_len < PARENTS, "too many parents");
        read.parents[read.parents_len++] = id_of(word);
    }
    return read;
}

static void ask(gix_history *history, const gix_id *first, const gix_id *other) {
    gix_id out[64];
    size_t count;
    expect(gix_history_merge_bases(history, first, other, 1, out, 64, &count) >= GIX_OK, "cannot find merge bases");
}

static void insert_all(gix_history **history, const commit *commits, size_t count) {
    expect(gix_history_new(0, history) == GIX_OK, "out of memory");
    for (size_t i = 0; i < count; i++)
        expect(gix_history_insert(*history, &commits[i].id, commits[i].parents, commits[i].parents_len, commits[i].time, false, 0) == GIX_OK,
               "cannot insert a commit");
}

/* Reads a whole file. */
static uint8_t *bytes_of(const char *path, size_t *len) {
    FILE *file = fopen(path, "rb");
    expect(file && fseek(file, 0, SEEK_END) == 0, "cannot read the file");
    *len = (size_t)ftell(file);
    rewind(file);
    uint8_t *bytes = malloc(*len ? *len : 1);
    expect(bytes && fread(bytes, 1, *len, file) == *len, "cannot read the file");
    fclose(file);
    return bytes;
}

int main(int argc, char **argv) {
    commit *commits = NULL;
    size_t count = 0;
    char line[1024];
    gix_history *history;
    expect(argc == 3 || argc == 4, "usage: library ID ID [FILE]");
    gix_id first = id_of(argv[1]), other = id_of(argv[2]);
    while (fgets(line, sizeof line, stdin)) {
        if (strncmp(line, "commit ", 7) != 0)
            continue;
        if ((count & (count - 1)) == 0)
            commits = realloc(commits, (count ? 2 * count : 1) * sizeof *commits);
        expect(commits != NULL, "out of memory");
        commits[count++] = commit_of(line);
    }
    expect(count > 0, "no commits");
    size_t len = 0;
    uint8_t *bytes = argc == 4 ? bytes_of(argv[3], &len) : NULL;
    double start = now();
    if (bytes)
        expect(gix_history_open(bytes, len, 0, &history) == GIX_OK, "cannot open the commit-graph file");
    else
        insert_all(&history, commits, count);
    double filled = now();
    ask(history, &first, &other);
    double asked = now();
    size_t again = 0;
    while (now() - asked < 0.2) {
        ask(history, &first, &other);
        again++;
    }
    printf("%.9f %.9f %.9f\n", (filled - start) / (double)count, asked - filled, (now() - asked) / (double)again);
    gix_history_free(history);
    free(commits);
    free(bytes);
    return 0;
}
