/*
 * Prints the merge bases of two commits. It reads the history from git:
 *
 *     git log --all --format='%H %ct %P' | ./bases $(git rev-parse main feature)
 *
 * Compile it with
 *
 *     cc -o bases bases.c $(pkg-config --cflags --libs gix_revision)
 */
#include <gix_revision.h>
#include <stdio.h>
#include <stdlib.h>
#include <string.h>

enum { MOST = 64 };

static void fail(const char *text, const char *why) {
    fprintf(stderr, "bases: '%s': %s\n", text, why);
    exit(2);
}

static gix_id id_of(const char *digits) {
    gix_id id;
    if (!gix_id_read(&id, digits, strlen(digits))) fail(digits, "not 40 hex digits");
    return id;
}

/* Adds the commit of a line: its id, its commit date and its parents. */
static void put(gix_history *history, char *line) {
    gix_id parents[MOST];
    size_t count = 0;
    const char *id = strtok(line, " \n"), *time = strtok(NULL, " \n");
    if (!time) fail(id ? id : "", "not a line with an id and a date");
    gix_id commit = id_of(id);
    for (char *word; (word = strtok(NULL, " \n"));) {
        if (count == MOST) fail(id, "too many parents");
        parents[count++] = id_of(word);
    }
    int32_t code = gix_history_insert(history, &commit, parents, count, strtoll(time, NULL, 10), false, 0);
    if (code != GIX_OK) fail(id, gix_strerror(code));
}

int main(int argc, char **argv) {
    gix_history *history;
    gix_id bases[MOST];
    size_t count = 0;
    char line[4096], digits[41];
    if (argc != 3) {
        fputs("usage: bases COMMIT COMMIT <HISTORY\n", stderr);
        return 2;
    }
    gix_id first = id_of(argv[1]), second = id_of(argv[2]);
    if (gix_history_new(0, &history) != GIX_OK) fail("history", gix_strerror(GIX_OUT_OF_MEMORY));
    while (fgets(line, sizeof line, stdin)) put(history, line);
    int32_t code = gix_history_merge_bases(history, &first, &second, 1, bases, MOST, &count);
    if (code < 0) fail(argv[1], gix_strerror(code));
    for (size_t i = 0; i < count && i < MOST; i++) {
        gix_id_write(digits, &bases[i]);
        puts(digits);
    }
    gix_history_free(history);
    return code;
}
