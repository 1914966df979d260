/*
 * Prints the merge bases of two revisions. It reads commits by libgit2:
 *
 *     ./libgit2 /path/to/repository main topic
 *
 * Compile it with
 *
 *     cc -o libgit2 libgit2.c $(pkg-config --cflags --libs gix_revision libgit2)
 */
#include <git2.h>
#include <gix_revision.h>
#include <stdio.h>
#include <stdlib.h>
#include <string.h>

enum { PAGE = 1024 };

static void fail(const char *text, const char *why) {
    fprintf(stderr, "libgit2: '%s': %s\n", text, why);
    exit(2);
}

static void expect(int code, const char *text) {
    if (code < 0) fail(text, git_error_last()->message);
}

/* Adds a commit by its bytes. The library compares their hash with the id. */
static void put(gix_history *history, git_odb *odb, const gix_id *id) {
    git_odb_object *object;
    git_oid oid;
    char digits[41];
    gix_id_write(digits, id);
    expect(git_oid_fromraw(&oid, id->bytes), digits);
    expect(git_odb_read(&object, odb, &oid), digits);
    if (git_odb_object_type(object) != GIT_OBJECT_COMMIT) fail(digits, "not a commit");
    int32_t code = gix_history_insert_object(history, id, git_odb_object_data(object), git_odb_object_size(object));
    git_odb_object_free(object);
    if (code != GIX_OK && code != GIX_ALREADY_THERE) fail(digits, gix_strerror(code));
}

/* Adds the commit that a revision names, and all that it reaches. Returns its id. */
static gix_id load(gix_history *history, git_repository *repository, git_odb *odb, const char *text) {
    static gix_id missing[PAGE];
    git_object *object, *commit;
    gix_id id;
    size_t count = 0;
    expect(git_revparse_single(&object, repository, text), text);
    expect(git_object_peel(&commit, object, GIT_OBJECT_COMMIT), text);
    memcpy(id.bytes, git_object_id(commit)->id, sizeof id.bytes);
    git_object_free(commit);
    git_object_free(object);
    put(history, odb, &id);
    do {
        int32_t code = gix_history_missing(history, NULL, 0, missing, PAGE, &count);
        if (code != GIX_OK) fail(text, gix_strerror(code));
        for (size_t i = 0; i < count && i < PAGE; i++) put(history, odb, &missing[i]);
    } while (count > 0);
    return id;
}

int main(int argc, char **argv) {
    git_repository *repository;
    git_odb *odb;
    gix_history *history;
    gix_id bases[PAGE];
    size_t count = 0;
    char digits[41];
    if (argc != 4) fail("usage", "libgit2 REPOSITORY REVISION REVISION");
    git_libgit2_init();
    expect(git_repository_open(&repository, argv[1]), argv[1]);
    expect(git_repository_odb(&odb, repository), argv[1]);
    if (gix_history_new(0, &history) != GIX_OK) fail("history", gix_strerror(GIX_OUT_OF_MEMORY));
    gix_id first = load(history, repository, odb, argv[2]), second = load(history, repository, odb, argv[3]);
    int32_t code = gix_history_merge_bases(history, &first, &second, 1, bases, PAGE, &count);
    if (code < 0) fail(argv[2], gix_strerror(code));
    for (size_t i = 0; i < count && i < PAGE; i++) {
        gix_id_write(digits, &bases[i]);
        puts(digits);
    }
    gix_history_free(history);
    git_odb_free(odb);
    git_repository_free(repository);
    git_libgit2_shutdown();
    return code;
}
