/*
 * Ten tasks with a repository: tasks REPOSITORY TASK [WORD..]
 *
 *   pull BASE HEAD     the commits of a pull request, the oldest first
 *   version COMMIT     a version such as 1.2.dev3+g1a2b3c4, from tags such as v1.2
 *   merged TOPIC INTO  whether a branch was merged
 *   branches BASE      how far each branch is ahead of BASE, and behind
 *   resolve TEXT       the commit that a user has typed
 *   receive            a pre-receive hook: refuses what drops commits
 *   serve              merge bases, for lines of two revisions
 *   picks FROM TO      the commits to cherry-pick, the oldest first
 *   release COMMIT     the first release with a commit, by tags such as v1.2
 *   base REF REF       the merge bases of two refs
 *
 * Compile it with
 *
 *     cc -o tasks tasks.c $(pkg-config --variable=repository gix_revision) \
 *         $(pkg-config --cflags gix_revision)
 */
#define _GNU_SOURCE
#include <gix_repository.h>
#include <inttypes.h>
#include <stdio.h>
#include <stdlib.h>
#include <string.h>

static gix_repository *repository;

/* Ends the program if there is no answer. */
static int32_t need(int32_t code) {
    if (code >= 0) return code;
    fprintf(stderr, "tasks: %s\n", gix_repository_message(repository));
    exit(2);
}

/* Lists the commits of FROM..TO. */
static int range(const char *from, const char *to, const char *const *options) {
    char *both, **ids;
    if (asprintf(&both, "%s..%s", from, to) < 0) return 2;
    need(gix_repository_rev_list(repository, options, GIX_TEXTS(both), &ids));
    for (char **id = ids; *id; id++) puts(*id);
    free(ids);
    free(both);
    return 0;
}

static int pull(char **words) { return range(words[0], words[1], GIX_TEXTS("--reverse")); }

static int version(char **words) {
    char *text;
    need(gix_repository_describe(repository, GIX_TEXTS("--tags", "--long", "--match=v*"), words[0],
                                 &text));
    char *id = strrchr(text, '-');
    *id++ = 0;
    char *depth = strrchr(text, '-');
    *depth++ = 0;
    if (strcmp(depth, "0") == 0)
        printf("%s\n", text + 1);
    else
        printf("%s.dev%s+%s\n", text + 1, depth, id);
    free(text);
    return 0;
}

static int merged(char **words) {
    int32_t is_merged = need(gix_repository_reaches(repository, words[1], words[0]));
    puts(is_merged == 1 ? "yes" : "no");
    return is_merged == 1 ? 0 : 1;
}

static int branches(char **words) {
    gix_reference *refs;
    size_t count = 0;
    need(gix_repository_references(repository, NULL, GIX_TEXTS("refs/heads"), &refs));
    while (refs[count].name) count++;
    const char **ids = calloc(count + 1, sizeof *ids);
    gix_ahead_behind *both = calloc(count + 1, sizeof *both);
    if (!ids || !both) return 2;
    for (size_t i = 0; i < count; i++) ids[i] = refs[i].id;
    need(gix_repository_ahead_behind(repository, words[0], ids, both));
    for (size_t i = 0; i < count; i++)
        printf("%s %" PRIu64 " %" PRIu64 "\n", refs[i].name, both[i].ahead, both[i].behind);
    free(both);
    free(ids);
    free(refs);
    return 0;
}

static int resolve(char **words) {
    char *commit, digits[41];
    if (asprintf(&commit, "%s^{commit}", words[0]) < 0) return 2;
    need(gix_repository_rev_parse(repository, commit, digits));
    puts(digits);
    free(commit);
    return 0;
}

static int receive(char **words) {
    char line[1024], *name;
    (void)words;
    while (fgets(line, sizeof line, stdin)) {
        const char *before = strtok(line, " "), *after = strtok(NULL, " ");
        if (!(name = strtok(NULL, "\n"))) return 2;
        /* A new ref, or one that is deleted. */
        if (strspn(before, "0") == 40 || strspn(after, "0") == 40) continue;
        if (need(gix_repository_reaches(repository, after, before)) == 1) continue;
        return printf("%s would drop commits\n", name), 1;
    }
    return 0;
}

static int serve(char **words) {
    char line[1024], **ids;
    (void)words;
    gix_repository_set_timeout(repository, 10000);
    while (fgets(line, sizeof line, stdin)) {
        const char *one = strtok(line, " \n"), *other = strtok(NULL, " \n");
        const char *both[] = {one ? one : "", other ? other : "", NULL};
        int32_t code = gix_repository_merge_bases(repository, both, &ids);
        if (code < 0) puts("error");
        if (code < 0) continue;
        puts(ids[0] ? ids[0] : "none");
        free(ids);
    }
    return 0;
}

static int picks(char **words) {
    return range(words[0], words[1], GIX_TEXTS("--reverse", "--no-merges"));
}

static int release(char **words) {
    gix_reference *refs;
    const char *first = NULL;
    need(gix_repository_contains(repository, words[0], GIX_TEXTS("refs/tags/v*"), &refs));
    for (gix_reference *ref = refs; ref->name; ref++)
        if (!first || strverscmp(ref->name, first) < 0) first = ref->name;
    puts(first ? first + strlen("refs/tags/") : "none");
    free(refs);
    return 0;
}

static int base(char **words) {
    char **ids;
    int32_t code =
        need(gix_repository_merge_bases(repository, GIX_TEXTS(words[0], words[1]), &ids));
    for (char **id = ids; *id; id++) puts(*id);
    free(ids);
    return code;
}

static const struct {
    const char *name;
    int words;
    int (*run)(char **words);
} tasks[] = {
    {"pull", 2, pull},         {"version", 1, version}, {"merged", 2, merged},
    {"branches", 1, branches}, {"resolve", 1, resolve}, {"receive", 0, receive},
    {"serve", 0, serve},       {"picks", 2, picks},     {"release", 1, release},
    {"base", 2, base},
};

int main(int argc, char **argv) {
    for (size_t i = 0; argc > 2 && i < sizeof tasks / sizeof *tasks; i++) {
        if (strcmp(argv[2], tasks[i].name) != 0 || argc != 3 + tasks[i].words) continue;
        if (gix_repository_open(argv[1], NULL, NULL, &repository) != GIX_OK) return 2;
        int status = tasks[i].run(argv + 3);
        gix_repository_free(repository);
        return status;
    }
    fputs("usage: tasks REPOSITORY TASK [WORD..]\n", stderr);
    return 2;
}
