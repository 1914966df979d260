/*
 * gix_repository.h: questions about a git repository on disk. C99 and C++.
 *
 * The functions ask the program git-proved, which reads the repository. Merge
 * bases, lists, counts and descriptions come from proved calls over the commits
 * that the program has read. The functions of this header are tested, not
 * proved.
 *
 * Compile gix_repository.c together with your program. It needs Linux and the C
 * library, but not the library gix_revision:
 *
 *     cc -o tasks tasks.c $(pkg-config --variable=repository gix_revision) \
 *         $(pkg-config --cflags gix_revision)
 *
 * QUESTIONS
 *   A revision is what git reads as one (gitrevisions), such as "main~2" or the
 *   digits of an id. No revision is empty, begins with a dash, or has a line
 *   feed. So a text that a user has typed never becomes an option.
 *   Options are those of the git command with this name. Each is one text, such
 *   as "--max-count=3". Do not build options from what a user has typed.
 *   A list of texts ends with NULL. In C, GIX_TEXTS("main", "topic") makes one.
 *   Where options or patterns are passed, NULL is an empty list.
 *
 * RESULTS
 *   Functions return these codes:
 *   GIX_OK            The question is answered.
 *   GIX_NONE          Answered: there is no such thing. A list is then empty.
 *   a negative code   There is no answer; see the enum below.
 *   gix_repository_message has the reason in words. Only gix_repository_reaches
 *   returns 1 for yes and 0 for no.
 *   Outputs are written only with GIX_OK and GIX_NONE. A text, or a list with
 *   its texts, is one block of memory: release it with free().
 *
 * THE PROGRAM
 *   The first question starts git-proved, and the next ones share what it has
 *   read. It ends with gix_repository_free. It is also ended if a question has
 *   no answer, and the next question starts another one. So no answer belongs
 *   to an earlier question.
 *   It runs in the current folder, with the environment of the question that
 *   starts it.
 *
 * THREADS, SIGNALS AND FORKS
 *   Two calls on the same repository must not run at the same time. Different
 *   repositories are independent. The functions start no thread, install no
 *   signal handler, and cause no SIGPIPE.
 *   After a fork only the process that opened the repository can ask. In the
 *   other one, gix_repository_free releases memory and closes descriptors.
 */
#ifndef GIX_REPOSITORY_H
#define GIX_REPOSITORY_H

#include <gix_revision.h>

#ifdef __cplusplus
extern "C" {
#endif

/* Why there is no answer. Also GIX_OUT_OF_MEMORY, of gix_revision.h. */
typedef enum gix_no_answer {
    GIX_NOT_STARTED = -20,   /* git-proved did not start; errno says why */
    GIX_TIMED_OUT = -21,     /* no answer within the time limit */
    GIX_NO_REVISION = -22,   /* an argument cannot be a revision or a pattern */
    GIX_FORKED = -23,        /* this process is a fork of the one that opened */
    GIX_DAMAGED = -125,      /* damage or a failure; do not simply ask git */
    GIX_NOT_THERE = -128,    /* git would fail, too: for example no such name */
    GIX_NOT_SUPPORTED = -129 /* not supported; git may answer */
} gix_no_answer;

/* A list of texts, for a call: GIX_TEXTS("main", "^v1.0"). */
#ifndef __cplusplus
#define GIX_TEXTS(...) ((const char *const[]){__VA_ARGS__, NULL})
#endif

/* A repository, with the program that reads it. */
typedef struct gix_repository gix_repository;

/* A ref, as "refs/heads/main", and the digits of the id that it has. */
typedef struct {
    const char *name;
    const char *id;
} gix_reference;

/* How many commits one side reaches and the other one does not. */
typedef struct {
    uint64_t ahead;
    uint64_t behind;
} gix_ahead_behind;

/*
 * Opens the repository that git would find from the folder `path`. Nothing is
 * read yet: the first question says whether there is a repository.
 *
 * `program` is the path of git-proved. If it is NULL, the environment variable
 * GIT_PROVED is taken, or else the program git-proved on the path. `options`
 * are those of git-proved before a command: "--authentic", for example.
 *
 * Returns:
 *   GIX_OK             *out is the repository. gix_repository_free frees it.
 *   GIX_OUT_OF_MEMORY
 */
GIX_MUST_USE
int32_t gix_repository_open(const char *path, const char *program,
                            const char *const *options, gix_repository **out);

/* Ends the program, and frees the repository. It may be NULL. */
void gix_repository_free(gix_repository *repository);

/*
 * Sets how long a question may take, in milliseconds. With 0, and at first,
 * there is no limit.
 */
void gix_repository_set_timeout(gix_repository *repository,
                                uint32_t milliseconds);

/*
 * Returns why the last call had no answer, or an empty text: the messages of
 * git-proved, without the last line feed. The text is valid until the next call
 * on the repository.
 */
const char *gix_repository_message(const gix_repository *repository);

/*
 * Asks a question in git's words, such as GIX_TEXTS("rev-list", "-n1", "HEAD").
 * The first word is a command of git-proved. Do not build options from what a
 * user has typed: the words are not checked.
 *
 * With status 0 of the command the result is GIX_OK, and with status 1 it is
 * GIX_NONE. *text is then what the command prints, with a terminating zero.
 * *len does not count this zero.
 */
GIX_MUST_USE
int32_t gix_repository_ask(gix_repository *repository, const char *const *words,
                           char **text, size_t *len);

/* Writes the 40 digits of the object that a revision names, and a zero. */
GIX_MUST_USE
int32_t gix_repository_rev_parse(gix_repository *repository,
                                 const char *revision, char digits[41]);

/*
 * Lists the merge bases of the first revision and a merge of the others, the
 * newest first, as `git merge-base --all` does. Two revisions at least.
 */
GIX_MUST_USE
int32_t gix_repository_merge_bases(gix_repository *repository,
                                   const char *const *revisions, char ***ids);

/*
 * Tests whether `from` reaches `ancestor` (git merge-base --is-ancestor). A
 * commit reaches itself.
 *
 * Returns 1 for yes, 0 for no, or a negative code. Compare it with 1.
 */
GIX_MUST_USE
int32_t gix_repository_reaches(gix_repository *repository, const char *from,
                               const char *ancestor);

/*
 * Lists the commits of revisions and ranges, such as "main..topic" or "^main",
 * in git's order (git rev-list). No option may change what is printed for a
 * commit.
 */
GIX_MUST_USE
int32_t gix_repository_rev_list(gix_repository *repository,
                                const char *const *options,
                                const char *const *revisions, char ***ids);

/* Counts the commits of revisions and ranges (git rev-list --count). */
GIX_MUST_USE
int32_t gix_repository_count(gix_repository *repository,
                             const char *const *revisions, uint64_t *count);

/*
 * Counts for each of the branches how many commits only the branch reaches, and
 * how many only `base`. Any revision is a branch here. `out` has room for as
 * many results as there are branches.
 */
GIX_MUST_USE
int32_t gix_repository_ahead_behind(gix_repository *repository,
                                    const char *base,
                                    const char *const *branches,
                                    gix_ahead_behind *out);

/*
 * Describes a commit (git describe). If no name is near, the result is
 * GIX_NOT_THERE.
 */
GIX_MUST_USE
int32_t gix_repository_describe(gix_repository *repository,
                                const char *const *options,
                                const char *revision, char **text);

/*
 * Lists refs by name (git for-each-ref): all, or those that one of the patterns
 * matches. The option "--format" must not be passed. After the last ref comes
 * one whose name is NULL.
 */
GIX_MUST_USE
int32_t gix_repository_references(gix_repository *repository,
                                  const char *const *options,
                                  const char *const *patterns,
                                  gix_reference **refs);

/*
 * Lists the refs that reach a commit (git for-each-ref --contains). The rest is
 * as with gix_repository_references.
 */
GIX_MUST_USE
int32_t gix_repository_contains(gix_repository *repository, const char *commit,
                                const char *const *patterns,
                                gix_reference **refs);

#ifdef __cplusplus
}
#endif

#endif
