/*
 * gix_revision.h: merge bases, commit descriptions and revisions. C99 and C++.
 *
 * A gix_history has commits: those of git's commit-graph, commits that the
 * program adds one by one, or both. The functions answer questions about it.
 * Each has a proved contract; docs/PROMISES.md lists the promises.
 *
 * RESULTS
 *   Most functions return a gix_code:
 *   GIX_OK            The question is answered.
 *   GIX_NONE          Answered: there is no such thing, or the answer is no.
 *   a negative code   The call failed; see the enum below.
 *   GIX_FAULT + n     The revision has fault n, 1 to 27 (docs/LINES.md).
 *   gix_strerror says the same in words. GIX_OK is 0, so an `if` takes a yes
 *   for false. gix_history_reaches returns 1 for yes and 0 for no. Compare its
 *   result with 1: a negative code is true in an `if`, too.
 *
 *   After any code other than GIX_OK, output parameters are unchanged. There
 *   are two exceptions: a fault n is described in *fault, and with GIX_NONE
 *   gix_history_merge_bases sets *count to 0. The history keeps its commits and
 *   can be used again. No function ends the process. Every function that
 *   allocates memory can return GIX_OUT_OF_MEMORY; the call can be repeated.
 *
 * POINTERS AND BUFFERS
 *   Two kinds of pointers may be NULL: that of an array with the length 0, and
 *   that of a function whose name ends in _free. No other pointer may be NULL.
 *   An output must not overlap an input or another output. A bool must be 0 or
 *   1. The library copies what it keeps, and never returns a pointer into a
 *   history.
 *   A function that returns a list sets *count to the number of results. It
 *   writes the first of them to `out`, as many as there is room for. The rest
 *   of the buffer is unchanged. gix_history_describe and
 *   gix_history_describe_by do the same with *len and the bytes of their text,
 *   which has no terminating zero.
 *   Two functions return pages: gix_history_list and gix_history_missing. A
 *   page has at most out_len results, and *count is the number on the page.
 *   For the first page pass after_len 0. For the next one pass after_len 1 and
 *   in *after a copy of the last id of the page before, since `after` must not
 *   point into `out`. A page that is not full is the last. Each page costs as
 *   much as the whole list. gix_history_list_all and gix_history_missing_all
 *   compute a long list once.
 *
 * THREADS
 *   A history may be used and freed on another thread than the one that made
 *   it. Two calls on the same history must not run at the same time, not even
 *   two queries: a query caches what it finds. Different histories are
 *   independent. The same holds for a gix_names and for a gix_ids.
 *
 * MEMORY
 *   The library allocates with malloc and realloc, releases with free, and
 *   calls no other function of the program. Do not call it from a signal
 *   handler, or in the child after fork() in a program with threads.
 *
 * PREMISES
 *   Some answers are promised only for a history with these properties:
 *     acyclic              No chain of parents leads from a commit back to it.
 *     ordered generations  No parent has a greater generation number than its
 *                          child. A missing number counts as infinity.
 *     older parents        Each parent is strictly older than its child.
 *   Only commits reachable from the arguments of the call matter. A function
 *   that names no premise has none. Without a premise a call is still safe. If
 *   part of a promise remains then, the comment of the function says which.
 *   The commits of an opened commit-graph file, or of an opened chain of such
 *   files, are acyclic and have ordered generations. The history stays acyclic
 *   if the commits that are added later form no cycle. Its generations stay
 *   ordered if these commits have no generation number.
 *
 * PARTIAL HISTORIES
 *   A new history is complete: it has the commits that were added, and no
 *   others. (The commits of an opened file count as added.) A program that has
 *   its commits in a store of its own need not add all of them. It makes the
 *   history partial with gix_history_set_partial, and asks its question. If the
 *   answer needs a commit that was not added, the function returns GIX_WANTS,
 *   and gix_history_wanted writes the id of this commit. The program adds the
 *   commit, and some of its ancestors if it likes. Then it asks again:
 *
 *     while ((code = gix_history_is_ancestor(history, &a, &b)) == GIX_WANTS)
 *         add_next(history);   -- gix_history_wanted, gix_history_insert_object
 *
 *   The whole history has the commits that were added, and perhaps others. An
 *   answer is right for the whole history, whatever others it has. Premises,
 *   too, concern the whole history.
 *
 *   The functions that ask a question can return GIX_WANTS: those from
 *   gix_history_merge_bases to gix_history_newest_first, gix_history_describe,
 *   gix_history_describe_by, gix_history_resolve, gix_history_rev_parse,
 *   gix_history_list, gix_history_list_all and gix_history_count. The other
 *   functions know only the commits that were added. So do ids in revisions,
 *   abbreviated or with all 40 digits: an id that was not added is not found
 *   (fault 12). A name that gix_history_name gave to it is found.
 *
 *   Questions about a partial history cache nothing, so each one walks anew.
 *   Add many commits before the next one. A list or a count can need all
 *   commits that the ids of its gix_span reach.
 */
#ifndef GIX_REVISION_H
#define GIX_REVISION_H

#include <stdbool.h>
#include <stddef.h>
#include <stdint.h>

#ifdef __cplusplus
extern "C" {
#endif

/* The version of this header, as a text and as a number. */
#define GIX_VERSION "0.9.0"
#define GIX_VERSION_NUMBER 900

/* A function whose result must not be ignored. */
#if defined(__GNUC__) || defined(__clang__)
#define GIX_MUST_USE __attribute__((warn_unused_result))
#else
#define GIX_MUST_USE
#endif

/* What functions return. Their type is int32_t, whatever the compiler makes of
 * an enum. */
typedef enum gix_code {
    GIX_OK = 0,             /* answered */
    GIX_NONE = 1,           /* answered: no such thing, or no */
    GIX_OUT_OF_MEMORY = -1, /* an allocation failed */
    GIX_ALREADY_THERE = -2, /* the history has a commit with this id */
    GIX_NO_COMMIT = -4,     /* the history does not have this commit */
    GIX_TOO_MANY = -5,      /* 2^32 commits or more are reachable */
    GIX_NO_KIND = -6,       /* the kind of a gix_span is not one of the six */
    GIX_NO_GRAPH = -7,      /* not a commit-graph file that can be opened */
    GIX_NO_LEVELS = -8,     /* levels of the file are missing or not ordered */
    GIX_ALTERED = -9,       /* the id is not the hash of the commit's bytes */
    GIX_MISSHAPEN = -10,    /* the bytes are not a commit that can be read */
    GIX_NO_HOW = -11,       /* the size of a gix_how is not one that is known */
    GIX_WANTS = -12,        /* the answer needs a commit that was not added */
    GIX_FAULT = 100         /* 101 to 127: the revision has fault 1 to 27 */
} gix_code;

/*
 * Returns what a code means, in English: one line without a full stop. It need
 * not be freed. A code that this header does not have is an "unknown code".
 */
static inline const char *gix_strerror(int32_t code) {
    switch (code) {
    case GIX_OK:
        return "answered";
    case GIX_NONE:
        return "answered: there is none";
    case GIX_OUT_OF_MEMORY:
        return "out of memory";
    case GIX_ALREADY_THERE:
        return "the history has a commit with this id";
    case GIX_NO_COMMIT:
        return "the history does not have the commit";
    case GIX_TOO_MANY:
        return "2^32 commits or more are reachable";
    case GIX_NO_KIND:
        return "the kind of a set is not one of the six";
    case GIX_NO_GRAPH:
        return "not a commit-graph file that can be opened";
    case GIX_NO_LEVELS:
        return "levels of the commit-graph file are missing or not ordered";
    case GIX_ALTERED:
        return "the id of the commit is not the hash of its bytes";
    case GIX_MISSHAPEN:
        return "the bytes are not a commit that can be read";
    case GIX_NO_HOW:
        return "the size of the options is not known to the library";
    case GIX_WANTS:
        return "the answer needs a commit that was not added";
    case GIX_FAULT + 1:
        return "a second operator, or an operator without a revision";
    case GIX_FAULT + 2:
        return "HEAD is meant, and there is no ref HEAD";
    case GIX_FAULT + 3:
        return "a range after '^'";
    case GIX_FAULT + 4:
        return "text is left over";
    case GIX_FAULT + 5:
        return "the text names no revision";
    case GIX_FAULT + 6:
        return "the text names no revision, and ends with '^!', '^@' or '^-'";
    case GIX_FAULT + 7:
        return "':' alone";
    case GIX_FAULT + 8:
        return "':/' alone";
    case GIX_FAULT + 9:
        return "'/!' is followed neither by '-' nor by '!'";
    case GIX_FAULT + 10:
        return "a commit by its message is not supported";
    case GIX_FAULT + 11:
        return "an entry of the index is not supported";
    case GIX_FAULT + 12:
        return "no ref or commit has this name, or several commits have it";
    case GIX_FAULT + 13:
        return "'@' after a name, without '{'";
    case GIX_FAULT + 14:
        return "a brace is never closed";
    case GIX_FAULT + 15:
        return "a minus sign before zeros";
    case GIX_FAULT + 16:
        return "a negative number in braces after a name";
    case GIX_FAULT + 17:
        return "an entry of a reflog after an abbreviated id";
    case GIX_FAULT + 18:
        return "an upstream after an abbreviated id";
    case GIX_FAULT + 19:
        return "the text in the braces is not a date";
    case GIX_FAULT + 20:
        return "reflogs, earlier branches and upstreams are not supported";
    case GIX_FAULT + 21:
        return "'~' at the start";
    case GIX_FAULT + 22:
        return "a sign in the wrong place";
    case GIX_FAULT + 23:
        return "not a number, or too large a number";
    case GIX_FAULT + 24:
        return "a step leads to no parent, or starts at no commit";
    case GIX_FAULT + 25:
        return "the commit is missing, or not what '^{..}' or ':' asks for";
    case GIX_FAULT + 26:
        return "an unknown word in '^{..}'";
    case GIX_FAULT + 27:
        return "what '^-' repeats was refused";
    default:
        return "unknown code";
    }
}

/* The 20 bytes of a SHA-1 id. */
typedef struct {
    uint8_t bytes[20];
} gix_id;

/* Commits, ref names for revisions, and what earlier queries have cached. */
typedef struct gix_history gix_history;

/*
 * Returns the version of the library that the program runs with: 10000 times
 * its first number, 100 times its second, and its third. That of this header is
 * GIX_VERSION_NUMBER.
 */
GIX_MUST_USE
uint32_t gix_version(void);

/*
 * Reads an id from hex digits, in upper or lower case.
 *
 * Returns whether `hex` has 40 bytes and each is a hex digit. If not, *out is
 * unchanged.
 */
GIX_MUST_USE
bool gix_id_read(gix_id *out, const char *hex, size_t hex_len);

/*
 * Writes the 40 hex digits of an id, in lower case, and a terminating zero.
 * `out` has 41 bytes.
 */
void gix_id_write(char *out, const gix_id *id);

/*
 * Makes a history without commits.
 *
 * `seed` is for its hash tables; no answer depends on it. If strangers choose
 * the ids, pass a random number: who knows the seed can make calls slow with
 * ids whose hashes collide. Otherwise pass any number, such as 0.
 *
 * The old value of *out is not freed.
 *
 * Returns:
 *   GIX_OK             *out is the new history.
 *   GIX_OUT_OF_MEMORY
 */
GIX_MUST_USE
int32_t gix_history_new(uint64_t seed, gix_history **out);

/*
 * Makes a history of the commits in git's commit-graph file.
 *
 * `bytes` is the whole file (.git/objects/info/commit-graph). It must have
 * SHA-1 ids. Of a split commit-graph this opens only the lowest file;
 * gix_history_open_chain opens all. Each part of the file that is used is
 * checked here; the hash at its end is not.
 *
 * The history has the commits of the file with their generation numbers, and
 * all their parents. Add newer commits with gix_history_insert. The bytes are
 * copied, and an index of the ids takes about 50 bytes a commit more. `seed` is
 * that of gix_history_new. The old value of *out is not freed.
 *
 * Returns:
 *   GIX_OK             *out is the new history.
 *   GIX_NO_GRAPH       The bytes are not such a file. gix_graph_fault says why.
 *   GIX_NO_LEVELS      The file is well-formed, but a commit has no level, or
 *                      a level that is not greater than its parents'.
 *   GIX_OUT_OF_MEMORY
 */
GIX_MUST_USE
int32_t gix_history_open(const uint8_t *bytes, size_t bytes_len, uint64_t seed,
                         gix_history **out);

/* The bytes of a file. */
typedef struct {
    const uint8_t *bytes;
    size_t bytes_len;
} gix_bytes;

/*
 * Makes a history of the commits in a split commit-graph: a chain of files.
 *
 * `files` has each file as a whole, the lowest first. This is the order of the
 * lines in .git/objects/info/commit-graphs/commit-graph-chain. The lowest file
 * is checked as in gix_history_open. Of each other file, the hash at its end is
 * checked too, and that its base graphs are exactly the files below it. A base
 * graph is named by the last 20 bytes of its file.
 *
 * The history has the commits of all files, as one of gix_history_open has
 * those of one file. A chain of one file has the result of gix_history_open.
 * The bytes are copied. The commits of the files above the lowest one are kept
 * like those of gix_history_insert, which takes more memory than their file.
 * `seed` is that of gix_history_new. The old value of *out is not freed.
 *
 * Returns:
 *   GIX_OK             *out is the new history.
 *   GIX_NO_GRAPH       The files are not a chain: there is no file, one is
 *                      malformed, the lowest has base graphs, another has a
 *                      wrong hash or other base graphs than the files below
 *                      it, or a commit is in two files.
 *   GIX_NO_LEVELS      The lowest file is well-formed, but a commit of the
 *                      files has no level, or a level that is not greater than
 *                      its parents'.
 *   GIX_OUT_OF_MEMORY
 */
GIX_MUST_USE
int32_t gix_history_open_chain(const gix_bytes *files, size_t files_len,
                               uint64_t seed, gix_history **out);

/* What can be wrong with the bytes of a commit-graph file; see
 * gitformat-commit-graph(5). */
enum {
    GIX_GRAPH_TOO_SHORT = 1,    /* too short for header, table and hash */
    GIX_GRAPH_SIGNATURE = 2,    /* does not begin with CGPH */
    GIX_GRAPH_VERSION = 3,      /* a version other than 1 */
    GIX_GRAPH_HASH = 4,         /* ids that are not SHA-1 ids */
    GIX_GRAPH_BASE_GRAPHS = 5,  /* not the lowest file of a chain */
    GIX_GRAPH_NO_CHUNK_ID = 6,  /* a chunk has no chunk id */
    GIX_GRAPH_REPEATED = 7,     /* two chunks with one chunk id */
    GIX_GRAPH_CHUNK_PLACE = 8,  /* a chunk ends too early or too late */
    GIX_GRAPH_TABLE_END = 9,    /* the table of contents has no end */
    GIX_GRAPH_NO_FANOUT = 10,   /* no chunk OIDF */
    GIX_GRAPH_NO_IDS = 11,      /* no chunk OIDL */
    GIX_GRAPH_NO_ROWS = 12,     /* no chunk CDAT */
    GIX_GRAPH_CHUNK_SIZE = 13,  /* a chunk of the wrong size */
    GIX_GRAPH_FANOUT = 14,      /* the numbers of OIDF fall */
    GIX_GRAPH_ID_ORDER = 15,    /* the ids do not rise */
    GIX_GRAPH_ID_PLACE = 16,    /* an id is not where OIDF says */
    GIX_GRAPH_PARENT = 17,      /* a parent is no commit, or no list of EDGE */
    GIX_GRAPH_EDGE_PARENT = 18, /* a parent in EDGE is no commit of the file */
    GIX_GRAPH_EDGE_END = 19,    /* the last list in EDGE does not end */
    GIX_GRAPH_EDGE_ORDER = 20   /* lists in EDGE overlap or are out of order */
};

/*
 * Returns what is wrong with the bytes of a commit-graph file.
 *
 * The result is 0 if the bytes are well-formed; gix_history_open then does not
 * return GIX_NO_GRAPH. Otherwise the result is one of the numbers above. If
 * several things are wrong, it is the number of any of them.
 */
GIX_MUST_USE
uint32_t gix_graph_fault(const uint8_t *bytes, size_t bytes_len);

/*
 * Makes a history partial if `partial` is true, and complete if it is false.
 *
 * A complete history has the commits that were added, and no others. A partial
 * one may have others. See PARTIAL HISTORIES above.
 */
void gix_history_set_partial(gix_history *history, bool partial);

/*
 * Writes the id of the commit that a question wanted.
 *
 * The last call that returned GIX_WANTS needed this commit, and the history did
 * not have it then. Calls before the last gix_history_set_partial do not count.
 *
 * Returns:
 *   GIX_OK
 *   GIX_NONE           No call has returned GIX_WANTS, or the history is
 *                      complete.
 */
GIX_MUST_USE
int32_t gix_history_wanted(gix_history *history, gix_id *out);

/*
 * Frees a history that gix_history_new, gix_history_open or
 * gix_history_open_chain has made.
 *
 * It must not be used again. NULL is allowed and does nothing.
 */
void gix_history_free(gix_history *history);

/*
 * Adds a commit to the history.
 *
 * `parents` are in git's order; they may be added before the commit, after it,
 * or never. `time` is the commit date in seconds since 1970. `generation` is
 * read only if `has_generation` is true. Cached results stay valid, so calls
 * to this function and queries may alternate. Abbreviated ids in revisions can
 * resolve to `id` from now on.
 *
 * Returns:
 *   GIX_OK
 *   GIX_ALREADY_THERE  The history has a commit with this id, and keeps it.
 *   GIX_OUT_OF_MEMORY  The commit was not added. An abbreviated id in a
 *                      revision may resolve to `id` all the same.
 */
GIX_MUST_USE
int32_t gix_history_insert(gix_history *history, const gix_id *id,
                           const gix_id *parents, size_t parents_len,
                           int64_t time, bool has_generation,
                           uint32_t generation);

/*
 * Adds the commit with these bytes to the history, after a check of its id.
 *
 * `content` is the commit as git's object database has it, inflated and without
 * the header `commit SIZE`: what `git cat-file commit` prints, and what
 * git_odb_object_data of libgit2 returns. The commit has no generation number.
 * Otherwise this is like gix_history_insert.
 *
 * Returns:
 *   GIX_OK             `id` is the hash of the content. The commit has the
 *                      parents and the date that git reads from it.
 *   GIX_ALTERED        `id` is not the hash of the content.
 *   GIX_MISSHAPEN      The content does not begin with the line of a tree. Or a
 *                      line of a parent is malformed, or the date is 2^63
 *                      seconds or more.
 *   GIX_ALREADY_THERE  The history has a commit with this id, and keeps it.
 *   GIX_OUT_OF_MEMORY  As for gix_history_insert.
 */
GIX_MUST_USE
int32_t gix_history_insert_object(gix_history *history, const gix_id *id,
                                  const uint8_t *content, size_t content_len);

/*
 * Returns the number of commits that the history has.
 *
 * Each insertion that returned GIX_OUT_OF_MEMORY may make the number too great
 * by one, until a commit with its id is added.
 */
GIX_MUST_USE
size_t gix_history_len(gix_history *history);

/* A commit, but for the parents themselves. */
typedef struct {
    /* The commit date in seconds since 1970. */
    int64_t time;
    /* The generation number, if has_generation is true. */
    uint32_t generation;
    bool has_generation;
    /* How many parents the commit has. */
    size_t parents_len;
} gix_commit;

/*
 * Looks up a commit of the history.
 *
 * The parents are in git's order. As many of them as there is room for are
 * written to `parents`, and out->parents_len is the number of all.
 *
 * Returns:
 *   GIX_OK
 *   GIX_NONE           The history does not have the commit.
 *   GIX_OUT_OF_MEMORY
 */
GIX_MUST_USE
int32_t gix_history_commit(gix_history *history, const gix_id *id,
                           gix_commit *out, gix_id *parents,
                           size_t parents_len);

/*
 * Returns how many hex digits of `id` are enough, like `git rev-parse --short`.
 *
 * It is the least number, from `least` on and from 4 to 40, such that no other
 * id of a commit of the history begins with these digits. The id of an
 * insertion that returned GIX_OUT_OF_MEMORY may count, too. git may print more
 * digits, because it looks at all objects.
 */
GIX_MUST_USE
size_t gix_history_abbreviate(gix_history *history, const gix_id *id,
                              size_t least);

/*
 * Finds the merge bases of `first` and a hypothetical merge of `others`, like
 * `git merge-base --all`.
 *
 * The results are sorted: greatest generation number first (a missing one
 * counts as infinity), then latest date, then smallest id. If `others` is
 * empty or contains `first`, the result is `first` alone. An id that is not in
 * the history has no ancestors.
 *
 * Premises: acyclic, ordered generations.
 *
 * Returns:
 *   GIX_OK
 *   GIX_NONE           There is no merge base. *count is 0.
 *   GIX_WANTS          A commit is wanted; only in a partial history.
 *   GIX_OUT_OF_MEMORY
 */
GIX_MUST_USE
int32_t gix_history_merge_bases(gix_history *history, const gix_id *first,
                                const gix_id *others, size_t others_len,
                                gix_id *out, size_t out_len, size_t *count);

/*
 * Finds the best common ancestor of `first` and all of `others`, like
 * `git merge-base --octopus`.
 *
 * A common ancestor is reachable from each of the ids. It is best if no other
 * common ancestor reaches it. If there are several, the result is the first of
 * them in the order of gix_history_merge_bases. If all ids are equal, the
 * result is that id.
 *
 * Premises: acyclic, ordered generations.
 *
 * Returns:
 *   GIX_OK
 *   GIX_NONE           There is no common ancestor.
 *   GIX_WANTS          A commit is wanted; only in a partial history.
 *   GIX_OUT_OF_MEMORY
 */
GIX_MUST_USE
int32_t gix_history_octopus(gix_history *history, const gix_id *first,
                            const gix_id *others, size_t others_len,
                            gix_id *out);

/*
 * Tests whether `ancestor` is reachable from `of`, like
 * `git merge-base --is-ancestor`.
 *
 * A commit is reachable from itself. An id that is not in the history is not
 * reachable from anything, and nothing is reachable from it.
 *
 * Premises: ordered generations, among the commits that `of` reaches. Without
 * it GIX_OK is still right, but GIX_NONE may be wrong. Cycles do not matter.
 *
 * Returns:
 *   GIX_OK             It is reachable.
 *   GIX_NONE           It is not.
 *   GIX_WANTS          A commit is wanted; only in a partial history.
 *   GIX_OUT_OF_MEMORY
 */
GIX_MUST_USE
int32_t gix_history_is_ancestor(gix_history *history, const gix_id *ancestor,
                                const gix_id *of);

/*
 * Tests whether `from` reaches `ancestor`, as gix_history_is_ancestor does.
 *
 * Premises: ordered generations, among the commits that `from` reaches. Without
 * it 1 is still right, but 0 may be wrong. Cycles do not matter.
 *
 * Returns:
 *   1                  It does.
 *   0                  It does not.
 *   GIX_WANTS          A commit is wanted; only in a partial history.
 *   GIX_OUT_OF_MEMORY
 */
GIX_MUST_USE
int32_t gix_history_reaches(gix_history *history, const gix_id *from,
                            const gix_id *ancestor);

/*
 * Finds those of `ids` that no other one of them reaches, like
 * `git merge-base --independent`.
 *
 * Each result is listed once, in the order of the first places in `ids`. An id
 * that is not in the history is one of the results.
 *
 * Premises: acyclic, ordered generations.
 *
 * Returns:
 *   GIX_OK
 *   GIX_WANTS          A commit is wanted; only in a partial history.
 *   GIX_OUT_OF_MEMORY
 */
GIX_MUST_USE
int32_t gix_history_independent(gix_history *history, const gix_id *ids,
                                size_t ids_len, gix_id *out, size_t out_len,
                                size_t *count);

/*
 * Counts the commits that only one of two ids reaches, like
 * `git rev-list --left-right --count`.
 *
 * *ahead is the number of commits that `ours` reaches and `theirs` does not.
 * *behind is the number of those that `theirs` reaches and `ours` does not.
 *
 * Premises: ordered generations. Without it a count may be too great, but not
 * too small. Cycles do not matter.
 *
 * Returns:
 *   GIX_OK
 *   GIX_WANTS          A commit is wanted; only in a partial history.
 *   GIX_OUT_OF_MEMORY
 */
GIX_MUST_USE
int32_t gix_history_ahead_behind(gix_history *history, const gix_id *ours,
                                 const gix_id *theirs, size_t *ahead,
                                 size_t *behind);

/*
 * Sorts those of `ids` that the history has, each once.
 *
 * The order is that of gix_history_merge_bases: greatest generation number
 * first, then latest date, then smallest id. If each parent has a smaller
 * generation number than its child, every commit comes before its parents.
 *
 * Returns:
 *   GIX_OK
 *   GIX_WANTS          A commit is wanted; only in a partial history.
 *   GIX_OUT_OF_MEMORY
 */
GIX_MUST_USE
int32_t gix_history_newest_first(gix_history *history, const gix_id *ids,
                                 size_t ids_len, gix_id *out, size_t out_len,
                                 size_t *count);

/*
 * Lists the missing parents, a page at a time.
 *
 * A missing parent is an id that a commit of the history has as a parent, and
 * that is not in the history. Each is listed once, in rising order. A program
 * can load a history in rounds: it adds the tips, then what is missing, until
 * nothing is.
 *
 * Returns:
 *   GIX_OK
 *   GIX_OUT_OF_MEMORY
 */
GIX_MUST_USE
int32_t gix_history_missing(gix_history *history, const gix_id *after,
                            size_t after_len, gix_id *out, size_t out_len,
                            size_t *count);

/*
 * A list of ids, each once, in rising order. A program gets one from
 * gix_history_missing_all or gix_history_list_all. It stays as it is, whatever
 * happens to the history, also after gix_history_free.
 */
typedef struct gix_ids gix_ids;

/*
 * Makes the list of all missing parents, for gix_ids_read and gix_ids_len.
 *
 * The list is that of this moment. The caller frees it with gix_ids_free. What
 * *out owned before is not freed.
 *
 * Returns:
 *   GIX_OK
 *   GIX_OUT_OF_MEMORY
 */
GIX_MUST_USE
int32_t gix_history_missing_all(gix_history *history, gix_ids **out);

/* Returns the number of ids in the list. */
size_t gix_ids_len(gix_ids *ids);

/*
 * Writes the ids of the list from place `from` on, as many as fit into `out`.
 *
 * The first id has place 0. Returns how many ids were written: 0 if the list
 * has no place `from`. The rest of the buffer is unchanged.
 */
size_t gix_ids_read(gix_ids *ids, size_t from, gix_id *out, size_t out_len);

/*
 * Frees a list of ids.
 *
 * It must not be used again. NULL is allowed and does nothing.
 */
void gix_ids_free(gix_ids *ids);

/* A name for a commit, in any bytes. */
typedef struct {
    gix_id id;
    const uint8_t *text;
    size_t text_len;
} gix_name;

/* Options of gix_history_describe. Begin with `gix_how how = GIX_HOW_INIT;` and
 * change what should differ. */
typedef struct {
    /* The size of this struct, by which a later library knows which options the
     * program has. */
    size_t size;
    /* How many names are considered; more than 32 count as 32. git's default is
     * 10. With 0 only the commit's own name is used. */
    size_t max_candidates;
    /* How many hex digits of the id are printed; more than 40 count as 40. With
     * 0 the name alone is printed, as by `git describe --abbrev=0`. */
    size_t hex_len;
    /* Follow only first parents. */
    bool first_parent;
    /* Print the digits alone if no name is found. */
    bool fallback_to_id;
    /* Print depth and digits also if the commit itself has a name. Ignored if
     * hex_len is 0. */
    bool long_form;
    /* Choose among equally near names as git does: of commits with the same date
     * visit the one that was met first, and take the name that was visited first.
     * Otherwise the smaller id and the smaller name come first. */
    bool git_order;
} gix_how;

#define GIX_HOW_SIZE sizeof(gix_how)
/* 10 names and 7 digits, as in git, and no other option. */
#define GIX_HOW_INIT {GIX_HOW_SIZE, 10, 7, false, false, false, false}

/*
 * Describes `commit` by its own name or by that of an ancestor, like
 * `git describe`.
 *
 * The text is NAME-DEPTH-gHEX. It is NAME at depth 0, unless how->long_form is
 * set, and if how->hex_len is 0. It is HEX if no name is found and
 * how->fallback_to_id is set, all 40 digits if how->hex_len is 0; *depth is
 * then 0. Names are copied byte for byte. If `names` has several names for one
 * commit, the first one counts.
 *
 * A commit with a name of its own has depth 0. Otherwise *depth is at least the
 * number of commits that `commit` reaches and the named commit does not. With
 * how->first_parent only first parents count as parents. Which ancestor's name
 * is chosen is not promised.
 *
 * Premises: none for the above. With older parents *depth is the least such
 * number of all named ancestors, if at most how->max_candidates and at most 32
 * ancestors have names. Which of several equally near names is chosen then is
 * not promised.
 *
 * Each call walks the history anew, and first reads all names. To describe
 * many commits, use gix_history_describe_by. What other queries have cached is
 * kept.
 *
 * Returns:
 *   GIX_OK
 *   GIX_NONE           No name is found, and how->fallback_to_id is not set.
 *   GIX_NO_COMMIT      The history does not have `commit` and has to be walked:
 *                      there are names, but `commit` has none, and
 *                      how->max_candidates is not 0.
 *   GIX_NO_HOW         how->size is not sizeof(gix_how).
 *   GIX_TOO_MANY       `commit` reaches 2^32 commits or more.
 *   GIX_WANTS          A commit is wanted; only in a partial history.
 *   GIX_OUT_OF_MEMORY
 */
GIX_MUST_USE
int32_t gix_history_describe(gix_history *history, const gix_id *commit,
                             const gix_name *names, size_t names_len,
                             const gix_how *how, uint8_t *out, size_t out_len,
                             size_t *len, uint32_t *depth);

/* Names for commits, as a table that is made once for many descriptions. It
 * belongs to no history, and may be used with several. */
typedef struct gix_names gix_names;

/*
 * Makes a table of names. It copies the texts.
 *
 * If `names` has several names for one commit, the first one counts. `seed` is
 * that of the table's hash map, as for gix_history_new. The caller frees the
 * table with gix_names_free. What *out owned before is not freed.
 *
 * Returns:
 *   GIX_OK
 *   GIX_OUT_OF_MEMORY
 */
GIX_MUST_USE
int32_t gix_names_new(const gix_name *names, size_t names_len, uint64_t seed,
                      gix_names **out);

/*
 * Describes `commit` like gix_history_describe, by the names of a table.
 *
 * Answer, premises and codes are those of gix_history_describe with the names
 * that gix_names_new received. The table is unchanged, whatever the code is.
 */
GIX_MUST_USE
int32_t gix_history_describe_by(gix_history *history, const gix_id *commit,
                                gix_names *names, const gix_how *how,
                                uint8_t *out, size_t out_len, size_t *len,
                                uint32_t *depth);

/*
 * Frees a table of names.
 *
 * It must not be used again. NULL is allowed and does nothing.
 */
void gix_names_free(gix_names *names);

/* Kinds of sets of commits, as gitrevisions(7) writes them. */
enum {
    GIX_INCLUDE = 0,        /* first: what it reaches */
    GIX_EXCLUDE = 1,        /* ^first: no commit */
    GIX_RANGE = 2,          /* first..second: what only second reaches */
    GIX_MERGE = 3,          /* first...second: what only one of them reaches */
    GIX_ONLY_PARENTS = 4,   /* first^@: what its parents reach */
    GIX_WITHOUT_PARENTS = 5 /* first^!: the commit alone */
};

/* A set of commits. */
typedef struct {
    uint32_t kind;
    gix_id first;
    /* Read only for GIX_RANGE and GIX_MERGE. For the other kinds the library
     * writes `first` here (tested, not proved). */
    gix_id second;
} gix_span;

/*
 * The fault of a revision: its number, 1 to 27, and the part of the text that
 * it names, by first byte and length. If the text has these bytes at several
 * places, `start` is the last one. For a fault that names no part both are 0.
 */
typedef struct {
    uint8_t number;
    size_t start;
    size_t length;
} gix_fault;

/*
 * Gives a ref name, such as `HEAD` or `main`, to an id, for revisions.
 *
 * A revision finds only names that were given, letter for letter:
 * `refs/heads/main` is not found as `main` unless `main` was given, too. If the
 * name was given before, it now stands for the new id. For an annotated tag
 * pass the commit that it leads to.
 *
 * Returns:
 *   GIX_OK
 *   GIX_OUT_OF_MEMORY  The names are unchanged.
 */
GIX_MUST_USE
int32_t gix_history_name(gix_history *history, const uint8_t *name,
                         size_t name_len, const gix_id *id);

/*
 * Takes a ref name back. Revisions find it no longer.
 *
 * Returns:
 *   GIX_OK
 *   GIX_NONE           There was no such name.
 */
GIX_MUST_USE
int32_t gix_history_unname(gix_history *history, const uint8_t *name,
                           size_t name_len);

/*
 * Resolves a revision such as `main~2..topic` to a set of commits. See
 * gitrevisions(7) for the syntax.
 *
 * Ref names are those given to gix_history_name. If the text is both a ref
 * name and an abbreviated id, the id wins; gix_history_rev_parse prefers the
 * ref, as git does. Relative dates count back from `seconds` since 1970;
 * `offset` is the UTC offset in seconds. A revision that needs a reflog, an
 * upstream, a message, a path, a tree or a tag object fails with a fault.
 *
 * Returns:
 *   GIX_OK             *out is the set. *fault is unchanged.
 *   GIX_FAULT + n      Fault n. *fault says which part of the text is wrong.
 *                      *out is unchanged.
 *   GIX_WANTS          A commit is wanted; only in a partial history.
 *   GIX_OUT_OF_MEMORY
 */
GIX_MUST_USE
int32_t gix_history_resolve(gix_history *history, const uint8_t *text,
                            size_t text_len, int64_t seconds, int32_t offset,
                            gix_span *out, gix_fault *fault);

/*
 * Resolves a revision like gix_history_resolve, but a ref name wins over an
 * abbreviated id, as in git.
 *
 * `1059-login` is the ref of that name, if there is one. 40 hex digits mean the
 * id, even if a ref has that name; a commit with this id has to be there.
 * `^{}` and `^{object}` after a commit are accepted.
 *
 * Returns:
 *   GIX_OK             *out is the set. *fault is unchanged.
 *   GIX_FAULT + n      Fault n. *fault says which part of the text is wrong.
 *                      *out is unchanged.
 *   GIX_WANTS          A commit is wanted; only in a partial history.
 *   GIX_OUT_OF_MEMORY
 */
GIX_MUST_USE
int32_t gix_history_rev_parse(gix_history *history, const uint8_t *text,
                              size_t text_len, int64_t seconds, int32_t offset,
                              gix_span *out, gix_fault *fault);

/*
 * Lists the commits of a set in rising order of their ids, a page at a time.
 *
 * Each call computes the whole list; gix_history_list_all computes it once.
 *
 * Returns:
 *   GIX_OK
 *   GIX_NO_KIND        span->kind is not one of the six kinds.
 *   GIX_WANTS          A commit is wanted; only in a partial history.
 *   GIX_OUT_OF_MEMORY
 */
GIX_MUST_USE
int32_t gix_history_list(gix_history *history, const gix_span *span,
                         const gix_id *after, size_t after_len, gix_id *out,
                         size_t out_len, size_t *count);

/*
 * Makes the list of the commits of a set in rising order of their ids, for
 * gix_ids_read and gix_ids_len.
 *
 * The list is that of this moment. The caller frees it with gix_ids_free. What
 * *out owned before is not freed.
 *
 * Returns:
 *   GIX_OK
 *   GIX_NO_KIND        span->kind is not one of the six kinds.
 *   GIX_WANTS          A commit is wanted; only in a partial history.
 *   GIX_OUT_OF_MEMORY
 */
GIX_MUST_USE
int32_t gix_history_list_all(gix_history *history, const gix_span *span,
                             gix_ids **out);

/*
 * Counts the commits of a set, like `git rev-list --count`.
 *
 * Returns:
 *   GIX_OK
 *   GIX_NO_KIND        span->kind is not one of the six kinds.
 *   GIX_WANTS          A commit is wanted; only in a partial history.
 *   GIX_OUT_OF_MEMORY
 */
GIX_MUST_USE
int32_t gix_history_count(gix_history *history, const gix_span *span,
                          size_t *count);

#ifdef __cplusplus
}
#endif

#endif
