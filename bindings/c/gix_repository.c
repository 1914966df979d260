/*
 * gix_repository.c: what gix_repository.h declares, over `git-proved batch`.
 *
 * The program gets a question as a line of quoted words. It prints a line with
 * the status and the size of the output, the output, and a line feed. Messages
 * come on standard error before that.
 *
 * Each standard stream of the program is a socket: only what is sent on a
 * socket can be kept from causing SIGPIPE. The sockets wait for nothing; `poll`
 * waits for all of them.
 */
#define _GNU_SOURCE
#include "gix_repository.h"

#include <errno.h>
#include <fcntl.h>
#include <poll.h>
#include <signal.h>
#include <spawn.h>
#include <stdlib.h>
#include <string.h>
#include <sys/socket.h>
#include <sys/wait.h>
#include <time.h>
#include <unistd.h>

/* Bytes that grow. Once memory was missing, `failed` stays set. */
typedef struct {
    char *bytes;
    size_t len, room;
    bool failed;
} text;

enum { INPUT, OUTPUT, ERRORS, STREAMS };

struct gix_repository {
    char **words;  /* what starts the program, up to NULL */
    pid_t owner;   /* the process that opened the repository */
    pid_t program; /* the program, or 0 for none, or ENDED if it was waited for */
    int streams[STREAMS];
    uint32_t timeout;
    text message;
};

/* The digits of a SHA-1 id, and the greatest size of the line before an answer. */
enum { DIGITS = 40, HEAD = 64 };
enum { ENDED = -1 };

/* Makes room for so many more bytes, and a zero. */
static bool reserve(text *to, size_t more) {
    if (to->failed || to->room - to->len > more) return !to->failed;
    size_t room = to->room < 4096 ? 4096 : to->room;
    while (room - to->len <= more) {
        if (room > SIZE_MAX / 2) return to->failed = true, false;
        room *= 2;
    }
    char *bytes = realloc(to->bytes, room);
    if (!bytes) return to->failed = true, false;
    to->bytes = bytes;
    to->room = room;
    to->bytes[to->len] = 0;
    return true;
}

static void add(text *to, const char *bytes, size_t len) {
    if (!reserve(to, len)) return;
    memcpy(to->bytes + to->len, bytes, len);
    to->len += len;
    to->bytes[to->len] = 0;
}

static void add_text(text *to, const char *bytes) { add(to, bytes, strlen(bytes)); }

static void clear(text *of) {
    free(of->bytes);
    *of = (text){0};
}

/* Sets the message, as far as there is memory, and returns the code. */
static int32_t refuse(gix_repository *repository, int32_t code, const char *message) {
    clear(&repository->message);
    add_text(&repository->message, message);
    return code;
}

static int32_t no_memory(gix_repository *repository) {
    return refuse(repository, GIX_OUT_OF_MEMORY, "out of memory");
}

static int32_t code_of(int status) {
    switch (status) {
    case 0:
        return GIX_OK;
    case 1:
        return GIX_NONE;
    case 128:
        return GIX_NOT_THERE;
    case 129:
        return GIX_NOT_SUPPORTED;
    default:
        return GIX_DAMAGED;
    }
}

/* Milliseconds of a clock that nobody sets. */
static int64_t now(void) {
    struct timespec time;
    clock_gettime(CLOCK_MONOTONIC, &time);
    return (int64_t)time.tv_sec * 1000 + time.tv_nsec / 1000000;
}

/* The milliseconds until a time, for poll: -1 for no time, which is 0. */
static int left_until(int64_t end) {
    if (end == 0) return -1;
    int64_t left = end - now();
    return left < 0 ? 0 : left > 1000000 ? 1000000 : (int)left;
}

/* Ends the program. A fork only closes its own descriptors. */
static void end(gix_repository *repository) {
    pid_t program = repository->program;
    repository->program = 0;
    if (program == 0) return;
    for (int i = 0; i < STREAMS; i++) close(repository->streams[i]);
    if (program == ENDED || getpid() != repository->owner) return;
    /* If somebody else has waited for the program, its number may be that of another process. */
    if (waitpid(program, NULL, WNOHANG) != 0) return;
    kill(program, SIGKILL);
    while (waitpid(program, NULL, 0) < 0 && errno == EINTR) continue;
}

/* Moves a descriptor above those of the standard streams. Returns -1 if that fails. */
static int moved(int descriptor) {
    if (descriptor > 2) return descriptor;
    int above = fcntl(descriptor, F_DUPFD_CLOEXEC, 3);
    close(descriptor);
    return above;
}

/* Starts the program with these standard streams. Returns an error number, or 0. */
static int spawn(gix_repository *repository, const int *theirs) {
    posix_spawn_file_actions_t actions;
    int error = posix_spawn_file_actions_init(&actions);
    if (error) return error;
    for (int i = 0; i < STREAMS && !error; i++)
        error = posix_spawn_file_actions_adddup2(&actions, theirs[i], i);
    if (!error)
        error = posix_spawnp(&repository->program, repository->words[0], &actions, NULL,
                             repository->words, environ);
    posix_spawn_file_actions_destroy(&actions);
    return error;
}

static int32_t start(gix_repository *repository) {
    int theirs[STREAMS], error = 0, made = 0;
    for (; made < STREAMS && !error; made++) {
        int pair[2] = {-1, -1};
        if (socketpair(AF_UNIX, SOCK_STREAM | SOCK_CLOEXEC, 0, pair) < 0) error = errno;
        repository->streams[made] = moved(pair[0]);
        theirs[made] = moved(pair[1]);
        if (!error && (repository->streams[made] < 0 || theirs[made] < 0)) error = errno;
    }
    if (!error) error = spawn(repository, theirs);
    for (int i = 0; i < made; i++) {
        close(theirs[i]);
        if (error) close(repository->streams[i]);
    }
    if (!error) return GIX_OK;
    repository->program = 0;
    refuse(repository, GIX_NOT_STARTED, repository->words[0]);
    add_text(&repository->message, ": ");
    add_text(&repository->message, strerror(error));
    errno = error;
    return GIX_NOT_STARTED;
}

/* Reads what can be read now. Returns false at the end, or if memory is missing. */
static bool receive(int stream, text *into) {
    for (;;) {
        if (!reserve(into, 65536)) return false;
        ssize_t got =
            recv(stream, into->bytes + into->len, into->room - into->len - 1, MSG_DONTWAIT);
        if (got < 0) return errno == EAGAIN || errno == EWOULDBLOCK || errno == EINTR;
        if (got == 0) return false;
        into->len += (size_t)got;
        into->bytes[into->len] = 0;
    }
}

/* An answer, once all of it has come. */
typedef struct {
    int status;
    size_t start, len;
} answer;

/* Reads a number of at most 19 digits, and moves `at` behind it. */
static bool read_number(const char **at, uint64_t *number) {
    const char *begin = *at;
    for (*number = 0; **at >= '0' && **at <= '9' && *at - begin < 19; ++*at)
        *number = *number * 10 + (uint64_t)(**at - '0');
    return *at > begin;
}

/* Returns 1 if an answer has come, 0 if a part is missing, and -1 if it is none. */
static int parse(const text *output, answer *found) {
    uint64_t status, size;
    const char *at = output->bytes,
               *line =
                   output->len ? memchr(at, '\n', output->len < HEAD ? output->len : HEAD) : NULL;
    if (!line) return output->len < HEAD ? 0 : -1;
    if (!read_number(&at, &status) || *at++ != ' ' || !read_number(&at, &size) || at != line ||
        status > 255)
        return -1;
    *found = (answer){(int)status, (size_t)(line + 1 - output->bytes), (size_t)size};
    size_t rest = output->len - found->start;
    if (rest > size && (rest != size + 1 || output->bytes[output->len - 1] != '\n')) return -1;
    return rest > size;
}

/* Waits for the end of the program, and returns what its exit status means. */
static int32_t ended(gix_repository *repository, int64_t until) {
    int status = 0;
    pid_t found;
    while ((found = waitpid(repository->program, &status, WNOHANG)) == 0) {
        if (left_until(until) == 0) return GIX_TIMED_OUT;
        poll(NULL, 0, 1);
    }
    repository->program = ENDED;
    if (found < 0 || !WIFEXITED(status)) return GIX_DAMAGED;
    int32_t code = code_of(WEXITSTATUS(status));
    return code == GIX_OK || code == GIX_NONE ? GIX_DAMAGED : code;
}

/* Sends what can be sent now. Returns false if nothing is left, or if the program reads no more. */
static bool send_more(int stream, const text *question, size_t *sent) {
    ssize_t taken =
        send(stream, question->bytes + *sent, question->len - *sent, MSG_DONTWAIT | MSG_NOSIGNAL);
    if (taken < 0) return errno == EAGAIN || errno == EWOULDBLOCK || errno == EINTR;
    *sent += (size_t)taken;
    return *sent < question->len;
}

/* Sends a question and collects its answer, and messages meanwhile. */
static int32_t exchange(gix_repository *repository, const text *question, text *output,
                        answer *found) {
    int64_t until = repository->timeout ? now() + repository->timeout : 0;
    struct pollfd ready[STREAMS] = {
        {.fd = repository->streams[INPUT], .events = POLLOUT},
        {.fd = repository->streams[OUTPUT], .events = POLLIN},
        {.fd = repository->streams[ERRORS], .events = POLLIN},
    };
    for (size_t sent = 0;;) {
        int got = parse(output, found);
        if (got < 0) return GIX_DAMAGED;
        /* The program writes messages before the answer, so all of them are there. */
        if (got > 0) return receive(repository->streams[ERRORS], &repository->message), GIX_OK;
        int count = poll(ready, STREAMS, left_until(until));
        if (count < 0 && errno != EINTR) return GIX_DAMAGED;
        if (count <= 0 && left_until(until) == 0) return GIX_TIMED_OUT;
        if (count <= 0) continue;
        /* If the program has ended, the end of its output says so, too. */
        if (ready[INPUT].revents && !send_more(ready[INPUT].fd, question, &sent))
            ready[INPUT].fd = -1;
        if (ready[ERRORS].revents && !receive(ready[ERRORS].fd, &repository->message))
            ready[ERRORS].fd = -1;
        bool is_over = ready[OUTPUT].revents && !receive(ready[OUTPUT].fd, output);
        if (repository->message.failed || output->failed) return GIX_OUT_OF_MEMORY;
        if (is_over && parse(output, found) <= 0) {
            if (ready[ERRORS].fd >= 0) receive(ready[ERRORS].fd, &repository->message);
            return ended(repository, until);
        }
    }
}

/* Says why there is no answer, unless the program has. */
static void explain(gix_repository *repository, int32_t code) {
    text *message = &repository->message;
    while (message->len && message->bytes[message->len - 1] == '\n')
        message->bytes[--message->len] = 0;
    if (code == GIX_OK || code == GIX_NONE || message->len) return;
    refuse(repository, code,
           code == GIX_TIMED_OUT       ? "git-proved gave no answer in time"
           : code == GIX_OUT_OF_MEMORY ? "out of memory"
                                       : "git-proved gave no answer");
}

/* Asks a line. With GIX_OK and GIX_NONE, *output begins with the output of the answer, and has a
 * zero behind it. */
static int32_t ask(gix_repository *repository, const text *question, text *output) {
    answer found;
    clear(&repository->message);
    if (question->failed) return no_memory(repository);
    if (getpid() != repository->owner)
        return refuse(repository, GIX_FORKED, "the repository was opened before a fork");
    int32_t code = repository->program ? GIX_OK : start(repository);
    if (code != GIX_OK) return code;
    code = exchange(repository, question, output, &found);
    if (code != GIX_OK) {
        end(repository);
    } else {
        code = code_of(found.status);
        memmove(output->bytes, output->bytes + found.start, found.len);
        output->bytes[output->len = found.len] = 0;
    }
    explain(repository, code);
    return code;
}

/* Adds a word in quotes. */
static void add_word(text *line, const char *word) {
    add_text(line, line->len ? " '" : "'");
    for (const char *end; (end = strchr(word, '\'')); word = end + 1) {
        add(line, word, (size_t)(end - word));
        add_text(line, "'\\''");
    }
    add_text(line, word);
    add_text(line, "'");
}

static void add_words(text *line, const char *const *words) {
    for (; words && *words; words++) add_word(line, *words);
}

/* Asks the words of a line, and clears it. The output belongs to the caller if there is an answer,
 * and is then no NULL. */
static int32_t ask_words(gix_repository *repository, text *line, text *output) {
    *output = (text){0};
    add_text(line, "\n");
    int32_t code = ask(repository, line, output);
    clear(line);
    if (code != GIX_OK && code != GIX_NONE) clear(output);
    return code;
}

static bool is_one_line(const char *word) { return !strchr(word, '\n'); }

static bool is_revision(const char *word) { return *word && *word != '-' && is_one_line(word); }

static int32_t no_revision(gix_repository *repository) {
    return refuse(
        repository, GIX_NO_REVISION,
        "a revision is not empty and does not begin with a dash, and no word has a line feed");
}

/* Tests whether all texts of a list can be words of a question. Revisions are tested as such. */
static bool are_words(const char *const *words, bool are_revisions) {
    for (; words && *words; words++) {
        if (!(are_revisions ? is_revision(*words) : is_one_line(*words))) return false;
    }
    return true;
}

int32_t gix_repository_open(const char *path, const char *program, const char *const *options,
                            gix_repository **out) {
    size_t count = 0;
    while (options && options[count]) count++;
    gix_repository *made = calloc(1, sizeof *made);
    /* The program, -C, the path, the options, batch, and NULL. */
    char **words = calloc(count + 5, sizeof *words);
    if (!program) program = getenv("GIT_PROVED");
    if (!made || !words) return free(made), free(words), GIX_OUT_OF_MEMORY;
    made->words = words;
    made->owner = getpid();
    words[0] = strdup(program && *program ? program : "git-proved");
    words[1] = strdup("-C");
    /* The path keeps its meaning if the current folder changes. The first question says what is
     * wrong with it. */
    words[2] = realpath(path, NULL);
    if (!words[2] && errno != ENOMEM) words[2] = strdup(path);
    for (size_t i = 0; i < count; i++) words[3 + i] = strdup(options[i]);
    words[3 + count] = strdup("batch");
    for (size_t i = 0; i < count + 4; i++) {
        if (!words[i]) return gix_repository_free(made), GIX_OUT_OF_MEMORY;
    }
    *out = made;
    return GIX_OK;
}

void gix_repository_free(gix_repository *repository) {
    if (!repository) return;
    end(repository);
    clear(&repository->message);
    for (char **word = repository->words; *word; word++) free(*word);
    free(repository->words);
    free(repository);
}

void gix_repository_set_timeout(gix_repository *repository, uint32_t milliseconds) {
    repository->timeout = milliseconds;
}

const char *gix_repository_message(const gix_repository *repository) {
    return repository->message.bytes ? repository->message.bytes : "";
}

int32_t gix_repository_ask(gix_repository *repository, const char *const *words, char **out,
                           size_t *len) {
    text line = {0}, output;
    if (!are_words(words, false)) return no_revision(repository);
    add_words(&line, words);
    int32_t code = ask_words(repository, &line, &output);
    if (code != GIX_OK && code != GIX_NONE) return code;
    *out = output.bytes;
    *len = output.len;
    return code;
}

/* Tests whether a text begins with the digits of an id. */
static bool has_id(const char *text) { return strspn(text, "0123456789abcdef") >= DIGITS; }

/* Refuses an output that is not what the function expects, and clears it. */
static int32_t not_expected(gix_repository *repository, text *output) {
    clear(output);
    return refuse(repository, GIX_NOT_SUPPORTED,
                  "the output is not of the form that the function reads");
}

int32_t gix_repository_rev_parse(gix_repository *repository, const char *revision,
                                 char digits[41]) {
    text line = {0}, output;
    if (!is_revision(revision)) return no_revision(repository);
    add_words(&line, GIX_TEXTS("rev-parse", "--verify", revision));
    int32_t code = ask_words(repository, &line, &output);
    if (code < 0) return code;
    if (output.len != DIGITS + 1 || !has_id(output.bytes)) return not_expected(repository, &output);
    memcpy(digits, output.bytes, DIGITS);
    digits[DIGITS] = 0;
    clear(&output);
    return code;
}

/* Makes a list of the lines of an output, each an id, and clears the output. */
static int32_t list_ids(gix_repository *repository, int32_t code, text *output, char ***out) {
    size_t count = output->len / (DIGITS + 1);
    char **list = malloc((count + 1) * sizeof *list + output->len + 1);
    if (!list) return clear(output), no_memory(repository);
    char *at = memcpy(list + count + 1, output->bytes, output->len + 1);
    for (size_t i = 0; i < count; i++, at += DIGITS + 1) {
        if (!has_id(at) || at[DIGITS] != '\n') return free(list), not_expected(repository, output);
        at[DIGITS] = 0;
        list[i] = at;
    }
    if (*at) return free(list), not_expected(repository, output);
    list[count] = NULL;
    clear(output);
    *out = list;
    return code;
}

int32_t gix_repository_merge_bases(gix_repository *repository, const char *const *revisions,
                                   char ***ids) {
    text line = {0}, output;
    if (!are_words(revisions, true)) return no_revision(repository);
    add_words(&line, GIX_TEXTS("merge-base", "--all"));
    add_words(&line, revisions);
    int32_t code = ask_words(repository, &line, &output);
    return code < 0 ? code : list_ids(repository, code, &output, ids);
}

int32_t gix_repository_reaches(gix_repository *repository, const char *from, const char *ancestor) {
    text line = {0}, output;
    if (!is_revision(from) || !is_revision(ancestor)) return no_revision(repository);
    add_words(&line, GIX_TEXTS("merge-base", "--is-ancestor", ancestor, from));
    int32_t code = ask_words(repository, &line, &output);
    if (code < 0) return code;
    clear(&output);
    return code == GIX_OK;
}

int32_t gix_repository_rev_list(gix_repository *repository, const char *const *options,
                                const char *const *revisions, char ***ids) {
    text line = {0}, output;
    if (!are_words(options, false) || !are_words(revisions, true)) return no_revision(repository);
    add_word(&line, "rev-list");
    add_words(&line, options);
    add_words(&line, revisions);
    add_word(&line, "--");
    int32_t code = ask_words(repository, &line, &output);
    return code < 0 ? code : list_ids(repository, code, &output, ids);
}

/* Reads the numbers of an output, with a character after each, and clears it. */
static int32_t read_numbers(gix_repository *repository, int32_t code, text *output,
                            const char *ends, uint64_t **numbers) {
    const char *at = output->bytes;
    for (; *ends; ends++, numbers++) {
        if (!read_number(&at, *numbers) || *at++ != *ends) return not_expected(repository, output);
    }
    clear(output);
    return code;
}

int32_t gix_repository_count(gix_repository *repository, const char *const *revisions,
                             uint64_t *count) {
    text line = {0}, output;
    uint64_t found;
    if (!are_words(revisions, true)) return no_revision(repository);
    add_words(&line, GIX_TEXTS("rev-list", "--count"));
    add_words(&line, revisions);
    add_word(&line, "--");
    int32_t code = ask_words(repository, &line, &output);
    if (code >= 0) code = read_numbers(repository, code, &output, "\n", (uint64_t *[]){&found});
    if (code >= 0) *count = found;
    return code;
}

/* Counts for one branch. */
static int32_t count_both(gix_repository *repository, const char *base, const char *branch,
                          gix_ahead_behind *out) {
    text line = {0}, output, range = {0};
    if (!is_revision(base) || !is_revision(branch)) return no_revision(repository);
    add_text(&range, branch);
    add_text(&range, "...");
    add_text(&range, base);
    if (range.failed) return clear(&range), no_memory(repository);
    add_words(&line, GIX_TEXTS("rev-list", "--left-right", "--count", range.bytes, "--"));
    clear(&range);
    int32_t code = ask_words(repository, &line, &output);
    if (code < 0) return code;
    return read_numbers(repository, code, &output, "\t\n",
                        (uint64_t *[]){&out->ahead, &out->behind});
}

int32_t gix_repository_ahead_behind(gix_repository *repository, const char *base,
                                    const char *const *branches, gix_ahead_behind *out) {
    size_t count = 0;
    while (branches[count]) count++;
    gix_ahead_behind *found = calloc(count + 1, sizeof *found);
    if (!found) return no_memory(repository);
    int32_t code = GIX_OK;
    for (size_t i = 0; i < count && code >= 0; i++)
        code = count_both(repository, base, branches[i], &found[i]);
    if (code >= 0 && count) memcpy(out, found, count * sizeof *found);
    free(found);
    return code;
}

int32_t gix_repository_describe(gix_repository *repository, const char *const *options,
                                const char *revision, char **out) {
    text line = {0}, output;
    if (!are_words(options, false) || !is_revision(revision)) return no_revision(repository);
    add_word(&line, "describe");
    add_words(&line, options);
    add_word(&line, revision);
    int32_t code = ask_words(repository, &line, &output);
    if (code < 0) return code;
    if (!output.len || memchr(output.bytes, '\n', output.len) != output.bytes + output.len - 1)
        return not_expected(repository, &output);
    output.bytes[output.len - 1] = 0;
    *out = output.bytes;
    return code;
}

/* Makes a list of the lines of an output, each an id, a blank and a name, and clears the output. */
static int32_t list_references(gix_repository *repository, int32_t code, text *output,
                               gix_reference **out) {
    size_t count = 0;
    for (size_t i = 0; i < output->len; i++) count += output->bytes[i] == '\n';
    gix_reference *list = malloc((count + 1) * sizeof *list + output->len + 1);
    if (!list) return clear(output), no_memory(repository);
    char *at = memcpy(list + count + 1, output->bytes, output->len + 1);
    for (size_t i = 0; i < count; i++) {
        if (!has_id(at) || at[DIGITS] != ' ') return free(list), not_expected(repository, output);
        list[i] = (gix_reference){.id = at, .name = at + DIGITS + 1};
        at[DIGITS] = 0;
        at = strchr(at + DIGITS + 1, '\n');
        *at++ = 0;
    }
    list[count] = (gix_reference){0};
    clear(output);
    *out = list;
    return code;
}

int32_t gix_repository_references(gix_repository *repository, const char *const *options,
                                  const char *const *patterns, gix_reference **refs) {
    text line = {0}, output;
    if (!are_words(options, false) || !are_words(patterns, false)) return no_revision(repository);
    add_words(&line, GIX_TEXTS("for-each-ref", "--format=%(objectname) %(refname)"));
    add_words(&line, options);
    add_word(&line, "--");
    add_words(&line, patterns);
    int32_t code = ask_words(repository, &line, &output);
    return code < 0 ? code : list_references(repository, code, &output, refs);
}

int32_t gix_repository_contains(gix_repository *repository, const char *commit,
                                const char *const *patterns, gix_reference **refs) {
    text option = {0};
    if (!is_revision(commit)) return no_revision(repository);
    add_text(&option, "--contains=");
    add_text(&option, commit);
    int32_t code = option.failed ? no_memory(repository)
                                 : gix_repository_references(repository, GIX_TEXTS(option.bytes),
                                                             patterns, refs);
    clear(&option);
    return code;
}
