/*
 * How a question ends badly: no answer may belong to an earlier question. Each
 * allocation fails in turn. This program is also the one that is asked, a
 * stand-in for git-proved, if its first argument is -C.
 */
#define _GNU_SOURCE
#include "gix_repository.h"

#include "case.h"

#include <errno.h>
#include <fcntl.h>
#include <signal.h>
#include <stdlib.h>
#include <sys/wait.h>
#include <time.h>
#include <unistd.h>

/* Milliseconds that a question may take, and seconds that the stand-in sleeps if it is not to
 * answer. */
enum { SHORT = 200, LONG = 60 };

#define ID "0123456789012345678901234567890123456789"

static char *name;

/* How many allocations succeed until one fails; below 0 none does. */
static long left = -1;

static int fails(void) { return left >= 0 && left-- == 0; }

void *__real_malloc(size_t size);
void *__real_calloc(size_t count, size_t size);
void *__real_realloc(void *block, size_t size);
void *__wrap_malloc(size_t size);
void *__wrap_calloc(size_t count, size_t size);
void *__wrap_realloc(void *block, size_t size);

void *__wrap_malloc(size_t size) { return fails() ? NULL : __real_malloc(size); }
void *__wrap_calloc(size_t count, size_t size) {
    return fails() ? NULL : __real_calloc(count, size);
}
void *__wrap_realloc(void *block, size_t size) {
    return fails() ? NULL : __real_realloc(block, size);
}

static void write_all(int stream, const char *text) {
    for (size_t len = strlen(text); len > 0;) {
        ssize_t written = write(stream, text, len);
        if (written < 0) exit(2);
        text += written;
        len -= (size_t)written;
    }
}

static void print(const char *text) { write_all(1, text); }

/* Prints an answer. The word "twice" is printed twice, at once. */
static void answer(int status, const char *word) {
    static char text[1 << 20];
    int times = strcmp(word, "twice") ? 1 : 2, len = 0;
    while (times--)
        len += snprintf(text + len, sizeof text - (size_t)len, "%d %zu\n%s\n\n", status,
                        strlen(word) + 1, word);
    print(text);
}

static void be_loud(void) {
    static char noise[1000001];
    memset(noise, 'x', sizeof noise - 1);
    write_all(2, noise);
}

/* Answers each question by its last word, but for some words. */
static int stand_in(int argc, char **argv) {
    static char line[1 << 20], told[256];
    while (fgets(line, sizeof line, stdin)) {
        int status = 0;
        line[strcspn(line, "\n") - 1] = 0;
        const char *word = strrchr(line, '\'') + 1;
        if (!strcmp(word, "never")) sleep(LONG);
        if (!strcmp(word, "125") || !strcmp(word, "129")) status = atoi(word);
        if (!strcmp(word, "dies")) return fputs("fatal: died\n", stderr), 3;
        if (!strcmp(word, "leaves")) return fputs("fatal: left\n", stderr), 128;
        if (!strcmp(word, "wrong")) print("\xff\xff\n");
        if (!strcmp(word, "large")) print("0 18446744073709551615\n");
        if (!strcmp(word, "half")) print("0 100\nhalf"), sleep(LONG);
        if (!strcmp(word, "loud")) be_loud(), status = 128;
        if (!strcmp(word, "who")) snprintf(told, sizeof told, "%d", (int)getpid()), word = told;
        if (!strcmp(word, "--") && !strstr(line, "odd"))
            word = strstr(line, "left") ? "3\t4" : strstr(line, "count") ? "2" : ID "\n" ID;
        if (!strcmp(word, "refs")) word = ID " refs/heads/main\n" ID " refs/heads/topic";
        if (!strcmp(word, "HEAD")) word = ID;
        if (!strcmp(word, "words"))
            snprintf(told, sizeof told, "%d %s %s", argc, argv[3], argv[argc - 1]), word = told;
        answer(status, word);
    }
    return 0;
}

/* Asks the stand-in for a word. The answer is static. */
static const char *ask(gix_repository *repository, const char *word, int32_t *code) {
    static char told[256];
    char *text = NULL;
    size_t len = 0;
    *code = gix_repository_ask(repository, GIX_TEXTS("it's", word), &text, &len);
    told[0] = 0;
    if (*code == GIX_OK) {
        snprintf(told, sizeof told, "%.*s", (int)(len - 1), text);
        free(text);
    }
    return told;
}

static gix_repository *opened(void) {
    gix_repository *repository = NULL;
    EXPECT(gix_repository_open(".", name, GIX_TEXTS("--authentic"), &repository) == GIX_OK);
    return repository;
}

static double seconds(void) {
    struct timespec time;
    clock_gettime(CLOCK_MONOTONIC, &time);
    return (double)time.tv_sec + (double)time.tv_nsec / 1e9;
}

/* After a bad end the next answer is that of the next question. */
static void ends_badly(void) {
    static const struct {
        const char *word, *message;
        int32_t code;
    } ends[] = {
        {"never", "git-proved gave no answer in time", GIX_TIMED_OUT},
        {"half", "git-proved gave no answer in time", GIX_TIMED_OUT},
        {"wrong", "git-proved gave no answer", GIX_DAMAGED},
        {"large", "git-proved gave no answer", GIX_DAMAGED},
        {"twice", "git-proved gave no answer", GIX_DAMAGED},
        {"dies", "fatal: died", GIX_DAMAGED},
        {"leaves", "fatal: left", GIX_NOT_THERE},
    };
    gix_repository *repository = opened();
    gix_repository_set_timeout(repository, SHORT);
    for (size_t i = 0; i < sizeof ends / sizeof *ends; i++) {
        int32_t code;
        double began = seconds();
        ask(repository, ends[i].word, &code);
        if (code != ends[i].code || strcmp(gix_repository_message(repository), ends[i].message))
            printf("%s: %d, %s\n", ends[i].word, (int)code, gix_repository_message(repository)),
                failed = 1;
        EXPECT(seconds() - began < LONG / 2);
        EXPECT(!strcmp(ask(repository, "next", &code), "next") && code == GIX_OK);
        EXPECT(!strcmp(gix_repository_message(repository), ""));
    }
    gix_repository_free(repository);
}

/* These answers leave the program as it is. */
static void answers(void) {
    gix_repository *repository = opened();
    int32_t code;
    char program[64], digits[41] = "unchanged", **ids = NULL;
    gix_reference *refs = NULL;
    uint64_t count = 7;
    snprintf(program, sizeof program, "%s", ask(repository, "who", &code));
    EXPECT(!strcmp(ask(repository, "words", &code), "5 --authentic batch"));
    ask(repository, "125", &code);
    EXPECT(code == GIX_DAMAGED);
    ask(repository, "129", &code);
    EXPECT(code == GIX_NOT_SUPPORTED);
    ask(repository, "loud", &code);
    EXPECT(code == GIX_NOT_THERE && strlen(gix_repository_message(repository)) == 1000000);
    /* Nothing of these becomes a question. */
    EXPECT(gix_repository_rev_parse(repository, "--all", digits) == GIX_NO_REVISION);
    EXPECT(gix_repository_rev_parse(repository, "", digits) == GIX_NO_REVISION);
    EXPECT(gix_repository_rev_parse(repository, "a\nb", digits) == GIX_NO_REVISION);
    EXPECT(gix_repository_count(repository, GIX_TEXTS("a", "-b"), &count) == GIX_NO_REVISION);
    EXPECT(gix_repository_contains(repository, "-a", NULL, &refs) == GIX_NO_REVISION);
    EXPECT(gix_repository_references(repository, NULL, GIX_TEXTS("a\nb"), &refs) ==
           GIX_NO_REVISION);
    /* The stand-in repeats the last word, which is neither an id nor a number. */
    EXPECT(gix_repository_rev_parse(repository, "main", digits) == GIX_NOT_SUPPORTED);
    EXPECT(gix_repository_rev_list(repository, NULL, GIX_TEXTS("odd"), &ids) == GIX_NOT_SUPPORTED);
    EXPECT(gix_repository_count(repository, GIX_TEXTS("odd"), &count) == GIX_NOT_SUPPORTED);
    EXPECT(gix_repository_contains(repository, "main", NULL, &refs) == GIX_NOT_SUPPORTED);
    EXPECT(!strcmp(digits, "unchanged") && !ids && !refs && count == 7);
    EXPECT(!strcmp(ask(repository, "who", &code), program));
    /* A program that has been killed is started again once a question has shown it. */
    kill(atoi(program), SIGKILL);
    ask(repository, "next", &code);
    EXPECT(code == GIX_DAMAGED);
    EXPECT(!strcmp(ask(repository, "next", &code), "next"));
    gix_repository_free(repository);
    EXPECT(waitpid(-1, NULL, WNOHANG) < 0 && errno == ECHILD);
}

/* A question of 900,000 bytes, which is more than a socket holds. */
static void long_question(void) {
    static char word[900001];
    gix_repository *repository = opened();
    char *text = NULL;
    size_t len = 0;
    memset(word, 'x', sizeof word - 1);
    EXPECT(gix_repository_ask(repository, GIX_TEXTS(word), &text, &len) == GIX_OK);
    EXPECT(len == sizeof word && !memcmp(text, word, sizeof word - 1));
    free(text);
    gix_repository_free(repository);
}

static void forks(void) {
    gix_repository *repository = opened();
    int32_t code;
    int status = 1;
    char program[64];
    snprintf(program, sizeof program, "%s", ask(repository, "who", &code));
    pid_t child = fork();
    if (child == 0) {
        ask(repository, "who", &code);
        gix_repository_free(repository);
        _exit(code == GIX_FORKED ? 0 : 1);
    }
    waitpid(child, &status, 0);
    EXPECT(status == 0);
    EXPECT(!strcmp(ask(repository, "who", &code), program));
    gix_repository_free(repository);
}

/* Repeats a call that is out of memory. */
#define UNTIL_OK(call) (((code = (call)) == GIX_OUT_OF_MEMORY ? code = (call) : code) == GIX_OK)

/* Asks each question, while one allocation fails. */
static void asks_all(void) {
    gix_repository *repository;
    char digits[41], **ids, *text;
    gix_reference *refs;
    gix_ahead_behind both[2] = {{0, 0}, {0, 0}};
    uint64_t count = 0;
    int32_t code;
    EXPECT(UNTIL_OK(gix_repository_open(".", name, NULL, &repository)));
    EXPECT(UNTIL_OK(gix_repository_rev_parse(repository, "HEAD", digits)) && !strcmp(digits, ID));
    EXPECT(UNTIL_OK(gix_repository_merge_bases(repository, GIX_TEXTS("main", "HEAD"), &ids)));
    EXPECT(!strcmp(ids[0], ID) && !ids[1]);
    free(ids);
    code = gix_repository_reaches(repository, "main", "topic");
    EXPECT(code == 1 ||
           (code == GIX_OUT_OF_MEMORY && gix_repository_reaches(repository, "main", "topic") == 1));
    EXPECT(UNTIL_OK(
        gix_repository_rev_list(repository, GIX_TEXTS("-n2"), GIX_TEXTS("main", "^v1"), &ids)));
    EXPECT(!strcmp(ids[0], ID) && !strcmp(ids[1], ID) && !ids[2]);
    free(ids);
    EXPECT(UNTIL_OK(gix_repository_count(repository, GIX_TEXTS("main"), &count)) && count == 2);
    EXPECT(UNTIL_OK(gix_repository_ahead_behind(repository, "main", GIX_TEXTS("a", "b"), both)));
    EXPECT(both[0].ahead == 3 && both[1].behind == 4);
    EXPECT(UNTIL_OK(gix_repository_describe(repository, GIX_TEXTS("--tags"), "v1-2-g3", &text)) &&
           !strcmp(text, "v1-2-g3"));
    free(text);
    EXPECT(UNTIL_OK(gix_repository_contains(repository, "v1", GIX_TEXTS("refs"), &refs)));
    EXPECT(!strcmp(refs[1].name, "refs/heads/topic") && !strcmp(refs[1].id, ID) && !refs[2].name);
    free(refs);
    gix_repository_free(repository);
}

static void memory_is_refused(void) {
    long turn = 0;
    do {
        left = turn++;
        asks_all();
    } while (left < 0);
    EXPECT(turn > 20);
    left = -1;
}

static void cannot_start(void) {
    gix_repository *repository = NULL;
    int32_t code;
    EXPECT(gix_repository_open("/nosuch", "/nosuch/program", NULL, &repository) == GIX_OK);
    ask(repository, "next", &code);
    EXPECT(code == GIX_NOT_STARTED && errno == ENOENT);
    EXPECT(
        !strcmp(gix_repository_message(repository), "/nosuch/program: No such file or directory"));
    gix_repository_free(repository);
}

int main(int argc, char **argv) {
    name = argv[0];
    if (argc > 1 && !strcmp(argv[1], "-C")) return stand_in(argc, argv);
    ends_badly();
    answers();
    long_question();
    forks();
    memory_is_refused();
    cannot_start();
    /* Also without standard streams, whose numbers the sockets would get. */
    fflush(stdout);
    int saved = fcntl(1, F_DUPFD_CLOEXEC, 10);
    close(0);
    close(1);
    close(2);
    answers();
    dup2(saved, 1);
    if (!failed) puts("each question was answered, or ended as it had to");
    return failed;
}
