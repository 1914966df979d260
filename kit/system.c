/*
 * The functions that the proved objects call, and that the C library does not have.
 *
 * The proofs take the contract of each function for granted: its comment says what they assume.
 * Nothing proves that this C code keeps these contracts, so whoever trusts the programs trusts this
 * file. The other functions that the objects call, such as `read` and `memcpy`, are those of the C
 * library, and are trusted, too.
 *
 * The library needs only the first three (-DLIBRARY). Programs are linked with --wrap=main.
 */
#define _GNU_SOURCE
#include <cpuid.h>
#include <errno.h>
#include <fcntl.h>
#include <stdbool.h>
#include <stdlib.h>
#include <string.h>
#include <sys/syscall.h>
#include <unistd.h>

_Static_assert(sizeof(size_t) == 8, "the objects are for x86-64");

/* Whether there is memory, and where. */
typedef struct {
    bool is_there;
    void *at;
} memory;

static char no_memory;

/* `malloc` aligns to 16 bytes. It may return NULL for 0 bytes, so nobody asks it for 0. */
static memory memory_at(void *at) {
    return at == NULL ? (memory){false, &no_memory} : (memory){true, at};
}

/*
 * Allocates memory.
 *
 * Assumed: if `is_there`, at `at` are `size` bytes, aligned to `alignment`, that belong to the
 * caller alone until they are freed. Otherwise `at` is not NULL, and nothing there belongs to the
 * caller. Either may happen at any call. `alignment` divides 16, and `size` is less than 2^63.
 */
memory rattle_alloc(size_t size, size_t alignment) {
    return memory_at(malloc(size == 0 ? alignment : size));
}

/*
 * Makes memory larger or smaller. `at` is from rattle_alloc or rattle_realloc.
 *
 * Assumed: if `is_there`, the memory at the returned `at` is as that of rattle_alloc, and begins
 * with the first `kept` bytes of the old memory, which no longer belongs to the caller. Otherwise
 * the old memory is unchanged, and still belongs to the caller. `kept` is at most `size`.
 */
memory rattle_realloc(void *at, size_t kept, size_t size, size_t alignment) {
    (void)kept;
    return memory_at(realloc(at, size == 0 ? alignment : size));
}

/*
 * Frees memory. `at` is from rattle_alloc or rattle_realloc, and the caller no longer uses it.
 *
 * Assumed: it returns, and changes no memory that belongs to anybody.
 */
void rattle_dealloc(void *at) {
    free(at);
}

#ifndef LIBRARY
static size_t word_count;
static char **words;

int __real_main(int count, char **values);

/* Keeps the words of the command line, and starts the program. The linker puts it before main. */
int __wrap_main(int count, char **values) {
    word_count = (size_t)count;
    words = values;
    return __real_main(count, values);
}

/* Puts a text at the start of the `room` bytes at `to`. If it does not fit, they are filled. */
static ssize_t put(const char *text, char *to, size_t room) {
    if (text == NULL) return -1;
    size_t length = strlen(text);
    memcpy(to, text, length < room ? length : room);
    return length <= room ? (ssize_t)length : -2;
}

/*
 * Copies a word of the command line to `to`. Returns its length, -1 if there is no such word, and
 * -2 if it is longer than `room`.
 *
 * Assumed: it returns, and writes only to the `room` bytes at `to`. Whether it is the right word is
 * not assumed.
 */
ssize_t rattle_arg(size_t number, char *to, size_t room) {
    return put(number < word_count ? words[number] : NULL, to, room);
}

/*
 * Copies the value of a variable of the environment to `to`, and returns as rattle_arg does. `name`
 * ends with a zero byte.
 *
 * Assumed: the same as of rattle_arg.
 */
ssize_t rattle_env(const char *name, char *to, size_t room) {
    return put(getenv(name), to, room);
}

/* Returns the number of the last error. Assumed: it returns, and changes nothing. */
int rattle_errno(void) {
    return errno;
}

/* Sets the number of the last error. Assumed: it returns, and changes no memory of the program. */
void rattle_set_errno(int number) {
    errno = number;
}

/*
 * Opens a folder for reading, by a name that ends with a zero byte and begins at the open folder
 * `folder`. Returns its descriptor, or -1. A link at the end of the name is not followed.
 *
 * Assumed: it returns, and changes no memory of the program. Whether it is the right folder is not
 * assumed.
 */
int rattle_open_dir_at(int folder, const char *name) {
    return openat(folder, name, O_RDONLY | O_NOFOLLOW | O_DIRECTORY | O_CLOEXEC);
}

/*
 * Returns words 4 to 7 with the registers that the instruction CPUID fills, of function 1 (`leaf`
 * 0) or 0x80000001 (`leaf` 2). Before anything else, a program asks whether the processor has the
 * instructions of x86-64-v2. glibc has this function from 2.33 on, and musl does not have it.
 *
 * Assumed: it returns, and changes no memory of the program.
 */
const void *__x86_get_cpuid_feature_leaf(unsigned leaf) {
    static unsigned registers[8];
    unsigned *found = registers + 4;
    memset(registers, 0, sizeof registers);
    __get_cpuid(leaf == 0 ? 1 : 0x80000001u, found, found + 1, found + 2, found + 3);
    return registers;
}

/*
 * Three functions of glibc that musl does not have in each version, by the system call that glibc
 * makes.
 *
 * Assumed: as of the functions of glibc, that they write only to the memory that they are passed.
 */
#ifndef __GLIBC__
ssize_t __write(int file, const void *bytes, size_t count) {
    return write(file, bytes, count);
}

__attribute__((weak)) int statx(int folder, const char *name, int flags, unsigned mask, void *to) {
    return (int)syscall(SYS_statx, folder, name, flags, mask, to);
}

__attribute__((weak)) ssize_t getdents64(int folder, void *entries, size_t room) {
    return syscall(SYS_getdents64, folder, entries, room);
}
#endif
#endif
