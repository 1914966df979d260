/* Makes calls of the C library fail in a program: put it into LD_PRELOAD.
 *
 * FAILING_KIND  which calls: `memory` (malloc and its kin), `files` (all that reach files and the
 *               system), or `short` (no call fails, but a read gives few bytes at a time)
 * FAILING_AT    the number of the first call that fails, from 1 on
 * FAILING_ON    if it is set, every later call fails, too
 * FAILING_COUNT the file to which the number of calls is written at the end
 */
#define _GNU_SOURCE
#include <errno.h>
#include <fcntl.h>
#include <stdarg.h>
#include <stdio.h>
#include <stdlib.h>
#include <string.h>
#include <sys/stat.h>
#include <sys/syscall.h>
#include <sys/types.h>
#include <time.h>
#include <unistd.h>

extern void *__libc_malloc(size_t);
extern void *__libc_calloc(size_t, size_t);
extern void *__libc_realloc(void *, size_t);
extern void *__libc_memalign(size_t, size_t);

enum kind { NOTHING, MEMORY, FILES, SHORT };

static enum kind kind = NOTHING;
static long at, calls;
static int goes_on;
static char count_path[4096];

__attribute__((constructor)) static void begin(void)
{
    const char *name = getenv("FAILING_KIND"), *number = getenv("FAILING_AT");
    const char *path = getenv("FAILING_COUNT");
    at = number ? atol(number) : 0;
    goes_on = getenv("FAILING_ON") != NULL;
    if (path && strlen(path) < sizeof count_path)
        strcpy(count_path, path);
    if (!name)
        return;
    kind = !strcmp(name, "memory") ? MEMORY : !strcmp(name, "files") ? FILES : SHORT;
}

__attribute__((destructor)) static void end(void)
{
    char text[32];
    int file, length = snprintf(text, sizeof text, "%ld\n", calls);
    kind = NOTHING;
    if (!count_path[0])
        return;
    file = open(count_path, O_WRONLY | O_CREAT | O_TRUNC, 0644);
    if (file >= 0 && write(file, text, (size_t)length) == length)
        close(file);
}

/* Counts a call of a kind. Returns whether it fails, and then sets errno. */
static int fails(enum kind of, int error)
{
    if (kind != of)
        return 0;
    calls++;
    if (calls != at && !(goes_on && at && calls > at))
        return 0;
    errno = error;
    return 1;
}

static size_t part(size_t size)
{
    return kind == SHORT && size > 7 ? 7 : size;
}

void *malloc(size_t size)
{
    return fails(MEMORY, ENOMEM) ? NULL : __libc_malloc(size);
}

void *calloc(size_t count, size_t size)
{
    return fails(MEMORY, ENOMEM) ? NULL : __libc_calloc(count, size);
}

void *realloc(void *from, size_t size)
{
    return size && fails(MEMORY, ENOMEM) ? NULL : __libc_realloc(from, size);
}

void *aligned_alloc(size_t align, size_t size)
{
    return fails(MEMORY, ENOMEM) ? NULL : __libc_memalign(align, size);
}

int posix_memalign(void **to, size_t align, size_t size)
{
    if (fails(MEMORY, ENOMEM))
        return ENOMEM;
    *to = __libc_memalign(align, size);
    return *to ? 0 : ENOMEM;
}

/* The other functions are system calls, so that no function of the C library has to be looked up. */
#define OPENS(name, parameters, dir) \
    int name parameters \
    { \
        mode_t mode = 0; \
        va_list rest; \
        va_start(rest, flags); \
        if (flags & (O_CREAT | O_TMPFILE)) \
            mode = va_arg(rest, mode_t); \
        va_end(rest); \
        return fails(FILES, EMFILE) ? -1 : (int)syscall(SYS_openat, dir, path, flags, mode); \
    }

OPENS(open, (const char *path, int flags, ...), AT_FDCWD)
OPENS(open64, (const char *path, int flags, ...), AT_FDCWD)
OPENS(openat, (int dir, const char *path, int flags, ...), dir)
OPENS(openat64, (int dir, const char *path, int flags, ...), dir)

#define CALLS(result, name, parameters, ...) \
    result name parameters { return fails(FILES, EIO) ? -1 : (result)syscall(__VA_ARGS__); }

CALLS(ssize_t, read, (int file, void *to, size_t size), SYS_read, file, to, part(size))
CALLS(ssize_t, pread, (int file, void *to, size_t size, off_t from), SYS_pread64, file, to,
      part(size), from)
CALLS(ssize_t, pread64, (int file, void *to, size_t size, off64_t from), SYS_pread64, file, to,
      part(size), from)
CALLS(ssize_t, write, (int file, const void *from, size_t size), SYS_write, file, from, part(size))
CALLS(off_t, lseek, (int file, off_t to, int whence), SYS_lseek, file, to, whence)
CALLS(int, access, (const char *path, int mode), SYS_access, path, mode)
CALLS(int, stat, (const char *path, struct stat *to), SYS_stat, path, to)
CALLS(int, lstat, (const char *path, struct stat *to), SYS_lstat, path, to)
CALLS(int, fstat, (int file, struct stat *to), SYS_fstat, file, to)
CALLS(int, statx, (int dir, const char *path, int flags, unsigned mask, struct statx *to),
      SYS_statx, dir, path, flags, mask, to)
CALLS(ssize_t, readlink, (const char *path, char *to, size_t size), SYS_readlink, path, to, size)
CALLS(int, chdir, (const char *path), SYS_chdir, path)
CALLS(ssize_t, getdents64, (int file, void *to, size_t size), SYS_getdents64, file, to, size)
CALLS(int, clock_gettime, (clockid_t clock, struct timespec *to), SYS_clock_gettime, clock, to)

int getentropy(void *to, size_t size)
{
    if (fails(FILES, EIO))
        return -1;
    return syscall(SYS_getrandom, to, size, 0) == (long)size ? 0 : -1;
}

char *getcwd(char *to, size_t size)
{
    return fails(FILES, EIO) || syscall(SYS_getcwd, to, size) < 0 ? NULL : to;
}

char *realpath(const char *path, char *to)
{
    char *found = fails(FILES, EIO) ? NULL : canonicalize_file_name(path);
    if (!found || !to)
        return found;
    strcpy(to, found);
    free(found);
    return to;
}
