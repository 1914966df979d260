/*
 * Times git_merge_base_many of libgit2: libgit2 REPOSITORY ID ID
 *
 * Prints two processor times in seconds:
 *   to find a merge base of the two ids in a repository that was just opened
 *   to find it again: the average of as many calls as take 0.2 seconds
 */
#define _POSIX_C_SOURCE 199309L
#include <git2.h>
#include <stdio.h>
#include <stdlib.h>
#include <time.h>

static double now(void) {
    struct timespec at;
    clock_gettime(CLOCK_PROCESS_CPUTIME_ID, &at);
    return (double)at.tv_sec + (double)at.tv_nsec * 1e-9;
}

static void expect(int is_so, const char *what) {
    if (!is_so) {
        fprintf(stderr, "libgit2: %s\n", what);
        exit(1);
    }
}

int main(int argc, char **argv) {
    git_repository *repository;
    git_oid ids[2], base;
    expect(argc == 4, "usage: libgit2 REPOSITORY ID ID");
    git_libgit2_init();
    expect(git_repository_open(&repository, argv[1]) == 0, "cannot open the repository");
    for (int i = 0; i < 2; i++)
        expect(git_oid_fromstr(&ids[i], argv[2 + i]) == 0, "not an id of 40 digits");
    double start = now();
    expect(git_merge_base_many(&base, repository, 2, ids) == 0, "no merge base");
    double asked = now();
    size_t again = 0;
    while (again == 0 || now() - asked < 0.2) {
        expect(git_merge_base_many(&base, repository, 2, ids) == 0, "no merge base");
        again++;
    }
    printf("%.9f %.9f\n", asked - start, (now() - asked) / (double)again);
    git_repository_free(repository);
    git_libgit2_shutdown();
    return 0;
}
