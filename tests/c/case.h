/* What the tests share: the criss-cross, and how a line that is not so is told. */
#include "gix_revision.h"

#include <stdio.h>
#include <string.h>

static int failed = 0;

#define EXPECT(condition)                                          \
    do {                                                           \
        if (!(condition)) {                                        \
            printf("line %d: not so: %s\n", __LINE__, #condition); \
            failed = 1;                                            \
        }                                                          \
    } while (0)

/* The id that repeats one byte. */
static inline gix_id id_of(int byte) {
    gix_id id;
    memset(id.bytes, byte, sizeof id.bytes);
    return id;
}

static inline int is_id(const gix_id *id, int byte) {
    gix_id other = id_of(byte);
    return memcmp(id->bytes, other.bytes, sizeof other.bytes) == 0;
}

static inline const uint8_t *text_of(const char *text) { return (const uint8_t *)text; }

/* A commit whose id repeats one byte, on up to two parents; 0 is none. */
static inline int32_t put(gix_history *history, int byte, int first, int second, int64_t time) {
    gix_id id = id_of(byte), parents[2];
    parents[0] = id_of(first);
    parents[1] = id_of(second);
    return gix_history_insert(history, &id, parents, (size_t)((first != 0) + (second != 0)), time, false, 0);
}

enum { FILE_OF_FIVE = 1380, ROWS_OF_FIVE = 1180 };

/* A number as a commit-graph file has it. */
static inline void write_number(uint8_t *at, uint32_t number) {
    for (int i = 0; i < 4; i++)
        at[i] = (uint8_t)(number >> (24 - 8 * i));
}

/* Writes the commit-graph file of `count` commits of the criss-cross, from number `first` on, and returns its length. The criss-cross
 * is 11; 22 and 33 on it; 44 and 55 on both. Below the file are others, whose hashes are `bases`. Chunks of 4 bytes of name and 8 of
 * place, the fanout, the ids, a row for each commit (a tree, two parents, the level and the time) and the hashes. The hash at its end
 * is not right. */
static inline size_t write_part(uint8_t *file, uint32_t first, uint32_t count, uint32_t bases, const uint8_t (*hashes)[20]) {
    static const uint32_t none = 0x70000000;
    const uint32_t rows[5][4] = {{none, none, 1, 1}, {0, none, 2, 2}, {0, none, 2, 2}, {1, 2, 3, 4}, {1, 2, 3, 5}};
    const uint32_t names[5] = {0x4F494446, 0x4F49444C, 0x43444154, 0x42415345, 0}, sizes[5] = {1024, 20 * count, 36 * count, 20 * bases, 20};
    uint32_t at = bases ? 68 : 56;
    size_t len = at + 1024 + 56 * count + 20 * bases + 20;
    memset(file, 0, len);
    memcpy(file, "CGPH\1\1", 6);
    file[6] = bases ? 4 : 3;
    file[7] = (uint8_t)bases;
    for (uint32_t i = 0, entry = 8; i < 5; i++) {
        if (i == 3 && bases == 0)
            continue;
        write_number(file + entry, names[i]);
        write_number(file + entry + 8, at);
        entry += 12;
        at += sizes[i];
    }
    file += bases ? 68 : 56;
    for (uint32_t byte = 0; byte < 256; byte++) {
        uint32_t below = byte / 0x11 < first + count ? byte / 0x11 : first + count;
        write_number(file + 4 * byte, below > first ? below - first : 0);
    }
    for (uint32_t i = 0; i < count; i++) {
        uint8_t *row = file + 1024 + 20 * count + 36 * i;
        memset(file + 1024 + 20 * i, (int)(0x11 * (first + i + 1)), 20);
        write_number(row + 20, rows[first + i][0]);
        write_number(row + 24, rows[first + i][1]);
        write_number(row + 28, rows[first + i][2] << 2);
        write_number(row + 32, rows[first + i][3]);
    }
    if (bases)
        memcpy(file + 1024 + 56 * count, hashes, 20 * bases);
    return len;
}

/* The commit-graph file of the criss-cross, without files below it. */
static inline void write_file(uint8_t *file) { write_part(file, 0, 5, 0, NULL); }

/* The criss-cross as a chain of three files: 11; 22 and 33; 44 and 55. */
typedef struct {
    uint8_t bytes[3][FILE_OF_FIVE];
    gix_bytes files[3];
} chain_of_three;

enum { LEVEL_OF_LOWEST = 56 + 1024 + 20 + 28 };

static inline void write_chain(chain_of_three *chain) {
    /* The SHA-1 hashes of the files. That of the lowest one is not checked. */
    static const uint8_t hashes[3][20] = {
        {0},
        {0xF4, 0xFB, 0xE8, 0xB4, 0x4C, 0xAC, 0x78, 0x5A, 0x19, 0x4A, 0x62, 0x0F, 0xE8, 0x52, 0x44, 0x35, 0x28, 0xDE, 0x19, 0xFB},
        {0x5D, 0x38, 0x07, 0xA9, 0x84, 0x4C, 0x5C, 0xA2, 0x7A, 0x38, 0xE5, 0x83, 0x0F, 0x02, 0x83, 0x41, 0xDF, 0xF2, 0xC8, 0xCD},
    };
    static const uint32_t first[4] = {0, 1, 3, 5};
    for (uint32_t i = 0; i < 3; i++) {
        size_t len = write_part(chain->bytes[i], first[i], first[i + 1] - first[i], i, hashes);
        memcpy(chain->bytes[i] + len - 20, hashes[i], 20);
        chain->files[i].bytes = chain->bytes[i];
        chain->files[i].bytes_len = len;
    }
}
