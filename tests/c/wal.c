/* The write-ahead log's functions: the examples of SQLite's layout by their bytes, in both byte orders, and each refusal.
 * host/ has the rest. */
#include <string.h>

#include "store.h"
#include "topics.h"
#include "ventarico_wal.h"

enum { SIZE = 512, PAGES = 8, FRAMES = 2, ROWS = 4, LOGGED = 8, WHOLE = 568 };
static uint8_t fixed[20], marks[12 + 8 * PAGES], log_rows[14 * LOGGED], stored[SIZE * PAGES];
static uint8_t tables[35 + FRAMES + PAGES], online[19 * ROWS], pool[SIZE * FRAMES];
#define AREA(a) a, sizeof a
#define STORE AREA(fixed), AREA(marks), AREA(log_rows), AREA(stored), AREA(tables), AREA(online), AREA(pool)

/* Page size 512, sequence 7, salts deadbeef 01020304; one frame: page 6 of 8, byte j = j mod 256. */
static const uint8_t lowest[56] = {0x37, 0x7f, 0x06, 0x82, 0x00, 0x2d, 0xe2, 0x18, 0, 0, 2, 0, 0, 0, 0, 7, 0xde, 0xad, 0xbe, 0xef,
    1, 2, 3, 4, 0xcb, 0x89, 0xb0, 0xf1, 0x8e, 0x66, 0x8a, 0x97, 0, 0, 0, 6, 0, 0, 0, 8, 0xde, 0xad, 0xbe, 0xef, 1, 2, 3, 4,
    0x07, 0x17, 0xfb, 0xdb, 0xf4, 0xf9, 0xe8, 0x22};
static const uint8_t highest[56] = {0x37, 0x7f, 0x06, 0x83, 0x00, 0x2d, 0xe2, 0x18, 0, 0, 2, 0, 0, 0, 0, 7, 0xde, 0xad, 0xbe, 0xef,
    1, 2, 3, 4, 0xf4, 0xb2, 0x89, 0xcd, 0x9c, 0x8d, 0x66, 0x91, 0, 0, 0, 6, 0, 0, 0, 8, 0xde, 0xad, 0xbe, 0xef, 1, 2, 3, 4,
    0x16, 0xca, 0x21, 0x40, 0x13, 0xd5, 0xc4, 0x5c};

static void judged(int line, ventarico_wal_judged got, uint32_t code, uint64_t frames, uint64_t end)
{
    same_at(__FILE__, line, "code", got.code, code);
    same_at(__FILE__, line, "frames", got.frames, frames);
    same_at(__FILE__, line, "end", got.end, end);
}
#define JUDGED(got, code, frames, end) judged(__LINE__, got, code, frames, end)

static void found(int line, ventarico_wal_found got, uint32_t code, uint32_t is, uint64_t at)
{
    same_at(__FILE__, line, "code", got.code, code);
    same_at(__FILE__, line, "found", got.found, is);
    same_at(__FILE__, line, "place", got.at, at);
}
#define FOUND(got, code, is, at) found(__LINE__, got, code, is, at)

static void written(int line, ventarico_reply got, uint32_t code, uint32_t reads)
{
    same_at(__FILE__, line, "code", got.code, code);
    same_at(__FILE__, line, "page reads", got.reads, reads);
    same_at(__FILE__, line, "note, writes and log writes", got.note + got.writes + got.logs, 0);
}
#define WRITTEN(got, code, reads) written(__LINE__, got, code, reads)

static void the_examples(void)
{
    story("wal: the layout's examples, written, judged, found");
    for (int j = 0; j < SIZE; j++)
        stored[5 * SIZE + j] = (uint8_t)j;
    WRITTEN(ventarico_format(STORE, SIZE, PAGES, FRAMES, ROWS, LOGGED, 0), 0, 0);
    for (uint32_t order = VENTARICO_WAL_LOWEST_FIRST; order <= VENTARICO_WAL_HIGHEST_FIRST; order++) {
        uint8_t target[600];
        uint32_t list[] = {5};
        memset(target, 0xee, sizeof target);
        WRITTEN(ventarico_wal_write(STORE, list, 1, AREA(target), 0xdeadbeefu, 0x01020304u, 7, order), 0, 1);
        check_at(__FILE__, __LINE__, memcmp(target, order ? highest : lowest, 56) == 0, "other bytes than those of the layout");
        check_at(__FILE__, __LINE__, memcmp(target + 56, stored + 5 * SIZE, SIZE) == 0, "another image");
        for (int i = WHOLE; i < 600; i++)
            same_at(__FILE__, __LINE__, "a byte past the end", target[i], 0xee);
        JUDGED(ventarico_wal_judge(target, WHOLE), 0, 1, WHOLE);
        JUDGED(ventarico_wal_judge(target, WHOLE - 1), 0, 0, 0);
        FOUND(ventarico_wal_find(target, WHOLE, 6), 0, 1, 56);
        FOUND(ventarico_wal_find(target, WHOLE, 5), 0, 0, 0);
        target[39] = 0; /* no commit, and so no right sum */
        JUDGED(ventarico_wal_judge(target, WHOLE), 0, 0, 0);
    }
}

static void refusals_of_judging(void)
{
    story("wal: what judging refuses");
    uint8_t file[56];
    memcpy(file, lowest, 56);
    JUDGED(ventarico_wal_judge(file, 32), 0, 0, 0);
    JUDGED(ventarico_wal_judge(file, 31), VENTARICO_WAL_BAD_HEADER, 0, 0);
    JUDGED(ventarico_wal_judge(NULL, 0), VENTARICO_WAL_BAD_HEADER, 0, 0);
    FOUND(ventarico_wal_find(NULL, 0, 0), VENTARICO_BAD_ARGUMENT, 0, 0);
    file[31]++;
    JUDGED(ventarico_wal_judge(file, 56), VENTARICO_WAL_BAD_SUM, 0, 0);
    FOUND(ventarico_wal_find(file, 56, 6), VENTARICO_WAL_BAD_SUM, 0, 0);
    file[7]++;
    FOUND(ventarico_wal_find(file, 56, 6), VENTARICO_WAL_BAD_HEADER, 0, 0);
    FOUND(ventarico_wal_find(file, 56, 0), VENTARICO_BAD_ARGUMENT, 0, 0);
}

static void refusals_of_writing(void)
{
    story("wal: what writing refuses");
    uint8_t target[WHOLE], before[WHOLE];
    uint32_t list[] = {5}, past[] = {8};
    memset(target, 0xee, sizeof target);
    memcpy(before, target, sizeof target);
    WRITTEN(ventarico_format(STORE, SIZE, PAGES, FRAMES, ROWS, LOGGED, 0), 0, 0);
    WRITTEN(ventarico_wal_write(STORE, past, 1, AREA(target), 1, 2, 3, 0), VENTARICO_BAD_ARGUMENT, 0);
    WRITTEN(ventarico_wal_write(STORE, list, 1, AREA(target), 1, 2, 3, 2), VENTARICO_BAD_ARGUMENT, 0);
    WRITTEN(ventarico_wal_write(STORE, list, 1, target, WHOLE - 1, 1, 2, 3, 0), VENTARICO_WAL_SHORT_TARGET, 0);
    WRITTEN(ventarico_wal_write(STORE, NULL, 0, target, 31, 1, 2, 3, 0), VENTARICO_WAL_SHORT_TARGET, 0);
    WRITTEN(ventarico_wal_write(STORE, NULL, 0, target, 32, 1, 2, 3, 0), VENTARICO_WAL_EMPTY_LIST, 0);
    fixed[0] = 1;
    WRITTEN(ventarico_wal_write(STORE, past, 1, AREA(target), 1, 2, 3, 2), VENTARICO_NOT_SOUND, 0);
    check_at(__FILE__, __LINE__, memcmp(target, before, sizeof target) == 0, "the target was changed");
}

void wal(void)
{
    the_examples();
    refusals_of_judging();
    refusals_of_writing();
}
