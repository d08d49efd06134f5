/* include/ventarico_store.h: its lengths, its wrappers beside the calls themselves, its names. */
#include <stdio.h>
#include <stdlib.h>
#include <string.h>

#include "store.h"
#include "topics.h"
#include "ventarico_store.h"

/* Lengths written down by hand from docs/LAYOUT.md, at both ends and for the small store. */
static const struct {
    ventarico_sizes sizes;
    size_t marks, log, stored, tables, online, pool;
} known[] = {
    {{512, 1, 1, 1, 1}, 20, 14, 512, 37, 19, 512},
    {{512, 8, 2, 4, 8}, 76, 112, 4096, 45, 76, 1024},
    {{4096, 1024, 64, 512, 2048}, 8204, 28672, 4194304, 1123, 9728, 262144},
};

VENTARICO_STORE_STATIC(least, 512, 1, 1, 1, 1);
VENTARICO_STORE_STATIC(small_one, 512, 8, 2, 4, 8);
VENTARICO_STORE_STATIC(most, 4096, 1024, 64, 512, 2048);

static const ventarico_area *area_of(const ventarico_store *s, enum area area)
{
    const ventarico_area *const areas[AREAS] = {
        &s->fixed, &s->marks, &s->log, &s->stored, &s->tables, &s->online, &s->pool};
    return areas[area];
}

static void lengths_are(const ventarico_store *s, size_t i)
{
    const size_t right[AREAS] = {20, known[i].marks, known[i].log, known[i].stored, known[i].tables, known[i].online,
        known[i].pool};
    for (enum area a = FIXED; a < AREAS; a++)
        SAME(area_names[a], area_of(s, a)->length, right[a]);
    check_at(__FILE__, __LINE__, memcmp(&s->sizes, &known[i].sizes, sizeof s->sizes) == 0, "other sizes");
    SAME("format", ventarico_store_format(s, 3).code, VENTARICO_DONE);
    ventarico_sizes told = ventarico_sizes_of(s->fixed.bytes);
    check_at(__FILE__, __LINE__, memcmp(&told, &known[i].sizes, sizeof told) == 0, "fixed tells other sizes");
}

static void lengths(void)
{
    story("lengths at both ends");
    const ventarico_store *arrays[] = {&least, &small_one, &most};
    for (size_t i = 0; i < 3; i++) {
        lengths_are(arrays[i], i);
        size_t durable = 20 + known[i].marks + known[i].log + known[i].stored;
        size_t lost = known[i].tables + known[i].online + known[i].pool;
        SAME("durable", ventarico_durable_length(known[i].sizes), durable);
        SAME("lost", ventarico_lost_length(known[i].sizes), lost);
        uint8_t *block = malloc(durable + lost);
        if (block == NULL)
            exit(2);
        ventarico_store over = ventarico_store_over(known[i].sizes, block, block + durable);
        lengths_are(&over, i);
        /* One behind the other, from the first byte of a block to its last. */
        uint8_t *next = block;
        for (enum area a = FIXED; a < AREAS; a++) {
            check_at(__FILE__, __LINE__, area_of(&over, a)->bytes == next, "%s is elsewhere", area_names[a]);
            next += area_of(&over, a)->length;
        }
        SAME("bytes laid out", (size_t)(next - block), durable + lost);
        free(block);
    }
}

/* The same calls through the wrappers and through the doors, each on its own copy of the areas. */
static ventarico_store left;
static ventarico_store right;

static void same_reply(const char *call, ventarico_reply got, ventarico_reply wanted)
{
    SAME(call, got.code, wanted.code);
    SAME(call, got.note, wanted.note);
    SAME(call, got.reads, wanted.reads);
    SAME(call, got.writes, wanted.writes);
    SAME(call, got.logs, wanted.logs);
    for (enum area a = FIXED; a < AREAS; a++)
        check_at(__FILE__, __LINE__,
            memcmp(area_of(&left, a)->bytes, area_of(&right, a)->bytes, area_of(&left, a)->length) == 0,
            "after %s %s differs", call, area_names[a]);
}

#define BOTH(call, ...) \
    same_reply(#call, ventarico_store_##call(&left, __VA_ARGS__), \
        ventarico_##call(right.fixed.bytes, right.fixed.length, right.marks.bytes, right.marks.length, \
            right.log.bytes, right.log.length, right.stored.bytes, right.stored.length, right.tables.bytes, \
            right.tables.length, right.online.bytes, right.online.length, right.pool.bytes, right.pool.length, \
            __VA_ARGS__))
#define BOTH_PLAIN(call) \
    same_reply(#call, ventarico_store_##call(&left), \
        ventarico_##call(right.fixed.bytes, right.fixed.length, right.marks.bytes, right.marks.length, \
            right.log.bytes, right.log.length, right.stored.bytes, right.stored.length, right.tables.bytes, \
            right.tables.length, right.online.bytes, right.online.length, right.pool.bytes, right.pool.length))

static void read_both(uint32_t number, uint32_t page, uint32_t offset, uint32_t length, size_t room)
{
    uint8_t one[16], two[16];
    memset(one, 0xb5, sizeof one);
    memset(two, 0xb5, sizeof two);
    same_reply("read", ventarico_store_read(&left, one, room, number, page, offset, length),
        ventarico_read(right.fixed.bytes, right.fixed.length, right.marks.bytes, right.marks.length, right.log.bytes,
            right.log.length, right.stored.bytes, right.stored.length, right.tables.bytes, right.tables.length,
            right.online.bytes, right.online.length, right.pool.bytes, right.pool.length, two, room, number, page,
            offset, length));
    check_at(__FILE__, __LINE__, memcmp(one, two, sizeof one) == 0, "the buffers differ");
}

static void wrapped(void)
{
    story("each wrapper does what its call does");
    const ventarico_sizes z = known[1].sizes;
    size_t durable = ventarico_durable_length(z), lost = ventarico_lost_length(z);
    uint8_t *blocks[2] = {malloc(durable + lost), malloc(durable + lost)};
    if (!blocks[0] || !blocks[1])
        exit(2);
    for (size_t i = 0; i < durable + lost; i++)
        blocks[0][i] = blocks[1][i] = (uint8_t)(i * 151 + 7);
    left = ventarico_store_over(z, blocks[0], blocks[0] + durable);
    right = ventarico_store_over(z, blocks[1], blocks[1] + durable);

    same_reply("format", ventarico_store_format(&left, 40), ventarico_format(right.fixed.bytes, right.fixed.length,
        right.marks.bytes, right.marks.length, right.log.bytes, right.log.length, right.stored.bytes,
        right.stored.length, right.tables.bytes, right.tables.length, right.online.bytes, right.online.length,
        right.pool.bytes, right.pool.length, 512, 8, 2, 4, 8, 40));
    SAME("last", ventarico_store_last(&left), 40);
    SAME("closed", ventarico_store_closed(&left), 40);
    SAME("logged", ventarico_store_logged(&left), 0);
    SAME("stamp", ventarico_store_stamp(&left, 7), 40);
    BOTH(begin, 1);
    BOTH(begin, 1); /* refused 5 */
    BOTH(begin, 2);
    BOTH(update, 1, 5, 16, 2, VENTARICO_SET, 777);
    BOTH(update, 2, 6, 504, 8, VENTARICO_ADD, 5);
    BOTH(update, 1, 5, 16, 2, VENTARICO_ADD, ventarico_minus(2, 78));
    SAME("online", ventarico_store_online(&left), 3);
    read_both(1, 5, 15, 4, 16);
    read_both(2, 5, 15, 4, 16); /* refused 6 */
    read_both(1, 5, 15, 4, 3);  /* refused 3 */
    BOTH(evict, 5);
    BOTH(evict, 5); /* refused 10 */
    BOTH(commit, 1);
    SAME("last", ventarico_store_last(&left), 42);
    SAME("logged", ventarico_store_logged(&left), 2);
    BOTH(compact, 5, 3, 9); /* not due */
    BOTH(compact, 5, 2, 9);
    SAME("stamp", ventarico_store_stamp(&left, 5), 42);
    uint8_t *at = left.stored.bytes + VENTARICO_PAGE_AT(512, 5) + 16;
    SAME("777 less 78", at[0] + 256u * at[1], 699);
    BOTH_PLAIN(close);
    SAME("closed", ventarico_store_closed(&left), 42);
    BOTH(commit, 2);
    BOTH(begin, 3);
    BOTH(update, 3, 0, 0, 1, VENTARICO_SET, 1);
    BOTH(abort, 3);
    BOTH(checkpoint, 1, 0);
    SAME("dirty number of page 6", ventarico_four_bytes(left.marks.bytes + VENTARICO_DIRTY_AT(8, 6)), 0);
    BOTH_PLAIN(restart);
    BOTH(begin, 4);
    read_both(4, 6, 500, 12, 12);
    BOTH(commit, 4);
    BOTH(commit, 4); /* refused 4 */
    BOTH(begin, 33); /* refused 2 */
    left.tables.bytes[3] = right.tables.bytes[3] = 2;
    BOTH_PLAIN(close); /* refused 1 */
    free(blocks[0]);
    free(blocks[1]);
}

static void minus(void)
{
    story("what an add subtracts");
    SAME("length 1", ventarico_minus(1, 3), 253);
    SAME("length 2", ventarico_minus(2, 3), 65533);
    SAME("length 4", ventarico_minus(4, 3), 4294967293u);
    SAME("length 8", ventarico_minus(8, 3), UINT64_MAX - 2);
    for (uint32_t length = 1; length <= 8; length *= 2)
        SAME("nothing", ventarico_minus(length, 0), 0);
}

static void names(void)
{
    story("names");
    /* tests/c/run compares the names with the header's. */
    check_at(__FILE__, __LINE__, strcmp(ventarico_code_name(VENTARICO_HELD), "VENTARICO_HELD") == 0, "code 6");
    check_at(__FILE__, __LINE__, ventarico_code_meaning(VENTARICO_DONE) != NULL, "code 0");
    check_at(__FILE__, __LINE__, ventarico_code_name(UINT32_MAX) == NULL, "a number that is no code");
    check_at(__FILE__, __LINE__, ventarico_code_meaning(UINT32_MAX) == NULL, "a number that is no code");
    check_at(__FILE__, __LINE__, strcmp(ventarico_kind_name(VENTARICO_ADD), "add") == 0, "kind 1");
    check_at(__FILE__, __LINE__, ventarico_kind_name(2) == NULL, "kind 2");
    char version[32];
    snprintf(version, sizeof version, "%d.%d.%d", VENTARICO_VERSION_MAJOR, VENTARICO_VERSION_MINOR,
        VENTARICO_VERSION_PATCH);
    check_at(__FILE__, __LINE__, strcmp(version, VENTARICO_VERSION) == 0, "the version's numbers give %s", version);
}

void wrappers(void)
{
    lengths();
    wrapped();
    minus();
    names();
}
