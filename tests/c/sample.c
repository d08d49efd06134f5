#include "sample.h"

#include <string.h>

enum { ROWS = 11, LOGGED = 7 };

const struct row sample_rows[ROWS] = {
    {{3, 8, 4, ADD, 5}, 0, 15},
    {{4, 16, 1, SET, 7}, 1, 0},
    {{4, 32, 2, SET, 0x4142}, 0, 17},
    {{2, 0, 1, SET, 0x21}, 0, 16},
    {{4, 17, 2, ADD, 9}, 2, 0},
    {{6, 0, 4, SET, 0xdeadbeef}, 32, 0},
    {{5, 0, 8, ADD, 0x1122334455667788}, 0, 18},
    {{5, 4, 4, SET, 0x51525354}, 2, 0},
    {{3, 8, 2, SET, 0x3132}, 0, 19},
    {{2, 0, 1, ADD, 0xf0}, 0, 20},
    {{7, 504, 8, SET, UINT64_MAX}, 1, 0},
};

const struct record sample_log[LOGGED] = {
    {1, 0, 2, SET, 0x0102},
    {3, 8, 4, ADD, 5},
    {2, 0, 1, SET, 0x21},
    {4, 32, 2, SET, 0x4142},
    {5, 0, 8, ADD, 0x1122334455667788},
    {3, 8, 2, SET, 0x3132},
    {2, 0, 1, ADD, 0xf0},
};

static struct store sample_with(uint32_t online, uint32_t log)
{
    struct sizes sizes = {512, 8, 6, online, log};
    struct store s = store_of(sizes);
    want_fresh(&s, sizes, 10);

    want_last(&s, 20);
    want_kay(&s, 16);
    want_log(&s, LOGGED, sample_log);
    want_stamp(&s, 1, 14);
    want_dirty(&s, 1, 14);
    want_dirty(&s, 2, 16);
    want_dirty(&s, 3, 15);
    /* The bytes that adds find. */
    want_stored(&s, 2, 0, 1, 0x77);
    want_stored(&s, 3, 8, 4, 0xfffffffe);
    want_stored(&s, 4, 17, 2, 0x0100);
    want_stored(&s, 5, 0, 8, 1);

    want_online(&s, ROWS, sample_rows);
    want_entry(&s, 1, CLEAN(3));
    want_entry(&s, 2, DIRTY(0));
    want_entry(&s, 3, EVICTED);
    want_entry(&s, 4, DIRTY(5));
    want_entry(&s, 5, EVICTED);
    want_entry(&s, 6, DIRTY(1));
    want_entry(&s, 7, EVICTED);
    WANT_ORDER(&s, 5, 3, 0, 1);
    want_live(&s, 1, 1);
    want_live(&s, 2, 1);
    want_live(&s, 5, 1);
    want_live(&s, 32, 1);
    want_fetched(&s, 3, 1);
    want_fetched(&s, 0, 2);
    want_frame(&s, 0, 0, 1, 0x11);
    want_fetched(&s, 5, 4);
    want_frame(&s, 5, 16, 1, 7);
    want_frame(&s, 5, 17, 2, 0x0109);
    want_frame(&s, 5, 32, 2, 0x4142);
    want_fetched(&s, 1, 6);
    want_frame(&s, 1, 0, 4, 0xdeadbeef);
    settle(&s);
    return s;
}

struct store sample_store(void)
{
    return sample_with(16, 12);
}

struct store full_sample_store(void)
{
    return sample_with(ROWS, LOGGED);
}

void want_rows_without(struct store *s, size_t count, const size_t *places)
{
    struct row rows[ROWS];
    size_t kept = 0;
    for (size_t i = 0; i < ROWS; i++) {
        bool goes = false;
        for (size_t j = 0; j < count; j++)
            goes = goes || places[j] == i;
        if (!goes)
            rows[kept++] = sample_rows[i];
    }
    want_online(s, kept, rows);
}

void want_rows_and(struct store *s, struct row row)
{
    struct row rows[ROWS + 1];
    memcpy(rows, sample_rows, sizeof sample_rows);
    rows[ROWS] = row;
    want_online(s, ROWS + 1, rows);
}

void want_sample_restarted(struct store *s)
{
    want_lost_empty(s);
    WANT_ONLINE(s, numbered(15, sample_log[1]), numbered(16, sample_log[2]), numbered(17, sample_log[3]),
        numbered(18, sample_log[4]), numbered(19, sample_log[5]), numbered(20, sample_log[6]));
    want_entry(s, 2, EVICTED);
    want_entry(s, 3, EVICTED);
    want_entry(s, 4, EVICTED);
    want_entry(s, 5, EVICTED);
}
