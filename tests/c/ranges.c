/* Both ends of each range of 01: page size, pages, frames, online table, log, transaction number, L. */
#include "store.h"
#include "topics.h"

#include <stdlib.h>

/* Offsets and lengths up to the end of the page, and one past it. */
static void each_page_size(void)
{
    for (uint32_t size = 512; size <= 4096; size *= 2) {
        story("page size %u", (unsigned)size);
        struct store s = fresh_store((struct sizes){size, 2, 1, 1, 1}, 0);
        BEGUN(&s, 1);
        UPDATE(&s, refused(2), 1, 1, size - 7, 8, SET, 1);
        UPDATE(&s, refused(2), 1, 1, size, 1, SET, 1);
        want_fetched(&s, 0, 1);
        want_frame(&s, 0, size - 8, 8, 0x0102030405060708);
        want_entry(&s, 1, DIRTY(0));
        WANT_ORDER(&s, 0);
        WANT_ONLINE(&s, owned(1, set(1, size - 8, 8, 0x0102030405060708)));
        UPDATE(&s, done(1, 0, 0), 1, 1, size - 8, 8, SET, 0x0102030405060708);

        uint8_t page[4096];
        for (uint32_t i = 0; i < size; i++)
            page[i] = frame_byte(&s, 0, i);
        READ_INTO(&s, DONE, size, 1, 1, 0, size, page);
        READ_INTO(&s, DONE, size + 1, 1, 1, size - 1, 1, page + size - 1);
        READ_INTO(&s, refused(2), size + 1, 1, 1, 0, size + 1, NULL);
        READ_INTO(&s, refused(2), size, 1, 1, size, 1, NULL);
        READ_INTO(&s, refused(3), size - 1, 1, 1, 0, size, NULL);

        want_last(&s, 1);
        WANT_LOG(&s, set(1, size - 8, 8, 0x0102030405060708));
        want_live(&s, 1, 0);
        WANT_ONLINE(&s, numbered(1, set(1, size - 8, 8, 0x0102030405060708)));
        COMMIT(&s, done(0, 0, 1), 1);
        want_written(&s, 1, 0);
        want_stamp(&s, 1, 1);
        want_entry(&s, 1, CLEAN(0));
        WANT_NO_ONLINE(&s);
        want_kay(&s, 1);
        WANT_NO_LOG(&s);
        CHECKPOINT(&s, done(0, 1, 1), 1, END);
        power_loss(&s);
        want_lost_empty(&s);
        RESTART(&s, DONE);
        store_free(&s);
    }
}

/* One page, one frame, one online record, one log record: room that is freed is used again. */
static void the_smallest_store(void)
{
    story("the smallest store");
    struct store s = fresh_store((struct sizes){512, 1, 1, 1, 1}, 0);
    BEGUN(&s, 1);
    BEGUN(&s, 2);
    want_fetched(&s, 0, 0);
    want_frame(&s, 0, 0, 1, 1);
    want_entry(&s, 0, DIRTY(0));
    WANT_ORDER(&s, 0);
    WANT_ONLINE(&s, owned(1, set(0, 0, 1, 1)));
    UPDATE(&s, done(1, 0, 0), 1, 0, 0, 1, SET, 1);
    READ_REFUSED(&s, 2, 1, 1, 0, 1);
    UPDATE(&s, refused(7), 2, 0, 1, 1, SET, 2);
    want_last(&s, 1);
    WANT_LOG(&s, set(0, 0, 1, 1));
    want_live(&s, 1, 0);
    WANT_ONLINE(&s, numbered(1, set(0, 0, 1, 1)));
    COMMIT(&s, done(0, 0, 1), 1);
    UPDATE(&s, refused(7), 2, 0, 1, 1, SET, 2);

    want_written(&s, 0, 0);
    want_stamp(&s, 0, 1);
    want_entry(&s, 0, CLEAN(0));
    WANT_NO_ONLINE(&s);
    COMPACT(&s, done(0, 1, 0), 0, 1, END);
    want_frame(&s, 0, 1, 1, 2);
    want_entry(&s, 0, DIRTY(0));
    WANT_ONLINE(&s, owned(2, set(0, 1, 1, 2)));
    UPDATE(&s, DONE, 2, 0, 1, 1, SET, 2);
    COMMIT(&s, refused(8), 2);

    want_kay(&s, 1);
    WANT_NO_LOG(&s);
    CLOSE(&s, done(0, 0, 1));
    want_last(&s, 2);
    WANT_LOG(&s, set(0, 1, 1, 2));
    want_live(&s, 2, 0);
    WANT_ONLINE(&s, numbered(2, set(0, 1, 1, 2)));
    COMMIT(&s, done(0, 0, 1), 2);
    want_entry(&s, 0, EVICTED);
    WANT_NO_ORDER(&s);
    EVICT(&s, DONE, 0);
    power_loss(&s);
    want_lost_empty(&s);
    want_entry(&s, 0, EVICTED);
    WANT_ONLINE(&s, numbered(2, set(0, 1, 1, 2)));
    RESTART(&s, DONE);
    store_free(&s);
}

/* ---- The largest store, with every table filled to its last row. */

static const struct sizes largest = {4096, 1024, 64, 512, 2048};

/* Pages 960 to 1,023 take frames 0 to 63; then page 0 takes the least recently used. */
static void fill_the_frames(struct store *s)
{
    story("the largest store: 64 frames");
    uint8_t order[64];
    for (uint32_t frame = 0; frame < 64; frame++) {
        uint32_t page = 960 + frame;
        order[frame] = (uint8_t)frame;
        want_fetched(s, frame, page);
        want_entry(s, page, (uint8_t)CLEAN(frame));
        want_order(s, frame + 1, order);
        READ(s, done(1, 0, 0), 1, page, 4095, stored_byte(s, page, 4095));
    }
    for (uint32_t frame = 0; frame < 63; frame++)
        order[frame] = (uint8_t)(frame + 1);
    order[63] = 0;
    want_fetched(s, 0, 0);
    want_entry(s, 960, ABSENT);
    want_entry(s, 0, CLEAN(0));
    want_order(s, 64, order);
    READ(s, done(1, 0, 0), 1, 0, 0, stored_byte(s, 0, 0));
}

/* 512 records of page 1,023, which is in frame 63: each sets eight bytes to `value`. */
static void fill_the_online_table(struct store *s, struct row *rows, uint64_t value)
{
    for (uint32_t i = 0; i < 512; i++) {
        uint8_t order[64];
        for (uint32_t frame = 0; frame < 63; frame++)
            order[frame] = (uint8_t)((frame + 1) % 63);
        order[63] = 63;
        rows[i] = owned(32, set(1023, 8 * i, 8, value));
        want_frame(s, 63, 8 * i, 8, value);
        want_entry(s, 1023, (uint8_t)DIRTY(63));
        want_order(s, 64, order);
        want_row(s, i, rows[i]);
        want_online_count(s, (uint16_t)(i + 1));
        UPDATE(s, DONE, 32, 1023, 8 * i, 8, SET, value);
    }
    UPDATE(s, refused(7), 32, 1023, 0, 8, SET, value);
}

static void the_largest_store(void)
{
    story("the largest store");
    struct store s = fresh_store(largest, 7);
    struct row *rows = calloc(512, sizeof *rows);
    BEGUN(&s, 1);
    READ_REFUSED(&s, 2, 1, 1024, 0, 1);
    fill_the_frames(&s);
    for (uint32_t round = 0; round < 4; round++) {
        story("the largest store: 512 online records, round %u", (unsigned)round);
        BEGUN(&s, 32);
        fill_the_online_table(&s, rows, 0x0101010101010101 * (round + 1));
        for (uint32_t i = 0; i < 512; i++) {
            want_row(&s, i, numbered(7 + 512 * round + i + 1, rows[i].record));
            want_log_row(&s, 512 * round + i, rows[i].record);
        }
        want_last(&s, 7 + 512 * (round + 1));
        want_logged(&s, 512 * (round + 1));
        want_live(&s, 32, 0);
        COMMIT(&s, done(0, 0, 1), 32);
        if (round == 3) {
            power_loss(&s);
            want_lost_empty(&s);
            want_entry(&s, 1023, EVICTED);
            want_online_count(&s, 512);
            for (uint32_t i = 0; i < 512; i++)
                want_row(&s, i, numbered(7 + 512 * round + i + 1, rows[i].record));
            RESTART(&s, DONE);
        }
        for (uint32_t i = 0; i < 512; i++)
            want_stored(&s, 1023, 8 * i, 8, rows[i].record.value);
        want_stamp(&s, 1023, 7 + 512 * (round + 1));
        want_entry(&s, 1023, round == 3 ? ABSENT : (uint8_t)CLEAN(63));
        WANT_NO_ONLINE(&s);
        COMPACT(&s, done(round == 3, 1, 0), 1023, 512, END);
    }
    story("the largest store: the log is full");
    BEGUN(&s, 32);
    want_fetched(&s, 0, 1023);
    want_frame(&s, 0, 4095, 1, 9);
    want_entry(&s, 1023, DIRTY(0));
    WANT_ORDER(&s, 0);
    WANT_ONLINE(&s, owned(32, set(1023, 4095, 1, 9)));
    UPDATE(&s, done(1, 0, 0), 32, 1023, 4095, 1, SET, 9);
    COMMIT(&s, refused(8), 32);
    want_kay(&s, 7 + 2048);
    WANT_NO_LOG(&s);
    CHECKPOINT(&s, done(0, 0, 1), 1, 0);
    want_last(&s, 7 + 2049);
    WANT_LOG(&s, set(1023, 4095, 1, 9));
    want_live(&s, 32, 0);
    WANT_ONLINE(&s, numbered(7 + 2049, set(1023, 4095, 1, 9)));
    COMMIT(&s, done(0, 0, 1), 32);
    free(rows);
    store_free(&s);
}

/* Every second page has a record of its own, so that a checkpoint writes more pages than a byte can count. */
static void a_checkpoint_of_512_pages(void)
{
    story("a checkpoint of 512 pages");
    struct store s = fresh_store((struct sizes){512, 1024, 1, 512, 512}, 0);
    BEGUN(&s, 1);
    for (uint32_t i = 0; i < 512; i++) {
        struct record record = set(2 * i + 1, i, 1, i % 251 + 1);
        want_fetched(&s, 0, record.page);
        want_frame(&s, 0, i, 1, record.value);
        if (i > 0)
            want_entry(&s, 2 * i - 1, EVICTED);
        want_entry(&s, record.page, DIRTY(0));
        WANT_ORDER(&s, 0);
        want_row(&s, i, owned(1, record));
        want_online_count(&s, (uint16_t)(i + 1));
        UPDATE(&s, done(1, 0, 0), 1, record.page, i, 1, SET, record.value);
    }
    for (uint32_t i = 0; i < 512; i++) {
        struct record record = set(2 * i + 1, i, 1, i % 251 + 1);
        want_row(&s, i, numbered(i + 1, record));
        want_log_row(&s, i, record);
    }
    want_last(&s, 512);
    want_logged(&s, 512);
    want_live(&s, 1, 0);
    COMMIT(&s, done(0, 0, 1), 1);

    for (uint32_t i = 0; i < 512; i++) {
        want_stored(&s, 2 * i + 1, i, 1, i % 251 + 1);
        want_stamp(&s, 2 * i + 1, i + 1);
        want_entry(&s, 2 * i + 1, i == 511 ? CLEAN(0) : ABSENT);
    }
    WANT_NO_ONLINE(&s);
    want_kay(&s, 512);
    WANT_NO_LOG(&s);
    CHECKPOINT(&s, done(511, 512, 1), 1, END);
    store_free(&s);
}

/* A read into a buffer far larger than any page: what stands behind the bytes read stays, to its end. */
static void a_buffer_of_a_megabyte(void)
{
    story("a buffer of a megabyte");
    struct store s = fresh_store((struct sizes){4096, 2, 1, 1, 1}, 0);
    uint8_t page[4096];
    for (uint32_t i = 0; i < 4096; i++)
        page[i] = stored_byte(&s, 1, i);
    BEGUN(&s, 1);
    want_fetched(&s, 0, 1);
    want_entry(&s, 1, CLEAN(0));
    WANT_ORDER(&s, 0);
    READ_INTO(&s, done(1, 0, 0), 1 << 20, 1, 1, 0, 4096, page);
    READ_INTO(&s, DONE, 1 << 20, 1, 1, 4095, 1, page + 4095);
    READ_INTO(&s, refused(2), 1 << 20, 1, 1, 0, 4097, NULL);
    READ_INTO(&s, refused(2), 1 << 20, 1, 1, 0, 1 << 20, NULL);
    store_free(&s);
}

/* ---- Transaction numbers and log numbers. */

/* Each has a byte of its own and none may read another's. */
static void all_32_transactions(void)
{
    story("all 32 transactions");
    struct store s = fresh_store((struct sizes){512, 1, 1, 32, 32}, 0);
    struct row rows[32];
    struct record log[32];
    for (uint32_t number = 1; number <= 32; number++)
        BEGUN(&s, number);
    for (uint32_t number = 1; number <= 32; number++) {
        rows[number - 1] = owned(number, set(0, number, 1, number + 100));
        if (number == 1)
            want_fetched(&s, 0, 0);
        want_frame(&s, 0, number, 1, number + 100);
        want_entry(&s, 0, DIRTY(0));
        WANT_ORDER(&s, 0);
        want_online(&s, number, rows);
        UPDATE(&s, done(number == 1, 0, 0), number, 0, number, 1, SET, number + 100);
        READ_REFUSED(&s, 6, number % 32 + 1, 0, number, 1);
        READ(&s, DONE, number, 0, number, (uint8_t)(number + 100));
    }
    for (uint32_t number = 32; number >= 1; number--) {
        log[32 - number] = rows[number - 1].record;
        rows[number - 1] = numbered(33 - number, rows[number - 1].record);
        want_last(&s, 33 - number);
        want_log(&s, 33 - number, log);
        want_live(&s, number, 0);
        want_online(&s, 32, rows);
        COMMIT(&s, done(0, 0, 1), number);
        COMMIT(&s, refused(4), number);
    }
    store_free(&s);
}

/* The last number that can be given is given, comes back and is folded; then the store goes on without commits. */
static void the_last_log_number(void)
{
    story("the last log number");
    struct store s = small_store_from(END - 1);
    BEGUN(&s, 1);
    want_fetched(&s, 0, 7);
    want_frame(&s, 0, 511, 1, 3);
    want_entry(&s, 7, DIRTY(0));
    WANT_ORDER(&s, 0);
    WANT_ONLINE(&s, owned(1, set(7, 511, 1, 3)));
    UPDATE(&s, done(1, 0, 0), 1, 7, 511, 1, SET, 3);
    want_last(&s, END);
    WANT_LOG(&s, set(7, 511, 1, 3));
    want_live(&s, 1, 0);
    WANT_ONLINE(&s, numbered(END, set(7, 511, 1, 3)));
    COMMIT(&s, done(0, 0, 1), 1);
    power_loss(&s);
    want_lost_empty(&s);
    want_entry(&s, 7, EVICTED);
    WANT_ONLINE(&s, numbered(END, set(7, 511, 1, 3)));
    RESTART(&s, DONE);
    COMPACT(&s, not_due(), 7, 2, 1);
    want_kay(&s, END);
    want_dirty(&s, 7, END);
    CLOSE(&s, done(0, 0, 1));
    RESTART(&s, DONE);

    want_stored(&s, 7, 511, 1, 3);
    want_stamp(&s, 7, END);
    want_entry(&s, 7, ABSENT);
    WANT_NO_ONLINE(&s);
    COMPACT(&s, done(1, 1, 0), 7, 2, 0);
    want_dirty(&s, 7, 0);
    WANT_NO_LOG(&s);
    CHECKPOINT(&s, done(0, 0, 1), 1, 0);
    RESTART(&s, DONE);
    BEGUN(&s, 1);
    want_live(&s, 1, 0);
    COMMIT(&s, DONE, 1);
    store_free(&s);
}

/* The log's first record is online, in a full log of the greatest size that ends at the last number. */
static void the_greatest_age(void)
{
    story("the greatest age");
    struct store s = store_of((struct sizes){512, 2, 1, 1, 2048});
    want_fresh(&s, s.sizes, 0);
    want_last(&s, END);
    want_kay(&s, END);
    want_logged(&s, 2048);
    for (size_t i = 0; i < 2048; i++)
        want_log_row(&s, i, set(1, 0, 1, 1));
    WANT_ONLINE(&s, numbered(END - 2047, set(1, 0, 1, 1)));
    want_entry(&s, 1, EVICTED);
    settle(&s);
    COMPACT(&s, not_due(), 1, 2, 2048);
    COMPACT(&s, not_due(), 1, 2, END);
    want_stored(&s, 1, 0, 1, 1);
    want_stamp(&s, 1, END - 2047);
    want_entry(&s, 1, ABSENT);
    WANT_NO_ONLINE(&s);
    COMPACT(&s, done(1, 1, 0), 1, 2, 2047);
    store_free(&s);
}

void ranges(void)
{
    each_page_size();
    the_smallest_store();
    the_largest_store();
    a_checkpoint_of_512_pages();
    a_buffer_of_a_megabyte();
    all_32_transactions();
    the_last_log_number();
    the_greatest_age();
}
