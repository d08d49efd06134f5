/* Refusals 2 to 10: each argument that is out of its range, each state that forbids a call, and the order in which they
 * are judged. Refusal 1 is in soundness.c. */
#include "sample.h"
#include "topics.h"

/* 01's numbers, as the header has them. */
_Static_assert(VENTARICO_DONE == 0 && VENTARICO_NOT_SOUND == 1 && VENTARICO_BAD_ARGUMENT == 2 &&
    VENTARICO_SHORT_BUFFER == 3 && VENTARICO_NOT_LIVE == 4 && VENTARICO_LIVE == 5 && VENTARICO_HELD == 6 &&
    VENTARICO_ONLINE_FULL == 7 && VENTARICO_LOG_FULL == 8 && VENTARICO_NUMBERS_END == 9 && VENTARICO_NO_FRAME == 10,
    "refusals");
_Static_assert(VENTARICO_SET == 0 && VENTARICO_ADD == 1, "kinds");

/* Numbers that are not 1 to 32; the last two are if cut to a byte or to two. */
static const uint32_t no_numbers[] = {0, 33, END, 256 + 1, 65536 + 1};
/* Pages that are not below 8; the last two are if cut to a byte or to two. */
static const uint32_t no_pages[] = {8, END, 256 + 1, 65536 + 1};
enum {
    NO_NUMBERS = sizeof no_numbers / sizeof *no_numbers,
    NO_PAGES = sizeof no_pages / sizeof *no_pages,
};

static void begin_refuses(struct store *s)
{
    for (size_t i = 0; i < NO_NUMBERS; i++)
        BEGIN(s, refused(2), no_numbers[i]);
    BEGIN(s, refused(5), 1);
    BEGIN(s, refused(5), 5);
    BEGIN(s, refused(5), 32);
}

static void read_refuses_bad_arguments(struct store *s)
{
    for (size_t i = 0; i < NO_NUMBERS; i++)
        READ_REFUSED(s, 2, no_numbers[i], 1, 0, 1);
    for (size_t i = 0; i < NO_PAGES; i++)
        READ_REFUSED(s, 2, 5, no_pages[i], 0, 1);
    READ_REFUSED(s, 2, 5, 1, 0, 0);
    READ_REFUSED(s, 2, 5, 1, 512, 0);
    READ_REFUSED(s, 2, 5, 1, 0, 513);
    READ_REFUSED(s, 2, 5, 1, 0, END);
    READ_REFUSED(s, 2, 5, 1, 0, 65536 + 1);
    READ_REFUSED(s, 2, 5, 1, 512, 1);
    READ_REFUSED(s, 2, 5, 1, 511, 2);
    READ_REFUSED(s, 2, 5, 1, 1, 512);
    READ_REFUSED(s, 2, 5, 1, 65536, 1);
    /* The sum of offset and length is 2^32 and more. */
    READ_REFUSED(s, 2, 5, 1, END, 1);
    READ_REFUSED(s, 2, 5, 1, END, 512);
    READ_REFUSED(s, 2, 5, 1, END - 3, 4);
    READ_REFUSED(s, 2, 5, 1, 1, END);
    READ_REFUSED(s, 2, 5, 1, END, END);
}

static void read_refuses_a_short_buffer(struct store *s)
{
    READ_INTO(s, refused(3), 0, 5, 1, 0, 1, NULL);
    s->null_if_empty = true;
    READ_INTO(s, refused(3), 0, 5, 1, 0, 1, NULL);
    READ_INTO(s, refused(2), 0, 5, 1, 0, 0, NULL);
    READ_INTO(s, refused(3), 3, 5, 1, 0, 4, NULL);
    READ_INTO(s, refused(3), 511, 5, 1, 0, 512, NULL);
}

static void read_refuses_a_number_that_is_not_live(struct store *s)
{
    READ_REFUSED(s, 4, 3, 1, 0, 1);
    READ_REFUSED(s, 4, 31, 0, 0, 512);
}

/* On page 4 owner 1 has byte 16, owner 2 bytes 17 and 18; bytes 32 and 33 are committed, so nobody's. */
static void read_refuses_a_byte_in_anothers_record(struct store *s)
{
    READ_REFUSED(s, 6, 5, 4, 16, 1);
    READ_REFUSED(s, 6, 5, 4, 18, 1);
    READ_REFUSED(s, 6, 5, 4, 0, 17);
    READ_REFUSED(s, 6, 5, 4, 18, 494);
    READ_REFUSED(s, 6, 5, 4, 0, 512);
    READ_REFUSED(s, 6, 1, 4, 16, 2);
    READ_REFUSED(s, 6, 2, 4, 16, 2);
    READ_REFUSED(s, 6, 5, 6, 3, 1);
    READ_REFUSED(s, 6, 5, 7, 511, 1);
    READ_REFUSED(s, 6, 1, 5, 7, 1);
    /* Beside them, and the reader's own. */
    WANT_ORDER(s, 3, 0, 1, 5);
    READ(s, DONE, 5, 4, 15, stored_byte(s, 4, 15));
    READ(s, DONE, 5, 4, 19, stored_byte(s, 4, 19));
    READ(s, DONE, 5, 4, 32, 0x42, 0x41);
    READ(s, DONE, 1, 4, 15, stored_byte(s, 4, 15), 7);
    READ(s, DONE, 2, 4, 17, 9, 1, stored_byte(s, 4, 19));
    /* The same place on another page. */
    WANT_ORDER(s, 0, 1, 5, 3);
    READ(s, DONE, 5, 1, 16, stored_byte(s, 1, 16), stored_byte(s, 1, 17));
}

static void read_judges_2_3_4_6_in_this_order(struct store *s)
{
    READ_INTO(s, refused(2), 0, 33, 4, 16, 1, NULL);
    READ_INTO(s, refused(2), 0, 3, 8, 16, 1, NULL);
    READ_INTO(s, refused(2), 0, 3, 4, 16, 0, NULL);
    READ_INTO(s, refused(2), 0, 3, 4, 16, 497, NULL);
    READ_INTO(s, refused(3), 0, 3, 4, 16, 1, NULL);
    READ_INTO(s, refused(3), 0, 5, 4, 16, 1, NULL);
    READ_INTO(s, refused(4), 1, 3, 4, 16, 1, NULL);
    READ_INTO(s, refused(6), 1, 5, 4, 16, 1, NULL);
}

static void update_refuses_bad_arguments(struct store *s)
{
    static const uint32_t no_lengths[] = {0, 3, 5, 6, 7, 9, 16, 512, 256 + 1, 65536 + 1, END};
    for (size_t i = 0; i < NO_NUMBERS; i++)
        UPDATE(s, refused(2), no_numbers[i], 1, 0, 1, SET, 1);
    for (size_t i = 0; i < NO_PAGES; i++)
        UPDATE(s, refused(2), 5, no_pages[i], 0, 1, SET, 1);
    for (size_t i = 0; i < sizeof no_lengths / sizeof *no_lengths; i++)
        UPDATE(s, refused(2), 5, 1, 0, no_lengths[i], SET, 1);
    UPDATE(s, refused(2), 5, 1, 512, 1, SET, 1);
    UPDATE(s, refused(2), 5, 1, 511, 2, SET, 1);
    UPDATE(s, refused(2), 5, 1, 509, 4, SET, 1);
    UPDATE(s, refused(2), 5, 1, 505, 8, SET, 1);
    UPDATE(s, refused(2), 5, 1, 65536, 1, SET, 1);
    UPDATE(s, refused(2), 5, 1, END, 1, SET, 1);
    UPDATE(s, refused(2), 5, 1, END - 7, 8, SET, 1);
    UPDATE(s, refused(2), 5, 1, 0, 1, 2, 1);
    UPDATE(s, refused(2), 5, 1, 0, 1, 256, 1);
    UPDATE(s, refused(2), 5, 1, 0, 1, END, 1);
    for (uint32_t kind = SET; kind <= ADD; kind++) {
        UPDATE(s, refused(2), 5, 1, 0, 1, kind, 256);
        UPDATE(s, refused(2), 5, 1, 0, 1, kind, UINT64_MAX);
        UPDATE(s, refused(2), 5, 1, 0, 2, kind, 65536);
        UPDATE(s, refused(2), 5, 1, 0, 4, kind, (uint64_t)END + 1);
        UPDATE(s, refused(2), 5, 1, 0, 4, kind, (uint64_t)1 << 63);
    }
}

static void update_refuses_a_number_that_is_not_live(struct store *s)
{
    UPDATE(s, refused(4), 3, 1, 0, 1, SET, 1);
    UPDATE(s, refused(4), 31, 1, 0, 1, SET, 1);
}

static void update_refuses_a_byte_in_anothers_record(struct store *s)
{
    UPDATE(s, refused(6), 5, 4, 16, 1, SET, 1);
    UPDATE(s, refused(6), 5, 4, 17, 2, ADD, 1);
    UPDATE(s, refused(6), 5, 4, 12, 8, SET, 1);
    UPDATE(s, refused(6), 5, 4, 18, 8, SET, 1);
    UPDATE(s, refused(6), 1, 4, 16, 2, SET, 1);
    UPDATE(s, refused(6), 2, 4, 15, 2, SET, 1);
    UPDATE(s, refused(6), 5, 7, 511, 1, SET, 1);
    UPDATE(s, refused(6), 5, 5, 4, 1, SET, 1);
}

/* Nothing is fetched, evicted or touched for a record that has no room. */
static void update_refuses_if_the_online_table_is_full(void)
{
    story("update refuses if the online table is full, and judges 2, 4, 6, 7 in this order");
    struct store s = full_sample_store();
    UPDATE(&s, refused(7), 5, 1, 0, 1, SET, 1);
    UPDATE(&s, refused(7), 5, 0, 0, 1, SET, 1);
    UPDATE(&s, refused(7), 5, 3, 0, 1, SET, 1);
    UPDATE(&s, refused(7), 1, 4, 16, 1, ADD, 1);
    UPDATE(&s, refused(2), 33, 4, 16, 1, SET, 1);
    UPDATE(&s, refused(2), 3, 4, 16, 1, SET, 256);
    UPDATE(&s, refused(4), 3, 4, 16, 1, SET, 1);
    UPDATE(&s, refused(6), 5, 4, 16, 1, SET, 1);
    store_free(&s);
}

static void commit_refuses_bad_numbers(struct store *s)
{
    for (size_t i = 0; i < NO_NUMBERS; i++)
        COMMIT(s, refused(2), no_numbers[i]);
    COMMIT(s, refused(4), 3);
    COMMIT(s, refused(4), 31);
}

/* The sample's log is full, and then L is also near its end: 1 and 2 have two records each, 32 has one, 5 none. */
static void commit_refuses_if_log_or_numbers_end(void)
{
    story("commit refuses if the log is full");
    struct store s = full_sample_store();
    COMMIT(&s, refused(8), 1);
    COMMIT(&s, refused(8), 32);
    want_live(&s, 5, 0);
    COMMIT(&s, DONE, 5);
    COMMIT(&s, refused(4), 5);
    store_free(&s);

    /* Nothing committed is online and the log is empty, so L can be anything. */
    struct sizes sizes = {512, 8, 6, 16, 1};
    struct store near = store_of(sizes);
    want_fresh(&near, sizes, END - 1);
    WANT_ONLINE(&near, owned(1, set(4, 16, 1, 7)), owned(2, set(4, 17, 1, 7)), owned(1, set(4, 20, 1, 7)));
    want_entry(&near, 4, EVICTED);
    want_live(&near, 1, 1);
    want_live(&near, 2, 1);
    settle(&near);
    story("commit of more than log and numbers hold: 8 before 9");
    COMMIT(&near, refused(8), 1);
    story("the last number and the last log row are given");
    want_last(&near, END);
    WANT_LOG(&near, set(4, 17, 1, 7));
    want_live(&near, 2, 0);
    WANT_ONLINE(&near, owned(1, set(4, 16, 1, 7)), numbered(END, set(4, 17, 1, 7)), owned(1, set(4, 20, 1, 7)));
    COMMIT(&near, done(0, 0, 1), 2);
    COMMIT(&near, refused(8), 1);
    store_free(&near);

    sizes.log = 8;
    struct store ends = store_of(sizes);
    want_fresh(&ends, sizes, END - 1);
    WANT_ONLINE(&ends, owned(1, set(4, 16, 1, 7)), owned(2, set(4, 17, 1, 7)), owned(1, set(4, 20, 1, 7)));
    want_entry(&ends, 4, EVICTED);
    want_live(&ends, 1, 1);
    want_live(&ends, 2, 1);
    settle(&ends);
    story("commit of two records with one number left: 9");
    COMMIT(&ends, refused(9), 1);
    want_last(&ends, END);
    WANT_LOG(&ends, set(4, 17, 1, 7));
    want_live(&ends, 2, 0);
    WANT_ONLINE(&ends, owned(1, set(4, 16, 1, 7)), numbered(END, set(4, 17, 1, 7)), owned(1, set(4, 20, 1, 7)));
    COMMIT(&ends, done(0, 0, 1), 2);
    COMMIT(&ends, refused(9), 1);
    store_free(&ends);
}

static void abort_refuses_bad_numbers(struct store *s)
{
    for (size_t i = 0; i < NO_NUMBERS; i++)
        ABORT(s, refused(2), no_numbers[i]);
    ABORT(s, refused(4), 3);
    ABORT(s, refused(4), 31);
}

static void evict_refuses(struct store *s)
{
    for (size_t i = 0; i < NO_PAGES; i++)
        EVICT(s, refused(2), no_pages[i]);
    EVICT(s, refused(10), 0);
    EVICT(s, refused(10), 3);
    EVICT(s, refused(10), 7);
}

static void compact_refuses(struct store *s)
{
    for (size_t i = 0; i < NO_PAGES; i++)
        COMPACT(s, refused(2), no_pages[i], 1, 0);
    COMPACT(s, refused(2), 2, 0, 0);
    COMPACT(s, refused(2), 2, 513, 0);
    COMPACT(s, refused(2), 2, 65536 + 1, 0);
    COMPACT(s, refused(2), 2, END, 0);
    COMPACT(s, refused(2), 0, 0, END);
}

static void checkpoint_refuses(struct store *s)
{
    CHECKPOINT(s, refused(2), 0, 0);
    CHECKPOINT(s, refused(2), 513, 0);
    CHECKPOINT(s, refused(2), 65536 + 1, 0);
    CHECKPOINT(s, refused(2), END, END);
}

/* Six log records of the sample enter. With five rows there is no room, with six there is. */
static void restart_refuses_what_the_online_table_cannot_hold(void)
{
    for (uint32_t online = 5; online <= 6; online++) {
        story("restart with room for %u of six records", (unsigned)online);
        struct sizes sizes = {512, 8, 6, online, 12};
        struct store s = store_of(sizes);
        want_fresh(&s, sizes, 10);
        want_last(&s, 20);
        want_kay(&s, 16);
        want_log(&s, 7, sample_log);
        want_stamp(&s, 1, 14);
        want_dirty(&s, 1, 14);
        want_dirty(&s, 2, 16);
        want_dirty(&s, 3, 15);
        settle(&s);
        power_loss(&s);
        if (online == 6) {
            want_sample_restarted(&s);
            RESTART(&s, DONE);
        } else {
            RESTART(&s, refused(7));
            want_kay(&s, 21);
            settle(&s);
            RESTART(&s, refused(1));
        }
        store_free(&s);
    }
}

/* Format with sizes out of range but fitting lengths is in soundness.c. */
static void format_refuses(struct store *s)
{
    static const struct sizes others[] = {
        {512, 7, 6, 16, 12}, {512, 9, 6, 16, 12}, {512, 8, 5, 16, 12}, {512, 8, 7, 16, 12}, {512, 8, 6, 15, 12},
        {512, 8, 6, 17, 12}, {512, 8, 6, 16, 11}, {512, 8, 6, 16, 13}, {1024, 8, 6, 16, 12}, {1024, 4, 3, 16, 12},
        {0, 8, 6, 16, 12}, {512, 0, 6, 16, 12}, {512, 8, 0, 16, 12}, {512, 8, 6, 0, 12}, {512, 8, 6, 16, 0},
        {END, END, END, END, END},
    };
    for (size_t i = 0; i < sizeof others / sizeof *others; i++)
        FORMAT(s, refused(2), others[i], 0);
}

void refusals(void)
{
    static const struct test all[] = {
        TEST(begin_refuses),
        TEST(read_refuses_bad_arguments),
        TEST(read_refuses_a_short_buffer),
        TEST(read_refuses_a_number_that_is_not_live),
        TEST(read_refuses_a_byte_in_anothers_record),
        TEST(read_judges_2_3_4_6_in_this_order),
        TEST(update_refuses_bad_arguments),
        TEST(update_refuses_a_number_that_is_not_live),
        TEST(update_refuses_a_byte_in_anothers_record),
        TEST(commit_refuses_bad_numbers),
        TEST(abort_refuses_bad_numbers),
        TEST(evict_refuses),
        TEST(compact_refuses),
        TEST(checkpoint_refuses),
        TEST(format_refuses),
    };
    RUN_TESTS(all, sample_store);
    update_refuses_if_the_online_table_is_full();
    commit_refuses_if_log_or_numbers_end();
    restart_refuses_what_the_online_table_cannot_hold();
}
