/* The cases of 01: P1 to P12 on one small store, then those that are run only, each from a fresh store. */
#include "store.h"
#include "topics.h"

static void p1_begin(struct store *s)
{
    BEGUN(s, 1);
    BEGIN(s, refused(5), 1);
    BEGUN(s, 2);
}

static void p2_update_reads_once_and_stores_nothing(struct store *s)
{
    want_fetched(s, 0, 5);
    want_frame(s, 0, 16, 1, 7);
    want_entry(s, 5, DIRTY(0));
    WANT_ORDER(s, 0);
    WANT_ONLINE(s, owned(1, set(5, 16, 1, 7)));
    UPDATE(s, done(1, 0, 0), 1, 5, 16, 1, SET, 7);
    SAME("stored byte 16 of page 5", stored_byte(s, 5, 16), 0);
}

static void p3_another_owners_byte_is_held_the_next_is_not(struct store *s)
{
    READ_REFUSED(s, 6, 2, 5, 16, 1);
    READ(s, DONE, 2, 5, 17, 0);
}

static void p4_adds_keep_the_remainder(struct store *s)
{
    want_frame(s, 0, 17, 1, 255);
    WANT_ONLINE(s, owned(1, set(5, 16, 1, 7)), owned(2, add(5, 17, 1, 255)));
    UPDATE(s, DONE, 2, 5, 17, 1, ADD, 255);
    want_frame(s, 0, 17, 1, 1);
    WANT_ONLINE(s, owned(1, set(5, 16, 1, 7)), owned(2, add(5, 17, 1, 255)), owned(2, add(5, 17, 1, 2)));
    UPDATE(s, DONE, 2, 5, 17, 1, ADD, 2);
    READ(s, DONE, 2, 5, 17, 1);
}

static void p5_an_evicted_page_comes_back_with_its_records(struct store *s)
{
    want_entry(s, 5, EVICTED);
    WANT_NO_ORDER(s);
    EVICT(s, DONE, 5);
    want_fetched(s, 0, 5);
    want_frame(s, 0, 16, 1, 7);
    want_frame(s, 0, 17, 1, 1);
    want_entry(s, 5, DIRTY(0));
    WANT_ORDER(s, 0);
    READ(s, done(1, 0, 0), 1, 5, 16, 7);
}

static void p6_a_committed_record_outlives_the_reissued_number(struct store *s)
{
    want_last(s, 1);
    WANT_LOG(s, set(5, 16, 1, 7));
    want_live(s, 1, 0);
    WANT_ONLINE(s, numbered(1, set(5, 16, 1, 7)), owned(2, add(5, 17, 1, 255)), owned(2, add(5, 17, 1, 2)));
    COMMIT(s, done(0, 0, 1), 1);
    BEGUN(s, 1);
    want_live(s, 1, 0);
    ABORT(s, DONE, 1);
    READ(s, DONE, 2, 5, 16, 7);
}

static void p7_compact_folds_the_committed_record_alone(struct store *s)
{
    want_stored(s, 5, 16, 1, 7);
    want_stamp(s, 5, 1);
    want_entry(s, 5, EVICTED);
    WANT_NO_ORDER(s);
    WANT_ONLINE(s, owned(2, add(5, 17, 1, 255)), owned(2, add(5, 17, 1, 2)));
    COMPACT(s, done(1, 1, 0), 5, 1, END);
    SAME("stored byte 16 of page 5", stored_byte(s, 5, 16), 7);
    SAME("stored byte 17 of page 5", stored_byte(s, 5, 17), 0);
}

static void p8_restart_after_a_loss_brings_2_and_3(struct store *s)
{
    want_last(s, 3);
    WANT_LOG(s, set(5, 16, 1, 7), add(5, 17, 1, 255), add(5, 17, 1, 2));
    want_live(s, 2, 0);
    WANT_ONLINE(s, numbered(2, add(5, 17, 1, 255)), numbered(3, add(5, 17, 1, 2)));
    COMMIT(s, done(0, 0, 1), 2);
    power_loss(s);
    want_lost_empty(s);
    want_entry(s, 5, EVICTED);
    WANT_ONLINE(s, numbered(2, add(5, 17, 1, 255)), numbered(3, add(5, 17, 1, 2)));
    RESTART(s, DONE);
}

static void p9_restart_again_changes_nothing(struct store *s)
{
    RESTART(s, DONE);
}

static void p10_both_bytes_are_read(struct store *s)
{
    BEGUN(s, 4);
    want_fetched(s, 0, 5);
    want_frame(s, 0, 17, 1, 1);
    want_entry(s, 5, DIRTY(0));
    WANT_ORDER(s, 0);
    READ(s, done(1, 0, 0), 4, 5, 16, 7, 1);
}

static void p11_close_keeps_what_is_online(struct store *s)
{
    want_kay(s, 3);
    want_dirty(s, 5, 2);
    WANT_LOG(s, add(5, 17, 1, 255), add(5, 17, 1, 2));
    CLOSE(s, done(0, 0, 1));
}

static void p12_compact_is_due_by_age(struct store *s)
{
    COMPACT(s, not_due(), 5, 16, 2);
    want_written(s, 5, 0);
    want_stamp(s, 5, 3);
    want_entry(s, 5, CLEAN(0));
    WANT_NO_ONLINE(s);
    COMPACT(s, done(0, 1, 0), 5, 16, 1);
    SAME("stored byte 16 of page 5", stored_byte(s, 5, 16), 7);
    SAME("stored byte 17 of page 5", stored_byte(s, 5, 17), 1);
}

static void (*const proved[])(struct store *) = {
    p1_begin,
    p2_update_reads_once_and_stores_nothing,
    p3_another_owners_byte_is_held_the_next_is_not,
    p4_adds_keep_the_remainder,
    p5_an_evicted_page_comes_back_with_its_records,
    p6_a_committed_record_outlives_the_reissued_number,
    p7_compact_folds_the_committed_record_alone,
    p8_restart_after_a_loss_brings_2_and_3,
    p9_restart_again_changes_nothing,
    p10_both_bytes_are_read,
    p11_close_keeps_what_is_online,
    p12_compact_is_due_by_age,
};

enum { PROVED = sizeof proved / sizeof *proved };

static void p1_to_p12(void)
{
    story("P1 to P12");
    struct store s = small_store();
    for (int i = 0; i < PROVED; i++) {
        story("P%d", i + 1);
        proved[i](&s);
    }
    store_free(&s);
}

/* The store keeps nothing of its own: two that take turns do not meet. */
static void p1_to_p12_on_two_stores_in_turn(void)
{
    story("P1 to P12 on two stores in turn");
    struct store one = small_store(), two = small_store();
    proved[0](&one);
    for (int i = 1; i < PROVED; i++) {
        story("P%d on the first of two stores", i + 1);
        proved[i](&one);
        story("P%d on the second of two stores", i);
        proved[i - 1](&two);
    }
    proved[PROVED - 1](&two);
    store_free(&one);
    store_free(&two);
}

/* ---- Run only, each from a fresh store. */

static void offset_504_length_8_is_accepted_505_refused(struct store *s)
{
    BEGUN(s, 1);
    want_fetched(s, 0, 0);
    want_frame(s, 0, 504, 8, UINT64_MAX);
    want_entry(s, 0, DIRTY(0));
    WANT_ORDER(s, 0);
    WANT_ONLINE(s, owned(1, set(0, 504, 8, UINT64_MAX)));
    UPDATE(s, done(1, 0, 0), 1, 0, 504, 8, SET, UINT64_MAX);
    UPDATE(s, refused(2), 1, 0, 505, 8, SET, UINT64_MAX);
    READ(s, DONE, 1, 0, 504, 255, 255, 255, 255, 255, 255, 255, 255);
    READ_REFUSED(s, 2, 1, 0, 505, 8);
}

static void offset_511_length_1_is_accepted(struct store *s)
{
    BEGUN(s, 1);
    want_fetched(s, 0, 0);
    want_frame(s, 0, 511, 1, 9);
    want_entry(s, 0, DIRTY(0));
    WANT_ORDER(s, 0);
    WANT_ONLINE(s, owned(1, set(0, 511, 1, 9)));
    UPDATE(s, done(1, 0, 0), 1, 0, 511, 1, SET, 9);
    READ(s, DONE, 1, 0, 511, 9);
}

static void value_256_length_1_is_refused(struct store *s)
{
    BEGUN(s, 1);
    UPDATE(s, refused(2), 1, 0, 0, 1, SET, 256);
    UPDATE(s, refused(2), 1, 0, 0, 1, ADD, 256);
}

static void pages_read_0_1_0_2_drop_page_1(struct store *s)
{
    BEGUN(s, 1);
    want_fetched(s, 0, 0);
    want_entry(s, 0, CLEAN(0));
    WANT_ORDER(s, 0);
    READ(s, done(1, 0, 0), 1, 0, 0, 0);
    want_fetched(s, 1, 1);
    want_entry(s, 1, CLEAN(1));
    WANT_ORDER(s, 0, 1);
    READ(s, done(1, 0, 0), 1, 1, 0, 0);
    WANT_ORDER(s, 1, 0);
    READ(s, DONE, 1, 0, 0, 0);
    want_fetched(s, 1, 2);
    want_entry(s, 1, ABSENT);
    want_entry(s, 2, CLEAN(1));
    WANT_ORDER(s, 0, 1);
    READ(s, done(1, 0, 0), 1, 2, 0, 0);
}

static void a_fifth_uncommitted_record_waits_for_an_abort(struct store *s)
{
    BEGUN(s, 1);
    BEGUN(s, 2);
    want_fetched(s, 0, 0);
    want_entry(s, 0, DIRTY(0));
    WANT_ORDER(s, 0);
    struct row rows[] = {owned(1, set(0, 0, 1, 1)), owned(2, set(0, 1, 1, 2)), owned(1, set(0, 2, 1, 3)),
        owned(2, set(0, 3, 1, 4))};
    for (uint32_t i = 0; i < 4; i++) {
        want_frame(s, 0, i, 1, i + 1);
        want_online(s, i + 1, rows);
        UPDATE(s, done(i == 0, 0, 0), rows[i].owner, 0, i, 1, SET, i + 1);
    }
    UPDATE(s, refused(7), 1, 0, 4, 1, SET, 5);
    UPDATE(s, refused(7), 1, 7, 0, 1, SET, 5);
    want_live(s, 2, 0);
    want_entry(s, 0, EVICTED);
    WANT_NO_ORDER(s);
    WANT_ONLINE(s, owned(1, set(0, 0, 1, 1)), owned(1, set(0, 2, 1, 3)));
    ABORT(s, DONE, 2);
    want_fetched(s, 0, 0);
    want_frame(s, 0, 0, 1, 1);
    want_frame(s, 0, 2, 1, 3);
    want_frame(s, 0, 4, 1, 5);
    want_entry(s, 0, DIRTY(0));
    WANT_ORDER(s, 0);
    WANT_ONLINE(s, owned(1, set(0, 0, 1, 1)), owned(1, set(0, 2, 1, 3)), owned(1, set(0, 4, 1, 5)));
    UPDATE(s, done(1, 0, 0), 1, 0, 4, 1, SET, 5);
}

static void at_the_last_number_a_record_is_refused_and_none_is_not(void)
{
    story("L = 4,294,967,295: commit of one record 9, of none 0");
    struct store s = small_store_from(END);
    BEGUN(&s, 1);
    BEGUN(&s, 2);
    want_fetched(&s, 0, 0);
    want_frame(&s, 0, 0, 1, 1);
    want_entry(&s, 0, DIRTY(0));
    WANT_ORDER(&s, 0);
    WANT_ONLINE(&s, owned(1, set(0, 0, 1, 1)));
    UPDATE(&s, done(1, 0, 0), 1, 0, 0, 1, SET, 1);
    COMMIT(&s, refused(9), 1);
    want_live(&s, 2, 0);
    COMMIT(&s, DONE, 2);
    store_free(&s);
}

/* Four online rows fill the log of eight in two rounds, with a compaction after each. */
static void a_full_log_at_the_last_number_is_refused_8(void)
{
    story("full log and L at its end: 8");
    struct store s = small_store_from(END - 8);
    struct record log[8];
    for (uint32_t round = 0; round < 2; round++) {
        BEGUN(&s, 1);
        struct row rows[4], committed[4];
        for (uint32_t i = 0; i < 4; i++) {
            log[4 * round + i] = set(0, i, 1, round + 1);
            rows[i] = owned(1, log[4 * round + i]);
            committed[i] = numbered(END - 8 + 4 * round + i + 1, log[4 * round + i]);
            if (round == 0 && i == 0)
                want_fetched(&s, 0, 0);
            want_frame(&s, 0, i, 1, round + 1);
            want_entry(&s, 0, DIRTY(0));
            WANT_ORDER(&s, 0);
            want_online(&s, i + 1, rows);
            UPDATE(&s, done(round == 0 && i == 0, 0, 0), 1, 0, i, 1, SET, round + 1);
        }
        want_last(&s, END - 8 + 4 * (round + 1));
        want_log(&s, 4 * (round + 1), log);
        want_live(&s, 1, 0);
        want_online(&s, 4, committed);
        COMMIT(&s, done(0, 0, 1), 1);
        want_written(&s, 0, 0);
        want_stamp(&s, 0, END - 8 + 4 * (round + 1));
        want_entry(&s, 0, CLEAN(0));
        WANT_NO_ONLINE(&s);
        COMPACT(&s, done(0, 1, 0), 0, 4, END);
    }
    BEGUN(&s, 1);
    want_frame(&s, 0, 0, 1, 5);
    want_entry(&s, 0, DIRTY(0));
    WANT_ONLINE(&s, owned(1, set(0, 0, 1, 5)));
    UPDATE(&s, DONE, 1, 0, 0, 1, SET, 5);
    COMMIT(&s, refused(8), 1);
    want_kay(&s, END);
    WANT_NO_LOG(&s);
    CLOSE(&s, done(0, 0, 1));
    COMMIT(&s, refused(9), 1);
    store_free(&s);
}

static void a_record_committed_after_an_empty_close_comes_back(struct store *s)
{
    CLOSE(s, done(0, 0, 1));
    BEGUN(s, 1);
    want_fetched(s, 0, 3);
    want_frame(s, 0, 0, 1, 5);
    want_entry(s, 3, DIRTY(0));
    WANT_ORDER(s, 0);
    WANT_ONLINE(s, owned(1, set(3, 0, 1, 5)));
    UPDATE(s, done(1, 0, 0), 1, 3, 0, 1, SET, 5);
    want_last(s, 1);
    WANT_LOG(s, set(3, 0, 1, 5));
    want_live(s, 1, 0);
    WANT_ONLINE(s, numbered(1, set(3, 0, 1, 5)));
    COMMIT(s, done(0, 0, 1), 1);
    power_loss(s);
    want_lost_empty(s);
    want_entry(s, 3, EVICTED);
    WANT_ONLINE(s, numbered(1, set(3, 0, 1, 5)));
    RESTART(s, DONE);
}

static const struct test run_only[] = {
    TEST(offset_504_length_8_is_accepted_505_refused),
    TEST(offset_511_length_1_is_accepted),
    TEST(value_256_length_1_is_refused),
    TEST(pages_read_0_1_0_2_drop_page_1),
    TEST(a_fifth_uncommitted_record_waits_for_an_abort),
    TEST(a_record_committed_after_an_empty_close_comes_back),
};

void cases(void)
{
    p1_to_p12();
    p1_to_p12_on_two_stores_in_turn();
    RUN_TESTS(run_only, small_store);
    at_the_last_number_a_record_is_refused_and_none_is_not();
    a_full_log_at_the_last_number_is_refused_8();
}
