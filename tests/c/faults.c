/* The faults that tempt, from 01, each as a small story on a fresh small store. */
#include "store.h"
#include "topics.h"

static void aborting_a_reissued_number_keeps_older_committed_records(struct store *s)
{
    BEGUN(s, 1);
    want_fetched(s, 0, 0);
    want_frame(s, 0, 0, 1, 7);
    want_entry(s, 0, DIRTY(0));
    WANT_ORDER(s, 0);
    WANT_ONLINE(s, owned(1, set(0, 0, 1, 7)));
    UPDATE(s, done(1, 0, 0), 1, 0, 0, 1, SET, 7);
    want_fetched(s, 1, 1);
    want_frame(s, 1, 0, 1, 9);
    want_entry(s, 1, DIRTY(1));
    WANT_ORDER(s, 0, 1);
    WANT_ONLINE(s, owned(1, set(0, 0, 1, 7)), owned(1, set(1, 0, 1, 9)));
    UPDATE(s, done(1, 0, 0), 1, 1, 0, 1, SET, 9);
    want_last(s, 2);
    WANT_LOG(s, set(0, 0, 1, 7), set(1, 0, 1, 9));
    want_live(s, 1, 0);
    WANT_ONLINE(s, numbered(1, set(0, 0, 1, 7)), numbered(2, set(1, 0, 1, 9)));
    COMMIT(s, done(0, 0, 1), 1);

    BEGUN(s, 1);
    want_frame(s, 0, 1, 1, 8);
    WANT_ORDER(s, 1, 0);
    WANT_ONLINE(s, numbered(1, set(0, 0, 1, 7)), numbered(2, set(1, 0, 1, 9)), owned(1, set(0, 1, 1, 8)));
    UPDATE(s, DONE, 1, 0, 1, 1, SET, 8);
    want_live(s, 1, 0);
    want_entry(s, 0, EVICTED);
    WANT_ORDER(s, 1);
    WANT_ONLINE(s, numbered(1, set(0, 0, 1, 7)), numbered(2, set(1, 0, 1, 9)));
    ABORT(s, DONE, 1);

    BEGUN(s, 2);
    want_fetched(s, 0, 0);
    want_frame(s, 0, 0, 1, 7);
    want_entry(s, 0, DIRTY(0));
    WANT_ORDER(s, 1, 0);
    READ(s, done(1, 0, 0), 2, 0, 0, 7, 0);
}

static void abort_keeps_the_entry_while_others_records_remain(struct store *s)
{
    BEGUN(s, 1);
    BEGUN(s, 2);
    want_fetched(s, 0, 0);
    want_frame(s, 0, 0, 1, 7);
    want_entry(s, 0, DIRTY(0));
    WANT_ORDER(s, 0);
    WANT_ONLINE(s, owned(1, set(0, 0, 1, 7)));
    UPDATE(s, done(1, 0, 0), 1, 0, 0, 1, SET, 7);
    want_frame(s, 0, 1, 1, 8);
    WANT_ONLINE(s, owned(1, set(0, 0, 1, 7)), owned(2, set(0, 1, 1, 8)));
    UPDATE(s, DONE, 2, 0, 1, 1, SET, 8);

    want_live(s, 1, 0);
    want_entry(s, 0, EVICTED);
    WANT_NO_ORDER(s);
    WANT_ONLINE(s, owned(2, set(0, 1, 1, 8)));
    ABORT(s, DONE, 1);
    want_fetched(s, 0, 0);
    want_frame(s, 0, 1, 1, 8);
    want_entry(s, 0, DIRTY(0));
    WANT_ORDER(s, 0);
    READ(s, done(1, 0, 0), 2, 0, 0, 0, 8);

    want_live(s, 2, 0);
    want_entry(s, 0, ABSENT);
    WANT_NO_ORDER(s);
    WANT_NO_ONLINE(s);
    ABORT(s, DONE, 2);
}

static void restart_does_not_apply_an_add_that_the_stored_page_holds(struct store *s)
{
    BEGUN(s, 1);
    want_fetched(s, 0, 0);
    want_frame(s, 0, 0, 1, 5);
    want_entry(s, 0, DIRTY(0));
    WANT_ORDER(s, 0);
    WANT_ONLINE(s, owned(1, add(0, 0, 1, 5)));
    UPDATE(s, done(1, 0, 0), 1, 0, 0, 1, ADD, 5);
    want_last(s, 1);
    WANT_LOG(s, add(0, 0, 1, 5));
    want_live(s, 1, 0);
    WANT_ONLINE(s, numbered(1, add(0, 0, 1, 5)));
    COMMIT(s, done(0, 0, 1), 1);
    want_written(s, 0, 0);
    want_stamp(s, 0, 1);
    want_entry(s, 0, CLEAN(0));
    WANT_NO_ONLINE(s);
    COMPACT(s, done(0, 1, 0), 0, 1, END);

    power_loss(s);
    want_lost_empty(s);
    RESTART(s, DONE);
    BEGUN(s, 1);
    want_fetched(s, 0, 0);
    want_entry(s, 0, CLEAN(0));
    WANT_ORDER(s, 0);
    READ(s, done(1, 0, 0), 1, 0, 0, 5);
}

static void compaction_writes_no_uncommitted_byte(struct store *s)
{
    BEGUN(s, 1);
    BEGUN(s, 2);
    want_fetched(s, 0, 0);
    want_frame(s, 0, 0, 1, 7);
    want_entry(s, 0, DIRTY(0));
    WANT_ORDER(s, 0);
    WANT_ONLINE(s, owned(1, set(0, 0, 1, 7)));
    UPDATE(s, done(1, 0, 0), 1, 0, 0, 1, SET, 7);
    want_frame(s, 0, 1, 1, 8);
    WANT_ONLINE(s, owned(1, set(0, 0, 1, 7)), owned(2, set(0, 1, 1, 8)));
    UPDATE(s, DONE, 2, 0, 1, 1, SET, 8);
    want_last(s, 1);
    WANT_LOG(s, set(0, 0, 1, 7));
    want_live(s, 1, 0);
    WANT_ONLINE(s, numbered(1, set(0, 0, 1, 7)), owned(2, set(0, 1, 1, 8)));
    COMMIT(s, done(0, 0, 1), 1);

    want_stored(s, 0, 0, 1, 7);
    want_stamp(s, 0, 1);
    want_entry(s, 0, EVICTED);
    WANT_NO_ORDER(s);
    WANT_ONLINE(s, owned(2, set(0, 1, 1, 8)));
    COMPACT(s, done(1, 1, 0), 0, 1, END);
    SAME("stored byte 1 of page 0", stored_byte(s, 0, 1), 0);
}

static void compaction_of_an_evicted_page_takes_no_frames_bytes(struct store *s)
{
    BEGUN(s, 1);
    want_fetched(s, 0, 0);
    want_frame(s, 0, 0, 1, 7);
    want_entry(s, 0, DIRTY(0));
    WANT_ORDER(s, 0);
    WANT_ONLINE(s, owned(1, set(0, 0, 1, 7)));
    UPDATE(s, done(1, 0, 0), 1, 0, 0, 1, SET, 7);
    want_last(s, 1);
    WANT_LOG(s, set(0, 0, 1, 7));
    want_live(s, 1, 0);
    WANT_ONLINE(s, numbered(1, set(0, 0, 1, 7)));
    COMMIT(s, done(0, 0, 1), 1);
    want_entry(s, 0, EVICTED);
    WANT_NO_ORDER(s);
    EVICT(s, DONE, 0);
    BEGUN(s, 1);
    want_fetched(s, 0, 1);
    want_frame(s, 0, 0, 1, 9);
    want_entry(s, 1, DIRTY(0));
    WANT_ORDER(s, 0);
    WANT_ONLINE(s, numbered(1, set(0, 0, 1, 7)), owned(1, set(1, 0, 1, 9)));
    UPDATE(s, done(1, 0, 0), 1, 1, 0, 1, SET, 9);

    want_stored(s, 0, 0, 1, 7);
    want_stamp(s, 0, 1);
    want_entry(s, 0, ABSENT);
    WANT_ONLINE(s, owned(1, set(1, 0, 1, 9)));
    COMPACT(s, done(1, 1, 0), 0, 1, END);
    SAME("stored byte 0 of page 0", stored_byte(s, 0, 0), 7);
    SAME("frame byte 0", frame_byte(s, 0, 0), 9);
}

void faults(void)
{
    static const struct test all[] = {
        TEST(aborting_a_reissued_number_keeps_older_committed_records),
        TEST(abort_keeps_the_entry_while_others_records_remain),
        TEST(restart_does_not_apply_an_add_that_the_stored_page_holds),
        TEST(compaction_writes_no_uncommitted_byte),
        TEST(compaction_of_an_evicted_page_takes_no_frames_bytes),
    };
    RUN_TESTS(all, small_store);
}
