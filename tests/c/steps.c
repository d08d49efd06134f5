/* The steps of 01, each branch of each call: one store before, one call, every byte after. */
#include "sample.h"
#include "topics.h"

/* ---- Begin. */

static void begin_makes_the_number_live(struct store *s)
{
    BEGUN(s, 3);
    BEGUN(s, 31);
}

/* ---- Fetch. */

static void an_absent_page_takes_the_lowest_free_frame_clean(struct store *s)
{
    want_fetched(s, 2, 0);
    want_entry(s, 0, CLEAN(2));
    WANT_ORDER(s, 5, 3, 0, 1, 2);
    READ(s, done(1, 0, 0), 5, 0, 100, stored_byte(s, 0, 100), stored_byte(s, 0, 101), stored_byte(s, 0, 102));
}

static void an_evicted_page_comes_back_dirty_with_its_records_in_table_order(struct store *s)
{
    want_fetched(s, 2, 3);
    want_frame(s, 2, 8, 4, 0x00003132);
    want_entry(s, 3, DIRTY(2));
    WANT_ORDER(s, 5, 3, 0, 1, 2);
    READ(s, done(1, 0, 0), 5, 3, 7, stored_byte(s, 3, 7), 0x32, 0x31, 0, 0, stored_byte(s, 3, 12));
}

/* The same records as in any history of them, but 19 before 15: the table's order decides, not the numbers'. */
static void table_order_is_not_number_order(struct store *s)
{
    want_row(s, 0, sample_rows[8]);
    want_row(s, 8, sample_rows[0]);
    settle(s);
    struct store evicted = store_copy(s);
    want_fetched(s, 2, 3);
    want_frame(s, 2, 8, 4, 0xffff3137);
    want_entry(s, 3, DIRTY(2));
    WANT_ORDER(s, 5, 3, 0, 1, 2);
    READ(s, done(1, 0, 0), 5, 3, 8, 0x37, 0x31, 0xff, 0xff);

    want_stored(&evicted, 3, 8, 4, 0xffff3137);
    want_stamp(&evicted, 3, 19);
    want_entry(&evicted, 3, ABSENT);
    WANT_ROWS_WITHOUT(&evicted, 0, 8);
    COMPACT(&evicted, done(1, 1, 0), 3, 2, END);
    store_free(&evicted);
}

static void a_page_in_a_frame_is_used_there_and_touched(struct store *s)
{
    WANT_ORDER(s, 3, 0, 1, 5);
    READ(s, DONE, 1, 4, 16, 7);
    WANT_ORDER(s, 3, 1, 5, 0);
    READ(s, DONE, 1, 2, 0, 0x11);
    READ(s, DONE, 1, 2, 0, 0x11);
}

/* Frames 2 and 4 are taken first; then the victims are those of the order, from its front. */
static void with_no_frame_free_the_least_recently_used_page_goes(struct store *s)
{
    want_fetched(s, 2, 0);
    want_entry(s, 0, CLEAN(2));
    WANT_ORDER(s, 5, 3, 0, 1, 2);
    READ(s, done(1, 0, 0), 5, 0, 0, stored_byte(s, 0, 0));
    want_fetched(s, 4, 3);
    want_frame(s, 4, 8, 4, 0x00003132);
    want_entry(s, 3, DIRTY(4));
    WANT_ORDER(s, 5, 3, 0, 1, 2, 4);
    READ(s, done(1, 0, 0), 5, 3, 0, stored_byte(s, 3, 0));
    /* Page 4 is dirty: it becomes evicted. */
    want_fetched(s, 5, 5);
    want_frame(s, 5, 0, 8, 0x5152535455667789);
    want_entry(s, 4, EVICTED);
    want_entry(s, 5, DIRTY(5));
    WANT_ORDER(s, 3, 0, 1, 2, 4, 5);
    READ(s, done(1, 0, 0), 2, 5, 0, 0x89, 0x77, 0x66, 0x55, 0x54, 0x53, 0x52, 0x51);
    /* Page 1 is clean: it becomes absent. */
    want_fetched(s, 3, 7);
    want_frame(s, 3, 504, 8, UINT64_MAX);
    want_entry(s, 1, ABSENT);
    want_entry(s, 7, DIRTY(3));
    WANT_ORDER(s, 0, 1, 2, 4, 5, 3);
    READ(s, done(1, 0, 0), 1, 7, 511, 0xff);
}

/* ---- Read. */

static void a_whole_page_is_read(struct store *s)
{
    uint8_t page[512];
    for (uint32_t i = 0; i < 512; i++)
        page[i] = stored_byte(s, 1, i);
    WANT_ORDER(s, 5, 0, 1, 3);
    READ_INTO(s, DONE, 512, 5, 1, 0, 512, page);
    READ_INTO(s, DONE, 600, 5, 1, 0, 512, page);
    READ_INTO(s, DONE, 600, 5, 1, 511, 1, page + 511);
}

/* ---- Update. */

static void an_update_of_a_clean_page_makes_it_dirty(struct store *s)
{
    want_frame(s, 3, 2, 2, 0xabcd);
    want_entry(s, 1, DIRTY(3));
    WANT_ORDER(s, 5, 0, 1, 3);
    want_rows_and(s, owned(5, set(1, 2, 2, 0xabcd)));
    UPDATE(s, DONE, 5, 1, 2, 2, SET, 0xabcd);
}

static void an_update_of_an_absent_page_fetches_it(struct store *s)
{
    want_fetched(s, 2, 0);
    want_frame(s, 2, 8, 1, 1);
    want_entry(s, 0, DIRTY(2));
    WANT_ORDER(s, 5, 3, 0, 1, 2);
    want_rows_and(s, owned(32, set(0, 8, 1, 1)));
    UPDATE(s, done(1, 0, 0), 32, 0, 8, 1, SET, 1);
}

static void an_update_of_an_evicted_page_rebuilds_it_first(struct store *s)
{
    want_fetched(s, 2, 7);
    want_frame(s, 2, 504, 8, 1); /* all ones, and 2 more */
    want_entry(s, 7, DIRTY(2));
    WANT_ORDER(s, 5, 3, 0, 1, 2);
    want_rows_and(s, owned(1, add(7, 504, 8, 2)));
    UPDATE(s, done(1, 0, 0), 1, 7, 504, 8, ADD, 2);
}

static void an_update_of_a_dirty_page_adds_to_its_frame(struct store *s)
{
    want_frame(s, 5, 17, 2, 0x0108);
    WANT_ORDER(s, 3, 0, 1, 5);
    want_rows_and(s, owned(2, add(4, 17, 2, 0xffff)));
    UPDATE(s, DONE, 2, 4, 17, 2, ADD, 0xffff);
}

static void committed_bytes_are_free_for_an_update(struct store *s)
{
    want_frame(s, 5, 33, 1, 0x55);
    WANT_ORDER(s, 3, 0, 1, 5);
    want_rows_and(s, owned(5, set(4, 33, 1, 0x55)));
    UPDATE(s, DONE, 5, 4, 33, 1, SET, 0x55);
}

/* At each length: the lowest byte first, the carry past the length dropped, the bytes beside it kept. */
static void set_and_add_at_every_length(struct store *s)
{
    WANT_NO_ONLINE(s);
    WANT_ORDER(s, 3);
    for (uint32_t page = 2; page < 8; page++)
        want_entry(s, page, ABSENT);
    settle(s);
    static const uint64_t value = 0x8877665544332211;
    struct row rows[16];
    size_t count = 0;
    for (uint32_t length = 1; length <= 8; length *= 2) {
        uint64_t most = UINT64_MAX >> (64 - 8 * length), part = value & most;
        uint32_t at = 32 * length;
        const struct {
            uint32_t kind;
            uint64_t value, then;
        } changes[] = {{SET, part, part}, {ADD, most, part - 1}, {SET, most, most}, {ADD, 2, 1}};
        for (size_t i = 0; i < 4; i++) {
            rows[count] = owned(5, set(1, at, length, changes[i].value));
            rows[count++].record.kind = (uint8_t)changes[i].kind;
            want_frame(s, 3, at, length, changes[i].then);
            want_entry(s, 1, DIRTY(3));
            want_online(s, count, rows);
            UPDATE(s, DONE, 5, 1, at, length, changes[i].kind, changes[i].value);
        }
    }
}

/* ---- Commit. */

static void commit_numbers_its_records_in_table_order(struct store *s)
{
    want_last(s, 22);
    want_log_row(s, 7, sample_rows[1].record);
    want_log_row(s, 8, sample_rows[10].record);
    want_logged(s, 9);
    want_live(s, 1, 0);
    want_row(s, 1, numbered(21, sample_rows[1].record));
    want_row(s, 10, numbered(22, sample_rows[10].record));
    COMMIT(s, done(0, 0, 1), 1);
    want_last(s, 24);
    want_log_row(s, 9, sample_rows[4].record);
    want_log_row(s, 10, sample_rows[7].record);
    want_logged(s, 11);
    want_live(s, 2, 0);
    want_row(s, 4, numbered(23, sample_rows[4].record));
    want_row(s, 7, numbered(24, sample_rows[7].record));
    COMMIT(s, done(0, 0, 1), 2);
    want_last(s, 25);
    want_log_row(s, 11, sample_rows[5].record);
    want_logged(s, 12);
    want_live(s, 32, 0);
    want_row(s, 5, numbered(25, sample_rows[5].record));
    COMMIT(s, done(0, 0, 1), 32);
}

static void commit_of_no_record_ends_the_transaction_only(struct store *s)
{
    want_live(s, 5, 0);
    COMMIT(s, DONE, 5);
}

/* ---- Abort. */

static void abort_frees_the_frames_of_its_pages(struct store *s)
{
    /* Page 4 keeps records, page 7 has none left. */
    want_live(s, 1, 0);
    want_entry(s, 4, EVICTED);
    want_entry(s, 7, ABSENT);
    WANT_ORDER(s, 3, 0, 1);
    WANT_ROWS_WITHOUT(s, 1, 10);
    ABORT(s, DONE, 1);
    /* Pages 4 and 5 are evicted already, and keep committed records. */
    want_live(s, 2, 0);
    WANT_ROWS_WITHOUT(s, 1, 4, 7, 10);
    ABORT(s, DONE, 2);
    want_live(s, 32, 0);
    want_entry(s, 6, ABSENT);
    WANT_ORDER(s, 3, 0);
    WANT_ROWS_WITHOUT(s, 1, 4, 5, 7, 10);
    ABORT(s, DONE, 32);
}

static void abort_of_no_record_ends_the_transaction_only(struct store *s)
{
    want_live(s, 5, 0);
    ABORT(s, DONE, 5);
}

static void a_page_with_two_records_of_the_aborted_loses_its_frame_once(struct store *s)
{
    want_frame(s, 1, 8, 1, 1);
    WANT_ORDER(s, 5, 3, 0, 1);
    want_rows_and(s, owned(32, set(6, 8, 1, 1)));
    UPDATE(s, DONE, 32, 6, 8, 1, SET, 1);
    want_live(s, 32, 0);
    want_entry(s, 6, ABSENT);
    WANT_ORDER(s, 5, 3, 0);
    WANT_ROWS_WITHOUT(s, 5);
    ABORT(s, DONE, 32);
}

/* ---- Evict. */

static void evict_makes_clean_absent_and_dirty_evicted(struct store *s)
{
    want_entry(s, 1, ABSENT);
    WANT_ORDER(s, 5, 0, 1);
    EVICT(s, DONE, 1);
    want_entry(s, 4, EVICTED);
    WANT_ORDER(s, 0, 1);
    EVICT(s, DONE, 4);
    want_entry(s, 6, EVICTED);
    WANT_ORDER(s, 0);
    EVICT(s, DONE, 6);
    want_entry(s, 2, EVICTED);
    WANT_NO_ORDER(s);
    EVICT(s, DONE, 2);
}

/* ---- Compact. */

static void a_page_without_committed_records_is_never_due(struct store *s)
{
    COMPACT(s, not_due(), 0, 1, 0);
    COMPACT(s, not_due(), 1, 1, 0);
    COMPACT(s, not_due(), 6, 1, 0);
    COMPACT(s, not_due(), 7, 1, 0);
}

/* Page 2 has two committed records, the older numbered 16: L - f is 4. */
static void due_is_by_count_or_by_age(struct store *s)
{
    COMPACT(s, not_due(), 2, 3, 5);
    COMPACT(s, not_due(), 2, 512, END);
    struct store by_age = store_copy(s);
    want_written(s, 2, 0);
    want_stamp(s, 2, 20);
    want_entry(s, 2, CLEAN(0));
    WANT_ROWS_WITHOUT(s, 3, 9);
    COMPACT(s, done(0, 1, 0), 2, 2, END);
    COMPACT(s, not_due(), 2, 1, 0);

    want_written(&by_age, 2, 0);
    want_stamp(&by_age, 2, 20);
    want_entry(&by_age, 2, CLEAN(0));
    WANT_ROWS_WITHOUT(&by_age, 3, 9);
    COMPACT(&by_age, done(0, 1, 0), 2, 512, 4);
    store_free(&by_age);
}

/* Whatever the frame holds is written: here noise, which no history leads to. */
static void a_page_in_a_frame_is_written_from_there(struct store *s)
{
    scribble(s, 0);
    want_written(s, 2, 0);
    want_stamp(s, 2, 20);
    want_entry(s, 2, CLEAN(0));
    WANT_ROWS_WITHOUT(s, 3, 9);
    COMPACT(s, done(0, 1, 0), 2, 1, END);
}

static void an_evicted_page_is_read_folded_written_and_absent(struct store *s)
{
    want_stored(s, 3, 8, 4, 0x00003132);
    want_stamp(s, 3, 19);
    want_entry(s, 3, ABSENT);
    WANT_ROWS_WITHOUT(s, 0, 8);
    COMPACT(s, done(1, 1, 0), 3, 1, END);
}

static void with_uncommitted_records_the_frame_is_freed(struct store *s)
{
    want_stored(s, 4, 32, 2, 0x4142);
    want_stamp(s, 4, 17);
    want_entry(s, 4, EVICTED);
    WANT_ORDER(s, 3, 0, 1);
    WANT_ROWS_WITHOUT(s, 2);
    COMPACT(s, done(1, 1, 0), 4, 1, END);
    SAME("stored byte 17 of page 4", stored_byte(s, 4, 17), 0);
    SAME("frame byte 16 of the freed frame", frame_byte(s, 5, 16), 7);
}

static void an_evicted_page_with_uncommitted_records_stays_evicted(struct store *s)
{
    want_stored(s, 5, 0, 8, 0x1122334455667789);
    want_stamp(s, 5, 18);
    WANT_ROWS_WITHOUT(s, 6);
    COMPACT(s, done(1, 1, 0), 5, 512, 2);
}

/* ---- Close. */

static void close_takes_the_smallest_committed_numbers(struct store *s)
{
    want_kay(s, 20);
    want_dirty(s, 1, 0);
    want_dirty(s, 2, 16);
    want_dirty(s, 3, 15);
    want_dirty(s, 4, 17);
    want_dirty(s, 5, 18);
    want_log(s, 6, sample_log + 1);
    CLOSE(s, done(0, 0, 1));
    CLOSE(s, done(0, 0, 1));
}

/* The smallest is not the first in the table: 20 stands before 16. */
static void close_looks_at_numbers_not_at_places(struct store *s)
{
    WANT_ONLINE(s, sample_rows[9], sample_rows[3]);
    WANT_ORDER(s, 3, 0);
    for (uint32_t page = 3; page < 8; page++)
        want_entry(s, page, ABSENT);
    settle(s);
    want_kay(s, 20);
    want_dirty(s, 1, 0);
    want_dirty(s, 3, 0);
    want_log(s, 5, sample_log + 2);
    CLOSE(s, done(0, 0, 1));
}

/* Uncommitted records alone keep nothing of the log. */
static void close_drops_the_whole_log_if_nothing_committed_is_online(struct store *s)
{
    WANT_ONLINE(s, sample_rows[5]);
    WANT_ORDER(s, 3, 1);
    for (uint32_t page = 2; page < 8; page++)
        want_entry(s, page, page == 6 ? DIRTY(1) : ABSENT);
    settle(s);
    want_kay(s, 20);
    want_dirty(s, 1, 0);
    want_dirty(s, 2, 0);
    want_dirty(s, 3, 0);
    WANT_NO_LOG(s);
    CLOSE(s, done(0, 0, 1));
}

/* ---- Checkpoint. */

/* Pages 2 and 3 are due by count, 4 by its age of 3; 5, of age 2, is not. */
static void checkpoint_compacts_what_is_due_and_closes(struct store *s)
{
    want_written(s, 2, 0);
    want_stamp(s, 2, 20);
    want_entry(s, 2, CLEAN(0));
    want_stored(s, 3, 8, 4, 0x00003132);
    want_stamp(s, 3, 19);
    want_entry(s, 3, ABSENT);
    want_stored(s, 4, 32, 2, 0x4142);
    want_stamp(s, 4, 17);
    want_entry(s, 4, EVICTED);
    WANT_ORDER(s, 3, 0, 1);
    WANT_ROWS_WITHOUT(s, 0, 2, 3, 8, 9);
    want_kay(s, 20);
    want_dirty(s, 1, 0);
    want_dirty(s, 2, 0);
    want_dirty(s, 3, 0);
    want_dirty(s, 5, 18);
    want_log(s, 3, sample_log + 4);
    CHECKPOINT(s, done(2, 3, 1), 2, 3);
    CHECKPOINT(s, done(0, 0, 1), 2, 3);
}

/* The same in single calls: what a power loss inside the checkpoint leaves is the durable part between two of these. */
static void checkpoint_is_compact_for_each_page_then_close(struct store *s)
{
    COMPACT(s, not_due(), 0, 2, 3);
    COMPACT(s, not_due(), 1, 2, 3);
    want_written(s, 2, 0);
    want_stamp(s, 2, 20);
    want_entry(s, 2, CLEAN(0));
    WANT_ROWS_WITHOUT(s, 3, 9);
    COMPACT(s, done(0, 1, 0), 2, 2, 3);
    want_stored(s, 3, 8, 4, 0x00003132);
    want_stamp(s, 3, 19);
    want_entry(s, 3, ABSENT);
    WANT_ROWS_WITHOUT(s, 0, 3, 8, 9);
    COMPACT(s, done(1, 1, 0), 3, 2, 3);
    want_stored(s, 4, 32, 2, 0x4142);
    want_stamp(s, 4, 17);
    want_entry(s, 4, EVICTED);
    WANT_ORDER(s, 3, 0, 1);
    WANT_ROWS_WITHOUT(s, 0, 2, 3, 8, 9);
    COMPACT(s, done(1, 1, 0), 4, 2, 3);
    COMPACT(s, not_due(), 5, 2, 3);
    COMPACT(s, not_due(), 6, 2, 3);
    COMPACT(s, not_due(), 7, 2, 3);
    want_kay(s, 20);
    want_dirty(s, 1, 0);
    want_dirty(s, 2, 0);
    want_dirty(s, 3, 0);
    want_dirty(s, 5, 18);
    want_log(s, 3, sample_log + 4);
    CLOSE(s, done(0, 0, 1));
}

static void checkpoint_with_nothing_due_is_a_close(struct store *s)
{
    want_kay(s, 20);
    want_dirty(s, 1, 0);
    want_dirty(s, 4, 17);
    want_dirty(s, 5, 18);
    want_log(s, 6, sample_log + 1);
    CHECKPOINT(s, done(0, 0, 1), 512, END);
}

/* ---- Restart. */

static void restart_makes_the_lost_part_of_the_log(struct store *s)
{
    struct store lost = store_copy(s);
    want_sample_restarted(s);
    RESTART(s, DONE);
    BEGUN(s, 1);
    power_loss(&lost);
    want_sample_restarted(&lost);
    RESTART(&lost, DONE);
    RESTART(&lost, DONE);
    BEGUN(&lost, 1);
    store_free(&lost);
}

/* Page 2's dirty number is 0 and 16 is at most K: passed over, though above the stamp; 20 is above K. Page 3's is 16:
 * 15 enters, though below it. */
static void restart_passes_over_what_close_left_out(struct store *s)
{
    want_dirty(s, 2, 0);
    want_dirty(s, 3, 16);
    settle(s);
    want_lost_empty(s);
    WANT_ONLINE(s, numbered(15, sample_log[1]), numbered(17, sample_log[3]), numbered(18, sample_log[4]),
        numbered(19, sample_log[5]), numbered(20, sample_log[6]));
    want_entry(s, 2, EVICTED);
    want_entry(s, 3, EVICTED);
    want_entry(s, 4, EVICTED);
    want_entry(s, 5, EVICTED);
    RESTART(s, DONE);
}

static void restart_passes_over_what_the_stamp_covers(struct store *s)
{
    want_stamp(s, 2, 20);
    want_stamp(s, 3, 15);
    want_stamp(s, 4, 16);
    settle(s);
    want_lost_empty(s);
    WANT_ONLINE(s, numbered(17, sample_log[3]), numbered(18, sample_log[4]), numbered(19, sample_log[5]));
    want_entry(s, 3, EVICTED);
    want_entry(s, 4, EVICTED);
    want_entry(s, 5, EVICTED);
    RESTART(s, DONE);
}

static void restart_with_an_empty_dirty_table_takes_what_is_above_k(struct store *s)
{
    want_dirty(s, 1, 0);
    want_dirty(s, 2, 0);
    want_dirty(s, 3, 0);
    settle(s);
    want_lost_empty(s);
    WANT_ONLINE(s, numbered(17, sample_log[3]), numbered(18, sample_log[4]), numbered(19, sample_log[5]),
        numbered(20, sample_log[6]));
    want_entry(s, 2, EVICTED);
    want_entry(s, 3, EVICTED);
    want_entry(s, 4, EVICTED);
    want_entry(s, 5, EVICTED);
    RESTART(s, DONE);
}

static void restart_of_an_empty_log_empties_the_lost_part(struct store *s)
{
    WANT_NO_LOG(s);
    want_kay(s, 20);
    want_dirty(s, 1, 0);
    want_dirty(s, 2, 0);
    want_dirty(s, 3, 0);
    settle(s);
    want_lost_empty(s);
    RESTART(s, DONE);
}

/* ---- Format. */

static void format_empties_all_but_pages_and_frames(struct store *s)
{
    want_fresh(s, s->sizes, 3);
    FORMAT(s, DONE, s->sizes, 3);
}

static void format_looks_at_no_byte(struct store *s)
{
    for (enum area a = FIXED; a < AREAS; a++)
        for (size_t i = 0; i < s->lent[a].length; i++)
            want_byte(s, a, i, 0xff);
    settle(s);
    want_fresh(s, s->sizes, END);
    FORMAT(s, DONE, s->sizes, END);
}

void steps(void)
{
    static const struct test all[] = {
        TEST(begin_makes_the_number_live),
        TEST(an_absent_page_takes_the_lowest_free_frame_clean),
        TEST(an_evicted_page_comes_back_dirty_with_its_records_in_table_order),
        TEST(table_order_is_not_number_order),
        TEST(a_page_in_a_frame_is_used_there_and_touched),
        TEST(with_no_frame_free_the_least_recently_used_page_goes),
        TEST(a_whole_page_is_read),
        TEST(an_update_of_a_clean_page_makes_it_dirty),
        TEST(an_update_of_an_absent_page_fetches_it),
        TEST(an_update_of_an_evicted_page_rebuilds_it_first),
        TEST(an_update_of_a_dirty_page_adds_to_its_frame),
        TEST(committed_bytes_are_free_for_an_update),
        TEST(set_and_add_at_every_length),
        TEST(commit_numbers_its_records_in_table_order),
        TEST(commit_of_no_record_ends_the_transaction_only),
        TEST(abort_frees_the_frames_of_its_pages),
        TEST(abort_of_no_record_ends_the_transaction_only),
        TEST(a_page_with_two_records_of_the_aborted_loses_its_frame_once),
        TEST(evict_makes_clean_absent_and_dirty_evicted),
        TEST(a_page_without_committed_records_is_never_due),
        TEST(due_is_by_count_or_by_age),
        TEST(a_page_in_a_frame_is_written_from_there),
        TEST(an_evicted_page_is_read_folded_written_and_absent),
        TEST(with_uncommitted_records_the_frame_is_freed),
        TEST(an_evicted_page_with_uncommitted_records_stays_evicted),
        TEST(close_takes_the_smallest_committed_numbers),
        TEST(close_looks_at_numbers_not_at_places),
        TEST(close_drops_the_whole_log_if_nothing_committed_is_online),
        TEST(checkpoint_compacts_what_is_due_and_closes),
        TEST(checkpoint_is_compact_for_each_page_then_close),
        TEST(checkpoint_with_nothing_due_is_a_close),
        TEST(restart_makes_the_lost_part_of_the_log),
        TEST(restart_passes_over_what_close_left_out),
        TEST(restart_passes_over_what_the_stamp_covers),
        TEST(restart_with_an_empty_dirty_table_takes_what_is_above_k),
        TEST(restart_of_an_empty_log_empties_the_lost_part),
        TEST(format_empties_all_but_pages_and_frames),
        TEST(format_looks_at_no_byte),
    };
    RUN_TESTS(all, sample_store);
}
