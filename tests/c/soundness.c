/* "Sound tables" of 01, clause by clause: each broken alone makes every call but format answer 1. S1 to S20 are the
 * labels of docs/TRACE.md. Restart looks at parameters, lengths and the durable part only. */
#include "sample.h"
#include "topics.h"

/* ---- What the calls answer. */

/* With arguments that would do, and with some that would not: 1 is judged first. */
static void all_but_restart_and_format_refuse(struct store *s)
{
    BEGIN(s, refused(1), 9);
    BEGIN(s, refused(1), 1);
    BEGIN(s, refused(1), 0);
    READ_REFUSED(s, 1, 5, 1, 0, 4);
    READ_REFUSED(s, 1, 33, END, END, END);
    READ_INTO(s, refused(1), 0, 5, 1, 0, 4, NULL);
    UPDATE(s, refused(1), 5, 1, 0, 1, SET, 1);
    UPDATE(s, refused(1), 0, END, END, 3, 2, UINT64_MAX);
    COMMIT(s, refused(1), 1);
    COMMIT(s, refused(1), 9);
    COMMIT(s, refused(1), 33);
    ABORT(s, refused(1), 1);
    ABORT(s, refused(1), 9);
    ABORT(s, refused(1), 33);
    EVICT(s, refused(1), 1);
    EVICT(s, refused(1), 0);
    EVICT(s, refused(1), END);
    COMPACT(s, refused(1), 2, 1, 0);
    COMPACT(s, refused(1), 0, 1, 0);
    COMPACT(s, refused(1), END, 0, 0);
    CLOSE(s, refused(1));
    CHECKPOINT(s, refused(1), 1, 0);
    CHECKPOINT(s, refused(1), 0, 0);
}

static void all_but_format_refuse(struct store *s)
{
    all_but_restart_and_format_refuse(s);
    RESTART(s, refused(1));
}

/* The lost part of the sample is damaged: restart makes it anew. */
static void lost_part_is_refused(struct store *s)
{
    all_but_restart_and_format_refuse(s);
    want_sample_restarted(s);
    RESTART(s, DONE);
    BEGUN(s, 9);
}

/* Format looks at the lengths only. */
static void durable_part_is_refused(struct store *s)
{
    all_but_format_refuse(s);
    want_fresh(s, s->sizes, 7);
    FORMAT(s, DONE, s->sizes, 7);
    BEGUN(s, 9);
}

static void is_accepted(struct store *s)
{
    BEGUN(s, 9);
}

/* ---- One change to a sound store, which stays as it is. */

#define CHANGED(judge, label, ...) \
    do { \
        struct store copy = store_copy(sound), *s = &copy; \
        story("%s", label); \
        __VA_ARGS__; \
        settle(s); \
        judge(s); \
        store_free(s); \
    } while (0)
#define LOST(label, ...) CHANGED(lost_part_is_refused, label, __VA_ARGS__)
#define DURABLE(label, ...) CHANGED(durable_part_is_refused, label, __VA_ARGS__)
#define SOUND(label, ...) CHANGED(is_accepted, label, __VA_ARGS__)

static struct row with_owner(struct row row, uint8_t owner)
{
    row.owner = owner;
    return row;
}

static struct row with_number(struct row row, uint32_t number)
{
    row.number = number;
    return row;
}

/* ---- The clauses, in their order. */

/* The lengths are those of the sizes: only the parameter is wrong. */
static void parameter_out_of_range(const char *label, struct sizes sizes)
{
    for (int null = 0; null < 2; null++) {
        story("S1: %s", label);
        struct store s = store_of(sizes);
        s.null_if_empty = null;
        want_fresh(&s, sizes, 0);
        settle(&s);
        all_but_format_refuse(&s);
        FORMAT(&s, refused(2), sizes, 0);
        store_free(&s);
    }
}

static void parameters_in_range(const struct store *sound)
{
    parameter_out_of_range("page size 0", (struct sizes){0, 8, 2, 4, 8});
    parameter_out_of_range("page size 256", (struct sizes){256, 8, 2, 4, 8});
    parameter_out_of_range("page size 511", (struct sizes){511, 8, 2, 4, 8});
    parameter_out_of_range("page size 513", (struct sizes){513, 8, 2, 4, 8});
    parameter_out_of_range("page size 1,536", (struct sizes){1536, 8, 2, 4, 8});
    parameter_out_of_range("page size 8,192", (struct sizes){8192, 8, 2, 4, 8});
    parameter_out_of_range("page size 65,536 + 512", (struct sizes){66048, 8, 2, 4, 8});
    parameter_out_of_range("0 pages", (struct sizes){512, 0, 2, 4, 8});
    parameter_out_of_range("1,025 pages", (struct sizes){512, 1025, 2, 4, 8});
    parameter_out_of_range("0 frames", (struct sizes){512, 8, 0, 4, 8});
    parameter_out_of_range("65 frames", (struct sizes){512, 8, 65, 4, 8});
    parameter_out_of_range("256 + 2 frames", (struct sizes){512, 8, 258, 4, 8});
    parameter_out_of_range("0 online records", (struct sizes){512, 8, 2, 0, 8});
    parameter_out_of_range("513 online records", (struct sizes){512, 8, 2, 513, 8});
    parameter_out_of_range("0 log records", (struct sizes){512, 8, 2, 4, 0});
    parameter_out_of_range("2,049 log records", (struct sizes){512, 8, 2, 4, 2049});
    /* Lengths reckoned in 32 bits would run over. */
    DURABLE("S1: 2^29 + 8 pages", want_sizes(s, (struct sizes){512, 536870920, 6, 16, 12}));
    DURABLE("S1: all ones", want_sizes(s, (struct sizes){END, END, END, END, END}));
}

static void lengths_exact(const struct store *sound)
{
    for (enum area a = FIXED; a < AREAS; a++) {
        size_t right = sound->lent[a].length;
        const size_t wrong[] = {right - 1, right + 1, 0, 0};
        for (size_t i = 0; i < 4; i++) {
            struct store s = store_copy(sound);
            s.null_if_empty = i == 3;
            store_resize(&s, a, wrong[i]);
            story("S2: %s of %zu bytes%s, not %zu", area_names[a], wrong[i], i == 3 ? " (NULL)" : "", right);
            all_but_format_refuse(&s);
            FORMAT(&s, refused(2), s.sizes, 0);
            store_free(&s);
        }
    }
    for (int null = 0; null < 2; null++) {
        struct store s = store_copy(sound);
        s.null_if_empty = null;
        for (enum area a = FIXED; a < AREAS; a++)
            store_resize(&s, a, 0);
        story("S2: nothing is lent%s", null ? " (NULL)" : "");
        all_but_format_refuse(&s);
        FORMAT(&s, refused(2), s.sizes, 0);
        store_free(&s);
    }
}

static void counts_within_sizes(const struct store *sample)
{
    const struct store *sound = sample;
    LOST("S3: m above the online size", want_online_count(s, 17));
    LOST("S3: m the greatest", want_online_count(s, 65535));
    LOST("S3: u above frames", want_used(s, 7));
    LOST("S3: u the greatest", want_used(s, 255));
    DURABLE("S3: n above the log size", want_logged(s, 13));
    DURABLE("S3, S16: n the greatest", want_logged(s, END));
    struct store full = full_sample_store();
    sound = &full;
    SOUND("every row taken", (void)s);
    LOST("S3: m above the online size, every row taken", want_online_count(s, 12));
    store_free(&full);
    /* All else holds here for any n: no number is looked up in the log. */
    struct store logged = store_of((struct sizes){512, 8, 2, 4, 2});
    want_fresh(&logged, logged.sizes, 10);
    WANT_LOG(&logged, set(0, 0, 1, 1), set(0, 1, 1, 1));
    settle(&logged);
    sound = &logged;
    SOUND("every log row taken", (void)s);
    DURABLE("S3: n above the log size, every row taken", want_logged(s, 3));
    store_free(&logged);
}

static void entries_name_a_frame_or_none(const struct store *sound)
{
    LOST("S4: clean, in a frame past the last", want_entry(s, 0, CLEAN(6)));
    LOST("S4: dirty, in a frame past the last", want_entry(s, 3, DIRTY(6)));
    LOST("S4: 254", want_entry(s, 0, 254));
    LOST("S4: 255", want_entry(s, 3, 255));
    LOST("S4, S6: in a frame past the last, which the use order names", want_entry(s, 0, CLEAN(6));
         WANT_ORDER(s, 5, 3, 0, 1, 6));
}

/* A store with the most frames and the most pages: what is past them is past any table on the side too. */
static void nothing_is_past_64_frames_and_1024_pages(void)
{
    struct store widest = store_of((struct sizes){512, 1024, 64, 4, 8}), *sound = &widest;
    want_fresh(&widest, widest.sizes, 0);
    WANT_ONLINE(&widest, owned(1, set(1023, 0, 1, 1)), owned(1, set(1023, 1, 1, 1)));
    want_entry(&widest, 1023, (uint8_t)DIRTY(63));
    WANT_ORDER(&widest, 63);
    want_live(&widest, 1, 1);
    settle(&widest);
    SOUND("the last frame and the last page", (void)s);
#define UNSOUND(label, ...) CHANGED(all_but_restart_and_format_refuse, label, __VA_ARGS__)
    UNSOUND("S4: in frame 64 of 64", want_entry(s, 0, (uint8_t)CLEAN(64)));
    UNSOUND("S4: 255 with 64 frames", want_entry(s, 1023, 255));
    UNSOUND("S6: frame 64 of 64 named", WANT_ORDER(s, 63, 64));
    UNSOUND("S6: frame 255 named, of 64", WANT_ORDER(s, 63, 255));
    UNSOUND("S4, S6: in frame 64 of 64, which the use order names", want_entry(s, 0, (uint8_t)CLEAN(64));
            WANT_ORDER(s, 63, 64));
    UNSOUND("S7: page 1,024 of 1,024", want_row(s, 1, owned(1, set(1024, 1, 1, 1))));
    UNSOUND("S7: page 65,535, of 1,024", want_row(s, 1, owned(1, set(65535, 1, 1, 1))));
#undef UNSOUND
    store_free(&widest);
}

static void no_frame_serves_two_pages(const struct store *sound)
{
    LOST("S5: two clean pages", want_entry(s, 0, CLEAN(3)));
    LOST("S5: two dirty pages", want_entry(s, 3, DIRTY(0)));
    LOST("S5: a dirty and a clean page", want_entry(s, 0, CLEAN(5)));
}

static void the_use_order_names_each_frame_in_use_once(const struct store *sound)
{
    LOST("S6: a frame named twice", WANT_ORDER(s, 5, 3, 0, 1, 1));
    LOST("S6: one named twice, another not", WANT_ORDER(s, 5, 3, 0, 0));
    LOST("S6: a free frame named", WANT_ORDER(s, 5, 3, 0, 1, 2));
    LOST("S6: a free frame named for one in use", WANT_ORDER(s, 5, 3, 2, 1));
    LOST("S6: a frame in use not named", WANT_ORDER(s, 5, 3, 0));
    LOST("S6: none named", WANT_NO_ORDER(s));
    LOST("S6: a frame past the last named", WANT_ORDER(s, 5, 3, 0, 1, 6));
    LOST("S6: frame 255 named", WANT_ORDER(s, 5, 3, 0, 255));
    LOST("S6: a page in a frame that is not named", want_entry(s, 0, CLEAN(2)));
    LOST("S6: a frame named that has no page", want_entry(s, 1, ABSENT));
    SOUND("another order", WANT_ORDER(s, 1, 0, 3, 5));
}

/* Row 4 is uncommitted, of 2: so the log says nothing of it. Page 4 has others. */
static void online_records_are_well_formed(const struct store *sound)
{
    LOST("S7: length 0", want_row(s, 4, owned(2, add(4, 17, 0, 0))));
    LOST("S7: length 3", want_row(s, 4, owned(2, add(4, 17, 3, 9))));
    LOST("S7: length 5", want_row(s, 4, owned(2, add(4, 17, 5, 9))));
    LOST("S7: length 16", want_row(s, 4, owned(2, add(4, 17, 16, 9))));
    LOST("S7: length 255", want_row(s, 4, owned(2, add(4, 17, 255, 9))));
    LOST("S7: one byte past the page", want_row(s, 4, owned(2, add(4, 511, 2, 9))));
    LOST("S7: offset at the page's end", want_row(s, 4, owned(2, add(4, 512, 1, 9))));
    LOST("S7: offset 65,535", want_row(s, 4, owned(2, add(4, 65535, 1, 9))));
    LOST("S7: kind 2", want_row(s, 4, (struct row){{4, 17, 2, 2, 9}, 2, 0}));
    LOST("S7: kind 255", want_row(s, 4, (struct row){{4, 17, 2, 255, 9}, 2, 0}));
    LOST("S7: value 256 of length 1", want_row(s, 4, owned(2, add(4, 17, 1, 256))));
    LOST("S7: value 65,536 of length 2", want_row(s, 4, owned(2, add(4, 17, 2, 65536))));
    LOST("S7: value 2^32 of length 4", want_row(s, 4, owned(2, set(4, 17, 4, (uint64_t)END + 1))));
    LOST("S7: value 2^63 of length 4", want_row(s, 4, owned(2, set(4, 17, 4, (uint64_t)1 << 63))));
    LOST("S7: page past the last", want_row(s, 4, owned(2, add(8, 17, 2, 9))));
    LOST("S7: page 65,535", want_row(s, 4, owned(2, add(65535, 17, 2, 9))));
    SOUND("at the page's end", want_row(s, 4, owned(2, add(4, 510, 2, 9))));
    SOUND("the greatest value of length 1", want_row(s, 4, owned(2, add(4, 17, 1, 255))));
    SOUND("the greatest value of length 2", want_row(s, 4, owned(2, set(4, 17, 2, 65535))));
    SOUND("the greatest value of length 4", want_row(s, 4, owned(2, set(4, 17, 4, END))));
    SOUND("the greatest value of length 8", want_row(s, 4, owned(2, set(4, 17, 8, UINT64_MAX))));
}

/* Row 0 carries 14, which is not online. */
static void log_records_are_well_formed(const struct store *sound)
{
    DURABLE("S7: log row of length 0", want_log_row(s, 0, set(1, 0, 0, 0)));
    DURABLE("S7: log row of length 3", want_log_row(s, 0, set(1, 0, 3, 9)));
    DURABLE("S7: log row of length 16", want_log_row(s, 0, set(1, 0, 16, 9)));
    DURABLE("S7: log row one byte past the page", want_log_row(s, 0, set(1, 511, 2, 9)));
    DURABLE("S7: log row of offset 65,535", want_log_row(s, 0, set(1, 65535, 1, 9)));
    DURABLE("S7: log row of kind 2", want_log_row(s, 0, (struct record){1, 0, 2, 2, 9}));
    DURABLE("S7: log row of value 65,536 and length 2", want_log_row(s, 0, set(1, 0, 2, 65536)));
    DURABLE("S7: log row of a page past the last", want_log_row(s, 0, set(8, 0, 2, 9)));
    DURABLE("S7: log row of page 65,535", want_log_row(s, 0, set(65535, 0, 2, 9)));
    SOUND("a log row at the page's end", want_log_row(s, 0, add(7, 504, 8, UINT64_MAX)));
}

static void owners_and_numbers_are_well_formed(const struct store *sound)
{
    LOST("S8: owner 33", want_row(s, 4, with_owner(sample_rows[4], 33)));
    LOST("S8: owner 255", want_row(s, 4, with_owner(sample_rows[4], 255)));
    LOST("S8: committed with number 0", want_row(s, 4, with_owner(sample_rows[4], 0)));
    LOST("S8: an owner and a number", want_row(s, 4, with_number(sample_rows[4], 14)));
    LOST("S8: an owner, and the log's record of the number", want_row(s, 9, with_owner(sample_rows[9], 5)));
    LOST("S8: number above L", want_row(s, 4, numbered(21, sample_rows[4].record)));
    LOST("S8: the greatest number", want_row(s, 4, numbered(END, sample_rows[4].record)));
    SOUND("owner 5", want_row(s, 4, with_owner(sample_rows[4], 5)));
}

static void owners_are_live(const struct store *sound)
{
    LOST("S8: 2 is not", want_live(s, 2, 0));
    LOST("S8: 32 is not", want_live(s, 32, 0));
    LOST("S8: 3 is not", want_row(s, 4, with_owner(sample_rows[4], 3)));
}

static void no_number_occurs_twice(const struct store *sound)
{
    LOST("S9: a row stands twice", want_rows_and(s, sample_rows[9]));
    LOST("S9: an early row again at the end", want_rows_and(s, sample_rows[0]));
}

static void committed_rows_are_the_logs(const struct store *sound)
{
    LOST("S10: another page", want_row(s, 3, numbered(16, set(3, 0, 1, 0x21))));
    LOST("S10: another offset", want_row(s, 0, numbered(15, add(3, 9, 4, 5))));
    LOST("S10: another length", want_row(s, 0, numbered(15, add(3, 8, 2, 5))));
    LOST("S10: another kind", want_row(s, 0, numbered(15, set(3, 8, 4, 5))));
    LOST("S10: another value", want_row(s, 0, numbered(15, add(3, 8, 4, 6))));
    LOST("S10: another value in its last byte", want_row(s, 6, numbered(18, add(5, 0, 8, 0x1022334455667788))));
    LOST("S10: numbers changed for each other", want_row(s, 3, with_number(sample_rows[3], 20));
         want_row(s, 9, with_number(sample_rows[9], 16)));
    LOST("S10: a number below the log's first", want_row(s, 4, numbered(13, sample_rows[4].record)));
    LOST("S10: a number of another page's record", want_row(s, 4, numbered(14, sample_rows[4].record)));
}

/* Restart with such stamps is in steps.c. */
static void committed_numbers_are_above_the_stamp(const struct store *sound)
{
    CHANGED(all_but_restart_and_format_refuse, "S11: 15 is at the stamp", want_stamp(s, 3, 15));
    CHANGED(all_but_restart_and_format_refuse, "S11: 18 is below it", want_stamp(s, 5, 20));
    SOUND("stamps just below", want_stamp(s, 3, 14); want_stamp(s, 5, 17); want_stamp(s, 2, 15));
    SOUND("stamps of pages without committed records", want_stamp(s, 0, 20); want_stamp(s, 6, 0));
}

static void an_entry_is_dirty_exactly_if_the_page_has_a_record(const struct store *sound)
{
    LOST("S12: evicted without a record", want_entry(s, 0, EVICTED));
    LOST("S12: dirty in a frame without a record", want_entry(s, 1, DIRTY(3)));
    LOST("S12: absent with a committed record", want_entry(s, 3, ABSENT));
    LOST("S12: absent with an uncommitted record", want_entry(s, 7, ABSENT));
    LOST("S12: clean with committed records", want_entry(s, 2, CLEAN(0)));
    LOST("S12: clean with an uncommitted record", want_entry(s, 6, CLEAN(1)));
}

/* On page 4 owner 1 has byte 16, owner 2 bytes 17 and 18; bytes 32 and 33 are committed. On page 6 owner 32 has bytes
 * 0 to 3. */
static void owners_share_no_byte(const struct store *sound)
{
    LOST("S13: the first", want_row(s, 4, owned(2, add(4, 16, 2, 9))));
    LOST("S13: the last", want_row(s, 1, owned(1, set(4, 18, 1, 7))));
    LOST("S13: by length", want_row(s, 1, owned(1, set(4, 16, 2, 7))));
    LOST("S13: one around the other", want_row(s, 1, owned(1, set(4, 12, 8, 7))));
    LOST("S13: the same ones, both adds", want_row(s, 1, owned(1, add(4, 17, 2, 7))));
    LOST("S13: page 6", want_row(s, 4, owned(2, add(6, 3, 2, 9))));
    SOUND("side by side on page 6", want_row(s, 4, owned(2, add(6, 4, 2, 9))));
    SOUND("after the other", want_row(s, 1, owned(1, set(4, 19, 1, 7))));
    SOUND("the same bytes of page 6", want_rows_and(s, owned(32, set(6, 16, 4, 7))));
    SOUND("one owner's own", want_row(s, 4, owned(1, add(4, 16, 2, 9))));
    SOUND("with a committed record", want_row(s, 4, owned(2, add(4, 32, 2, 9))));
}

static void rows_past_a_count_are_zero(const struct store *sound)
{
    LOST("S14: the first byte past m", want_byte(s, ONLINE, 19 * 11, 1));
    LOST("S14: the last byte of online", want_byte(s, ONLINE, 19 * 16 - 1, 1));
    LOST("S14: a row's owner past m", want_byte(s, ONLINE, 19 * 13 + 14, 128));
    LOST("S14: the first place past u", want_byte(s, TABLES, 35 + 4, 2));
    LOST("S14: the last place of the use order", want_byte(s, TABLES, 35 + 5, 4));
    DURABLE("S14: the first byte past n", want_byte(s, LOG, 14 * 7, 1));
    DURABLE("S14: the last byte of the log", want_byte(s, LOG, 14 * 12 - 1, 1));
}

static void stamps_and_k_are_at_most_l(const struct store *sound)
{
    DURABLE("S15: the first page's stamp", want_stamp(s, 0, 21));
    DURABLE("S15: the last page's stamp", want_stamp(s, 7, END));
    DURABLE("S15: K one above L", want_kay(s, 21));
    DURABLE("S15: K the greatest", want_kay(s, END));
    SOUND("K is L", want_kay(s, 20));
}

static void n_is_at_most_l(void)
{
    struct store early = store_of(small_sizes), *sound = &early;
    want_fresh(&early, small_sizes, 0);
    settle(&early);
    DURABLE("S16: n is 1, L is 0", WANT_LOG(s, set(0, 0, 1, 1)));
    DURABLE("S16: n is 3, L is 2", WANT_LOG(s, set(0, 0, 1, 1), set(0, 0, 1, 2), set(0, 0, 1, 3));
            want_last(s, 2); want_kay(s, 2); want_stamp(s, 0, 2));
    SOUND("n is L", WANT_LOG(s, set(0, 0, 1, 1), set(0, 0, 1, 2)); want_last(s, 2); want_stamp(s, 0, 2));
    store_free(&early);
}

static void dirty_numbers_are_at_most_k(const struct store *sound)
{
    DURABLE("S17: 17 of K = 16", want_dirty(s, 0, 17));
    DURABLE("S17: the last page's", want_dirty(s, 7, END));
    SOUND("K itself", want_dirty(s, 0, 16));
}

static void the_first_number_is_at_most_k_and_one(const struct store *sound)
{
    DURABLE("S18: the first is 14, K is 12", want_kay(s, 12);
            want_dirty(s, 1, 0); want_dirty(s, 2, 0); want_dirty(s, 3, 0));
    SOUND("the first is 14, K is 13", want_kay(s, 13); want_dirty(s, 1, 0); want_dirty(s, 2, 0); want_dirty(s, 3, 0));
}

static void the_first_number_is_at_most_each_dirty_number(const struct store *sound)
{
    DURABLE("S19: 13 where the first is 14", want_dirty(s, 0, 13));
    DURABLE("S19: 1, of the last page", want_dirty(s, 7, 1));
    SOUND("the first itself", want_dirty(s, 0, 14));
}

static void live_bytes_are_0_or_1(const struct store *sound)
{
    LOST("S20: 2, of no owner", want_live(s, 9, 2));
    LOST("S20: 2, of an owner", want_live(s, 1, 2));
    LOST("S20: 255, of number 32", want_live(s, 32, 255));
}

/* The first number of an empty log is L + 1, and K + 1 may be as great: 2^32 at the end. */
static void an_empty_log(uint32_t last)
{
    struct store empty = store_of(small_sizes), *sound = &empty;
    want_fresh(&empty, small_sizes, last);
    settle(&empty);
    SOUND("an empty log", (void)s);
    DURABLE("S18: an empty log, K below L", want_kay(s, last - 1));
    DURABLE("S18: an empty log, K = 0", want_kay(s, 0));
    DURABLE("S19: an empty log, a dirty number of L", want_dirty(s, 0, last));
    DURABLE("S19: an empty log, a dirty number of 1", want_dirty(s, 7, 1));
    store_free(&empty);
}

void soundness(void)
{
    struct store sample = sample_store();
    parameters_in_range(&sample);
    lengths_exact(&sample);
    counts_within_sizes(&sample);
    entries_name_a_frame_or_none(&sample);
    nothing_is_past_64_frames_and_1024_pages();
    no_frame_serves_two_pages(&sample);
    the_use_order_names_each_frame_in_use_once(&sample);
    online_records_are_well_formed(&sample);
    log_records_are_well_formed(&sample);
    owners_and_numbers_are_well_formed(&sample);
    owners_are_live(&sample);
    no_number_occurs_twice(&sample);
    committed_rows_are_the_logs(&sample);
    committed_numbers_are_above_the_stamp(&sample);
    an_entry_is_dirty_exactly_if_the_page_has_a_record(&sample);
    owners_share_no_byte(&sample);
    rows_past_a_count_are_zero(&sample);
    stamps_and_k_are_at_most_l(&sample);
    n_is_at_most_l();
    dirty_numbers_are_at_most_k(&sample);
    the_first_number_is_at_most_k_and_one(&sample);
    the_first_number_is_at_most_each_dirty_number(&sample);
    live_bytes_are_0_or_1(&sample);
    an_empty_log(10);
    an_empty_log(END);
    store_free(&sample);
}
