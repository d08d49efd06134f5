/* A store to test with: the seven areas that every call is lent, and beside them what they should hold.
 *
 * A test says by hand what the next call must change (the want_ functions), then makes the call (the words in
 * capitals) with the reply that it must give. The call is judged at once: the reply's five fields, every byte of every
 * area, read's buffer, and the guard bytes on both sides of each of them. For a refused call nothing is wanted, so
 * every byte must be as it was. After a failed check the areas are put to what was wanted: the next call is judged by
 * itself, and each line that is printed names the call at fault.
 */
#ifndef STORE_H
#define STORE_H

#include <stdbool.h>
#include <stddef.h>
#include <stdint.h>

#include "ventarico.h"

#define END UINT32_MAX /* the last number of 32 bits */

/* ---- Checks. */

/* The story that the next checks belong to. It is printed with each that fails. */
void story(const char *format, ...) __attribute__((format(printf, 1, 2)));
void check_at(const char *file, int line, bool holds, const char *format, ...) __attribute__((format(printf, 4, 5)));
/* Has each line printed at once, and one if a call dies. */
void checks_begin(void);
/* Runs the tests of a topic, and says how many checks it made. */
void topic(const char *name, void (*tests)(void));
/* Prints the sum. Gives the exit status. */
int checks_end(void);

#define SAME(what, got, right) same_at(__FILE__, __LINE__, what, got, right)
void same_at(const char *file, int line, const char *what, uint64_t got, uint64_t right);

/* ---- Stores. */

enum area { FIXED, MARKS, LOG, STORED, TABLES, ONLINE, POOL, AREAS };

extern const char *const area_names[AREAS];

struct sizes {
    uint32_t page_size, pages, frames, online, log;
};

/* Bytes to lend, with guard bytes on both sides. */
struct lent {
    uint8_t *block; /* the front guard begins here */
    uint8_t *bytes;
    size_t length, front;
};

struct store {
    struct sizes sizes;
    struct lent lent[AREAS];
    uint8_t *want[AREAS];
    bool null_if_empty; /* what has no byte is lent as NULL, else as a pointer to no byte */
};

/* The small store of 01's cases. */
extern const struct sizes small_sizes;

/* Areas of the lengths that belong to the sizes, in range or not: pages and frames hold noise, all else is zero. */
struct store store_of(struct sizes sizes);
/* The same, formatted by the call. */
struct store fresh_store(struct sizes sizes, uint32_t last);
/* The small store, its pages zero, formatted by the call. */
struct store small_store_from(uint32_t last);
/* The same with L = 0. */
struct store small_store(void);
struct store store_copy(const struct store *s);
void store_free(struct store *s);
/* Lends the area with another length: cut, or zero bytes added. */
void store_resize(struct store *s, enum area area, size_t length);
/* Makes the areas what is wanted. So a test comes to a store that no call leads to. */
void settle(struct store *s);
/* All that is lost becomes noise, in the areas and in what is wanted. */
void power_loss(struct store *s);
/* The frame's bytes become noise: one that is not in use may hold anything. */
void scribble(struct store *s, uint32_t frame);

/* ---- Tests that each have a store of their own. The function's name is the story. */

struct test {
    const char *name;
    void (*run)(struct store *s);
};

#define TEST(function) {#function, function}
#define RUN_TESTS(tests, make) run_tests(sizeof(tests) / sizeof *(tests), tests, make)
void run_tests(size_t count, const struct test *tests, struct store (*make)(void));

/* ---- What is wanted after the next call. */

struct record {
    uint16_t page, offset;
    uint8_t length, kind;
    uint64_t value;
};

/* An online row: uncommitted has an owner and number 0, committed has owner 0 and its number. */
struct row {
    struct record record;
    uint8_t owner;
    uint32_t number;
};

struct record set(uint32_t page, uint32_t offset, uint32_t length, uint64_t value);
struct record add(uint32_t page, uint32_t offset, uint32_t length, uint64_t value);
struct row owned(uint32_t owner, struct record record);
struct row numbered(uint32_t number, struct record record);

/* Entries of the page table. */
enum { ABSENT = 0, EVICTED = 1 };
#define CLEAN(frame) (2 * ((frame) + 1))
#define DIRTY(frame) (2 * ((frame) + 1) + 1)

/* The store as format leaves it. */
void want_fresh(struct store *s, struct sizes sizes, uint32_t last);
void want_sizes(struct store *s, struct sizes sizes);
void want_last(struct store *s, uint32_t last);
void want_kay(struct store *s, uint32_t kay);
void want_logged(struct store *s, uint32_t logged);
void want_stamp(struct store *s, uint32_t page, uint32_t number);
void want_dirty(struct store *s, uint32_t page, uint32_t number);
/* The log's rows and n, L apart; every row after them zero. */
void want_log(struct store *s, size_t count, const struct record *records);
void want_log_row(struct store *s, size_t i, struct record record);
void want_live(struct store *s, uint32_t number, uint8_t live);
void want_entry(struct store *s, uint32_t page, uint8_t entry);
/* The use order and u; every place after them zero. */
void want_order(struct store *s, size_t count, const uint8_t *frames);
void want_used(struct store *s, uint8_t used);
/* The online rows and m; every row after them zero. */
void want_online(struct store *s, size_t count, const struct row *rows);
void want_online_count(struct store *s, uint16_t count);
void want_row(struct store *s, size_t i, struct row row);
/* Tables and online zero. */
void want_lost_empty(struct store *s);
/* The frame holds the stored page. */
void want_fetched(struct store *s, uint32_t frame, uint32_t page);
/* The stored page holds the frame's bytes. */
void want_written(struct store *s, uint32_t page, uint32_t frame);
/* Bytes from this offset on, lowest first. */
void want_frame(struct store *s, uint32_t frame, uint32_t offset, uint32_t length, uint64_t value);
void want_stored(struct store *s, uint32_t page, uint32_t offset, uint32_t length, uint64_t value);
void want_byte(struct store *s, enum area area, size_t at, uint8_t byte);

#define COUNT_OF(type, ...) (sizeof((const type[]){__VA_ARGS__}) / sizeof(type))
#define WANT_LOG(s, ...) want_log(s, COUNT_OF(struct record, __VA_ARGS__), (const struct record[]){__VA_ARGS__})
#define WANT_ORDER(s, ...) want_order(s, COUNT_OF(uint8_t, __VA_ARGS__), (const uint8_t[]){__VA_ARGS__})
#define WANT_ONLINE(s, ...) want_online(s, COUNT_OF(struct row, __VA_ARGS__), (const struct row[]){__VA_ARGS__})
#define WANT_NO_LOG(s) want_log(s, 0, NULL)
#define WANT_NO_ORDER(s) want_order(s, 0, NULL)
#define WANT_NO_ONLINE(s) want_online(s, 0, NULL)

/* A byte as it is now: stored, or in a frame. */
uint8_t stored_byte(const struct store *s, uint32_t page, uint32_t offset);
uint8_t frame_byte(const struct store *s, uint32_t frame, uint32_t offset);

/* ---- Replies. */

ventarico_reply done(uint32_t reads, uint32_t writes, uint32_t logs);
ventarico_reply refused(uint32_t code);
ventarico_reply not_due(void);
#define DONE done(0, 0, 0)

/* ---- Calls, each with the reply that it must give. */

enum { SET = VENTARICO_SET, ADD = VENTARICO_ADD };

#define FORMAT(...) (called_at(__FILE__, __LINE__), call_format(__VA_ARGS__))
#define BEGIN(...) (called_at(__FILE__, __LINE__), call_begin(__VA_ARGS__))
#define READ(s, reply, number, page, offset, ...) \
    (called_at(__FILE__, __LINE__), call_read(s, reply, COUNT_OF(uint8_t, __VA_ARGS__) + 5, number, page, offset, \
        COUNT_OF(uint8_t, __VA_ARGS__), (const uint8_t[]){__VA_ARGS__}))
#define READ_REFUSED(s, code, number, page, offset, length) \
    (called_at(__FILE__, __LINE__), \
        call_read(s, refused(code), (length) > 4096 ? 4096 : (length), number, page, offset, length, NULL))
#define READ_INTO(...) (called_at(__FILE__, __LINE__), call_read(__VA_ARGS__))
#define UPDATE(...) (called_at(__FILE__, __LINE__), call_update(__VA_ARGS__))
#define COMMIT(...) (called_at(__FILE__, __LINE__), call_commit(__VA_ARGS__))
#define ABORT(...) (called_at(__FILE__, __LINE__), call_abort(__VA_ARGS__))
#define EVICT(...) (called_at(__FILE__, __LINE__), call_evict(__VA_ARGS__))
#define COMPACT(...) (called_at(__FILE__, __LINE__), call_compact(__VA_ARGS__))
#define CLOSE(...) (called_at(__FILE__, __LINE__), call_close(__VA_ARGS__))
#define CHECKPOINT(...) (called_at(__FILE__, __LINE__), call_checkpoint(__VA_ARGS__))
#define RESTART(...) (called_at(__FILE__, __LINE__), call_restart(__VA_ARGS__))

/* A begin that is accepted. */
#define BEGUN(s, number) (want_live(s, number, 1), BEGIN(s, DONE, number))

void called_at(const char *file, int line);
void call_format(struct store *s, ventarico_reply reply, struct sizes sizes, uint32_t last);
void call_begin(struct store *s, ventarico_reply reply, uint32_t number);
/* A buffer of `room` bytes is lent; an accepted read must show these bytes and leave the rest. */
void call_read(struct store *s, ventarico_reply reply, size_t room, uint32_t number, uint32_t page, uint32_t offset,
    uint32_t length, const uint8_t *bytes);
void call_update(struct store *s, ventarico_reply reply, uint32_t number, uint32_t page, uint32_t offset,
    uint32_t length, uint32_t kind, uint64_t value);
void call_commit(struct store *s, ventarico_reply reply, uint32_t number);
void call_abort(struct store *s, ventarico_reply reply, uint32_t number);
void call_evict(struct store *s, ventarico_reply reply, uint32_t page);
void call_compact(struct store *s, ventarico_reply reply, uint32_t page, uint32_t min_del, uint32_t max_age);
void call_close(struct store *s, ventarico_reply reply);
void call_checkpoint(struct store *s, ventarico_reply reply, uint32_t min_del, uint32_t max_age);
void call_restart(struct store *s, ventarico_reply reply);

#endif
