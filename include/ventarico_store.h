/* Ventarico over one struct: the calls of ventarico.h with the seven areas in a ventarico_store, so that no call can be
 * written with two of them swapped. Nothing but static inline functions and macros; what a call does, its arguments and
 * its refusals stand in ventarico.h.
 *
 *   VENTARICO_STORE_STATIC(ledger, 512, 8, 2, 4, 8);      arrays for all seven areas, and the store over them
 *   ventarico_store_format(&ledger, 0);
 *   ventarico_store_begin(&ledger, 1);
 *
 * A port that finds memory by itself takes two blocks, one for each part: ventarico_durable_length and
 * ventarico_lost_length say how long they are, ventarico_store_over lays the areas into them, in their order.
 *
 * C99, or C++11.
 */
#ifndef VENTARICO_STORE_H
#define VENTARICO_STORE_H

#include "ventarico.h"

/* ---- Sizes and lengths. */

/* What format takes, its last number apart. */
typedef struct {
    uint32_t page_size;   /* 512, 1,024, 2,048 or 4,096 */
    uint32_t pages;       /* 1 to 1,024 */
    uint32_t frames;      /* 1 to 64 */
    uint32_t online_size; /* 1 to 512 records */
    uint32_t log_size;    /* 1 to 2,048 records */
} ventarico_sizes;

/* Widths of docs/LAYOUT.md. */
enum {
    VENTARICO_FIXED_LENGTH = 20,
    VENTARICO_MARKS_HEAD = 12, /* L, K, n */
    VENTARICO_LOG_ROW = 14,
    VENTARICO_TABLES_HEAD = 35, /* m, u, the live numbers */
    VENTARICO_ONLINE_ROW = 19
};

/* The lengths in bytes, for arrays: constant where the arguments are. */
#define VENTARICO_MARKS_LENGTH(pages) (VENTARICO_MARKS_HEAD + (size_t)8 * (pages))
#define VENTARICO_LOG_LENGTH(log_size) ((size_t)VENTARICO_LOG_ROW * (log_size))
#define VENTARICO_STORED_LENGTH(page_size, pages) ((size_t)(page_size) * (pages))
#define VENTARICO_TABLES_LENGTH(frames, pages) (VENTARICO_TABLES_HEAD + (size_t)(frames) + (pages))
#define VENTARICO_ONLINE_LENGTH(online_size) ((size_t)VENTARICO_ONLINE_ROW * (online_size))
#define VENTARICO_POOL_LENGTH(page_size, frames) ((size_t)(page_size) * (frames))

/* Where a page's stamp and dirty number stand in marks, a record in log, a page in stored: for a port that copies what
 * a call has changed (ventarico.h, section 5). */
#define VENTARICO_STAMP_AT(page) (VENTARICO_MARKS_HEAD + (size_t)4 * (page))
#define VENTARICO_DIRTY_AT(pages, page) (VENTARICO_MARKS_HEAD + (size_t)4 * (pages) + (size_t)4 * (page))
#define VENTARICO_LOG_AT(row) ((size_t)VENTARICO_LOG_ROW * (row))
#define VENTARICO_PAGE_AT(page_size, page) ((size_t)(page_size) * (page))

/* ---- The store. */

typedef struct {
    uint8_t *bytes;
    size_t length;
} ventarico_area;

/* Made by one of the two below, so that lengths and sizes belong together. They fix each other: a call that accepts the
 * lengths has found these sizes in fixed. */
typedef struct {
    ventarico_area fixed, marks, log, stored; /* durable */
    ventarico_area tables, online, pool;      /* lost with the power */
    ventarico_sizes sizes;
} ventarico_store;

/* All fourteen arguments of a call, in their order: the one place that has it. */
#define VENTARICO_AREAS(s) \
    (s)->fixed.bytes, (s)->fixed.length, (s)->marks.bytes, (s)->marks.length, (s)->log.bytes, (s)->log.length, \
    (s)->stored.bytes, (s)->stored.length, (s)->tables.bytes, (s)->tables.length, (s)->online.bytes, \
    (s)->online.length, (s)->pool.bytes, (s)->pool.length

/* Defines `name`, a ventarico_store over static arrays of these sizes, which are constants. The arrays are zero: first
 * comes a format; or the durable areas are loaded, and a restart. */
#define VENTARICO_STORE_STATIC(name, page_size, pages, frames, online_size, log_size) \
    static uint8_t name##_fixed[VENTARICO_FIXED_LENGTH]; \
    static uint8_t name##_marks[VENTARICO_MARKS_LENGTH(pages)]; \
    static uint8_t name##_log[VENTARICO_LOG_LENGTH(log_size)]; \
    static uint8_t name##_stored[VENTARICO_STORED_LENGTH(page_size, pages)]; \
    static uint8_t name##_tables[VENTARICO_TABLES_LENGTH(frames, pages)]; \
    static uint8_t name##_online[VENTARICO_ONLINE_LENGTH(online_size)]; \
    static uint8_t name##_pool[VENTARICO_POOL_LENGTH(page_size, frames)]; \
    static const ventarico_store name = { \
        {name##_fixed, sizeof name##_fixed}, {name##_marks, sizeof name##_marks}, {name##_log, sizeof name##_log}, \
        {name##_stored, sizeof name##_stored}, {name##_tables, sizeof name##_tables}, \
        {name##_online, sizeof name##_online}, {name##_pool, sizeof name##_pool}, \
        {page_size, pages, frames, online_size, log_size}}

/* How many bytes the four durable areas have together, and the three lost ones. */
static inline size_t ventarico_durable_length(ventarico_sizes z)
{
    return VENTARICO_FIXED_LENGTH + VENTARICO_MARKS_LENGTH(z.pages) + VENTARICO_LOG_LENGTH(z.log_size) +
        VENTARICO_STORED_LENGTH(z.page_size, z.pages);
}

static inline size_t ventarico_lost_length(ventarico_sizes z)
{
    return VENTARICO_TABLES_LENGTH(z.frames, z.pages) + VENTARICO_ONLINE_LENGTH(z.online_size) +
        VENTARICO_POOL_LENGTH(z.page_size, z.frames);
}

/* The front of what is left of a block. */
static inline ventarico_area ventarico_area_cut(uint8_t **rest, size_t length)
{
    ventarico_area area;
    area.bytes = *rest;
    area.length = length;
    *rest += length;
    return area;
}

/* A store over two blocks of the lengths above: fixed, marks, log, stored one after the other in the first; tables,
 * online, pool in the second. No byte of them is read or written. */
static inline ventarico_store ventarico_store_over(ventarico_sizes z, uint8_t *durable, uint8_t *lost)
{
    ventarico_store s;
    s.fixed = ventarico_area_cut(&durable, VENTARICO_FIXED_LENGTH);
    s.marks = ventarico_area_cut(&durable, VENTARICO_MARKS_LENGTH(z.pages));
    s.log = ventarico_area_cut(&durable, VENTARICO_LOG_LENGTH(z.log_size));
    s.stored = ventarico_area_cut(&durable, VENTARICO_STORED_LENGTH(z.page_size, z.pages));
    s.tables = ventarico_area_cut(&lost, VENTARICO_TABLES_LENGTH(z.frames, z.pages));
    s.online = ventarico_area_cut(&lost, VENTARICO_ONLINE_LENGTH(z.online_size));
    s.pool = ventarico_area_cut(&lost, VENTARICO_POOL_LENGTH(z.page_size, z.frames));
    s.sizes = z;
    return s;
}

/* ---- What the areas say. Nothing is checked: these are for a store that a call has accepted. */

/* The number in four bytes, lowest byte first. */
static inline uint32_t ventarico_four_bytes(const uint8_t *at)
{
    return at[0] | (uint32_t)at[1] << 8 | (uint32_t)at[2] << 16 | (uint32_t)at[3] << 24;
}

/* The sizes that the 20 bytes of fixed hold: what a port that finds a store on its medium asks first. */
static inline ventarico_sizes ventarico_sizes_of(const uint8_t *fixed)
{
    ventarico_sizes z;
    z.page_size = ventarico_four_bytes(fixed);
    z.pages = ventarico_four_bytes(fixed + 4);
    z.frames = ventarico_four_bytes(fixed + 8);
    z.online_size = ventarico_four_bytes(fixed + 12);
    z.log_size = ventarico_four_bytes(fixed + 16);
    return z;
}

/* L, the last log number. */
static inline uint32_t ventarico_store_last(const ventarico_store *s)
{
    return ventarico_four_bytes(s->marks.bytes);
}

/* K, what L was at the last close or format. */
static inline uint32_t ventarico_store_closed(const ventarico_store *s)
{
    return ventarico_four_bytes(s->marks.bytes + 4);
}

/* n, the number of records in the log. */
static inline uint32_t ventarico_store_logged(const ventarico_store *s)
{
    return ventarico_four_bytes(s->marks.bytes + 8);
}

static inline uint32_t ventarico_store_stamp(const ventarico_store *s, uint32_t page)
{
    return ventarico_four_bytes(s->marks.bytes + VENTARICO_STAMP_AT(page));
}

/* m, the number of records in the online table. */
static inline uint32_t ventarico_store_online(const ventarico_store *s)
{
    return s->tables.bytes[0] | (uint32_t)s->tables.bytes[1] << 8;
}

/* ---- The calls. */

static inline ventarico_reply ventarico_store_begin(const ventarico_store *s, uint32_t number)
{
    return ventarico_begin(VENTARICO_AREAS(s), number);
}

static inline ventarico_reply ventarico_store_read(const ventarico_store *s, uint8_t *buffer, size_t buffer_len,
    uint32_t number, uint32_t page, uint32_t offset, uint32_t length)
{
    return ventarico_read(VENTARICO_AREAS(s), buffer, buffer_len, number, page, offset, length);
}

static inline ventarico_reply ventarico_store_update(const ventarico_store *s, uint32_t number, uint32_t page,
    uint32_t offset, uint32_t length, uint32_t kind, uint64_t value)
{
    return ventarico_update(VENTARICO_AREAS(s), number, page, offset, length, kind, value);
}

static inline ventarico_reply ventarico_store_commit(const ventarico_store *s, uint32_t number)
{
    return ventarico_commit(VENTARICO_AREAS(s), number);
}

static inline ventarico_reply ventarico_store_abort(const ventarico_store *s, uint32_t number)
{
    return ventarico_abort(VENTARICO_AREAS(s), number);
}

static inline ventarico_reply ventarico_store_evict(const ventarico_store *s, uint32_t page)
{
    return ventarico_evict(VENTARICO_AREAS(s), page);
}

static inline ventarico_reply ventarico_store_compact(const ventarico_store *s, uint32_t page, uint32_t min_del,
    uint32_t max_age)
{
    return ventarico_compact(VENTARICO_AREAS(s), page, min_del, max_age);
}

static inline ventarico_reply ventarico_store_close(const ventarico_store *s)
{
    return ventarico_close(VENTARICO_AREAS(s));
}

static inline ventarico_reply ventarico_store_checkpoint(const ventarico_store *s, uint32_t min_del, uint32_t max_age)
{
    return ventarico_checkpoint(VENTARICO_AREAS(s), min_del, max_age);
}

static inline ventarico_reply ventarico_store_restart(const ventarico_store *s)
{
    return ventarico_restart(VENTARICO_AREAS(s));
}

static inline ventarico_reply ventarico_store_format(const ventarico_store *s, uint32_t last)
{
    return ventarico_format(VENTARICO_AREAS(s), s->sizes.page_size, s->sizes.pages, s->sizes.frames,
        s->sizes.online_size, s->sizes.log_size, last);
}

/* Update's value that takes d from a number of 1, 2, 4 or 8 bytes by an add. */
static inline uint64_t ventarico_minus(uint32_t length, uint64_t d)
{
    return (0 - d) & UINT64_MAX >> (64 - 8 * length);
}

/* ---- Names, for a log or a screen. A code that a later header adds gets its line here. */

#define VENTARICO_CODES(X) \
    X(VENTARICO_DONE, "done") \
    X(VENTARICO_NOT_SOUND, "the tables are not sound") \
    X(VENTARICO_BAD_ARGUMENT, "an argument is out of range") \
    X(VENTARICO_SHORT_BUFFER, "the buffer is shorter than the length") \
    X(VENTARICO_NOT_LIVE, "no transaction of that number is open") \
    X(VENTARICO_LIVE, "a transaction of that number is open already") \
    X(VENTARICO_HELD, "another open transaction has changed a byte that is asked for") \
    X(VENTARICO_ONLINE_FULL, "the online table is full") \
    X(VENTARICO_LOG_FULL, "the log has no room for the records") \
    X(VENTARICO_NUMBERS_END, "the log numbers are used up") \
    X(VENTARICO_NO_FRAME, "the page is in no frame")

/* "VENTARICO_HELD" for 6; NULL for a number that is no code. */
static inline const char *ventarico_code_name(uint32_t code)
{
    switch (code) {
#define VENTARICO_CASE(name, meaning) \
    case name: return #name;
        VENTARICO_CODES(VENTARICO_CASE)
#undef VENTARICO_CASE
    default: return NULL;
    }
}

/* What the code says, in a few words; NULL for a number that is no code. */
static inline const char *ventarico_code_meaning(uint32_t code)
{
    switch (code) {
#define VENTARICO_CASE(name, meaning) \
    case name: return meaning;
        VENTARICO_CODES(VENTARICO_CASE)
#undef VENTARICO_CASE
    default: return NULL;
    }
}

/* "set" or "add"; NULL for another number. */
static inline const char *ventarico_kind_name(uint32_t kind)
{
    return kind == VENTARICO_SET ? "set" : kind == VENTARICO_ADD ? "add" : NULL;
}

#endif
