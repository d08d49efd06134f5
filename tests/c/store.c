#include "store.h"

#include <inttypes.h>
#include <signal.h>
#include <stdarg.h>
#include <stdio.h>
#include <stdlib.h>
#include <string.h>

/* ---- Checks. */

static unsigned long passed, failed;
static char current_story[160];
/* Where the test makes the call that is judged. */
static const char *call_file = "";
static int call_line;

void called_at(const char *file, int line)
{
    call_file = file;
    call_line = line;
}

void story(const char *format, ...)
{
    va_list words;
    va_start(words, format);
    vsnprintf(current_story, sizeof current_story, format, words);
    va_end(words);
}

void check_at(const char *file, int line, bool holds, const char *format, ...)
{
    if (holds) {
        passed++;
        return;
    }
    failed++;
    printf("FAILED %s:%d (%s): ", file, line, current_story);
    va_list words;
    va_start(words, format);
    vprintf(format, words);
    va_end(words);
    putchar('\n');
}

void same_at(const char *file, int line, const char *what, uint64_t got, uint64_t right)
{
    check_at(file, line, got == right, "%s: expected %" PRIu64 ", got %" PRIu64, what, right, got);
}

static void died(int signal)
{
    printf("FAILED %s:%d (%s): the call died of signal %d\n", call_file, call_line, current_story, signal);
    exit(1);
}

void checks_begin(void)
{
    setvbuf(stdout, NULL, _IOLBF, BUFSIZ);
    signal(SIGSEGV, died);
    signal(SIGABRT, died);
    signal(SIGFPE, died);
    signal(SIGILL, died);
}

void topic(const char *name, void (*tests)(void))
{
    unsigned long before = passed + failed, wrong = failed;
    tests();
    printf("%-10s %7lu checks, %lu failed\n", name, passed + failed - before, failed - wrong);
}

int checks_end(void)
{
    printf("%lu passed, %lu failed\n", passed, failed);
    return failed > 0;
}

/* ---- Bytes to lend. */

enum { GUARD = 64 };

/* No two neighbours are alike, so that a copy that runs over the edge is seen as well. */
static uint8_t guard_byte(size_t i)
{
    return (uint8_t)(i * 37 ^ 0x5a);
}

static uint8_t noise(size_t i, size_t seed)
{
    return (uint8_t)(i * 151 + (i >> 8) * 29 + seed * 83 + 17);
}

static void *allocate(size_t length)
{
    void *block = malloc(length > 0 ? length : 1);
    if (block == NULL) {
        printf("FAILED: no memory for the tests. Next: free some, and run them again\n");
        exit(2);
    }
    return block;
}

/* The front guard is 64 bytes and `shift` more: nothing is promised about where an area begins. */
static struct lent lend(size_t length, size_t shift)
{
    struct lent lent = {.front = GUARD + shift, .length = length};
    lent.block = allocate(lent.front + length + GUARD);
    lent.bytes = lent.block + lent.front;
    for (size_t i = 0; i < lent.front; i++)
        lent.block[i] = guard_byte(i);
    for (size_t i = 0; i < GUARD; i++)
        lent.bytes[length + i] = guard_byte(i);
    memset(lent.bytes, 0, length);
    return lent;
}

static bool guards_hold(const struct lent *lent)
{
    for (size_t i = 0; i < lent->front; i++)
        if (lent->block[i] != guard_byte(i))
            return false;
    for (size_t i = 0; i < GUARD; i++)
        if (lent->bytes[lent->length + i] != guard_byte(i))
            return false;
    return true;
}

/* ---- Stores. */

const char *const area_names[AREAS] = {"fixed", "marks", "log", "stored", "tables", "online", "pool"};

const struct sizes small_sizes = {512, 8, 2, 4, 8};

enum { LOG_ROW = 14, ONLINE_ROW = 19, MARKS_HEAD = 12, LIVE_AT = 3, ORDER_AT = 35 };

static size_t length_of(struct sizes z, enum area area)
{
    switch (area) {
    case FIXED: return 20;
    case MARKS: return MARKS_HEAD + (size_t)8 * z.pages;
    case LOG: return (size_t)LOG_ROW * z.log;
    case STORED: return (size_t)z.page_size * z.pages;
    case TABLES: return ORDER_AT + (size_t)z.frames + z.pages;
    case ONLINE: return (size_t)ONLINE_ROW * z.online;
    default: return (size_t)z.page_size * z.frames;
    }
}

static void make_noise(struct store *s, enum area area)
{
    for (size_t i = 0; i < s->lent[area].length; i++)
        s->want[area][i] = noise(i, area);
}

struct store store_of(struct sizes sizes)
{
    struct store s = {.sizes = sizes};
    for (enum area a = FIXED; a < AREAS; a++) {
        size_t length = length_of(sizes, a);
        s.lent[a] = lend(length, a);
        s.want[a] = allocate(length);
        memset(s.want[a], 0, length);
    }
    make_noise(&s, STORED);
    make_noise(&s, POOL);
    settle(&s);
    return s;
}

static struct store formatted(struct store s, uint32_t last)
{
    settle(&s);
    want_fresh(&s, s.sizes, last);
    FORMAT(&s, DONE, s.sizes, last);
    return s;
}

struct store fresh_store(struct sizes sizes, uint32_t last)
{
    return formatted(store_of(sizes), last);
}

struct store small_store_from(uint32_t last)
{
    struct store s = store_of(small_sizes);
    memset(s.want[STORED], 0, s.lent[STORED].length);
    return formatted(s, last);
}

struct store small_store(void)
{
    return small_store_from(0);
}

struct store store_copy(const struct store *s)
{
    struct store copy = *s;
    for (enum area a = FIXED; a < AREAS; a++) {
        size_t length = s->lent[a].length;
        copy.lent[a] = lend(length, a);
        memcpy(copy.lent[a].bytes, s->lent[a].bytes, length);
        copy.want[a] = allocate(length);
        memcpy(copy.want[a], s->want[a], length);
    }
    return copy;
}

void store_free(struct store *s)
{
    for (enum area a = FIXED; a < AREAS; a++) {
        free(s->lent[a].block);
        free(s->want[a]);
    }
}

void store_resize(struct store *s, enum area area, size_t length)
{
    uint8_t *want = allocate(length);
    size_t kept = length < s->lent[area].length ? length : s->lent[area].length;
    memset(want, 0, length);
    memcpy(want, s->want[area], kept);
    free(s->want[area]);
    free(s->lent[area].block);
    s->want[area] = want;
    s->lent[area] = lend(length, area);
    settle(s);
}

void settle(struct store *s)
{
    for (enum area a = FIXED; a < AREAS; a++)
        memcpy(s->lent[a].bytes, s->want[a], s->lent[a].length);
}

void power_loss(struct store *s)
{
    make_noise(s, TABLES);
    make_noise(s, ONLINE);
    make_noise(s, POOL);
    settle(s);
}

void scribble(struct store *s, uint32_t frame)
{
    for (uint32_t i = 0; i < s->sizes.page_size; i++)
        want_frame(s, frame, i, 1, noise(i, frame + 100));
    settle(s);
}

void run_tests(size_t count, const struct test *tests, struct store (*make)(void))
{
    for (size_t i = 0; i < count; i++) {
        story("%s", tests[i].name);
        for (char *c = current_story; *c != 0; c++)
            *c = *c == '_' ? ' ' : *c;
        struct store s = make();
        tests[i].run(&s);
        store_free(&s);
    }
}

/* ---- What is wanted. */

/* Numbers stand lowest byte first. */
static void put(uint8_t *bytes, size_t width, uint64_t number)
{
    for (size_t i = 0; i < width; i++)
        bytes[i] = (uint8_t)(number >> 8 * i);
}

struct record set(uint32_t page, uint32_t offset, uint32_t length, uint64_t value)
{
    return (struct record){(uint16_t)page, (uint16_t)offset, (uint8_t)length, SET, value};
}

struct record add(uint32_t page, uint32_t offset, uint32_t length, uint64_t value)
{
    return (struct record){(uint16_t)page, (uint16_t)offset, (uint8_t)length, ADD, value};
}

struct row owned(uint32_t owner, struct record record)
{
    return (struct row){record, (uint8_t)owner, 0};
}

struct row numbered(uint32_t number, struct record record)
{
    return (struct row){record, 0, number};
}

static void put_record(uint8_t *bytes, struct record record)
{
    put(bytes, 2, record.page);
    put(bytes + 2, 2, record.offset);
    put(bytes + 4, 1, record.length);
    put(bytes + 5, 1, record.kind);
    put(bytes + 6, 8, record.value);
}

void want_sizes(struct store *s, struct sizes sizes)
{
    put(s->want[FIXED], 4, sizes.page_size);
    put(s->want[FIXED] + 4, 4, sizes.pages);
    put(s->want[FIXED] + 8, 4, sizes.frames);
    put(s->want[FIXED] + 12, 4, sizes.online);
    put(s->want[FIXED] + 16, 4, sizes.log);
}

void want_fresh(struct store *s, struct sizes sizes, uint32_t last)
{
    want_sizes(s, sizes);
    want_last(s, last);
    want_kay(s, last);
    WANT_NO_LOG(s);
    for (uint32_t page = 0; page < sizes.pages; page++) {
        want_stamp(s, page, last);
        want_dirty(s, page, 0);
    }
    want_lost_empty(s);
}

void want_last(struct store *s, uint32_t last)
{
    put(s->want[MARKS], 4, last);
}

void want_kay(struct store *s, uint32_t kay)
{
    put(s->want[MARKS] + 4, 4, kay);
}

void want_logged(struct store *s, uint32_t logged)
{
    put(s->want[MARKS] + 8, 4, logged);
}

void want_stamp(struct store *s, uint32_t page, uint32_t number)
{
    put(s->want[MARKS] + MARKS_HEAD + 4 * page, 4, number);
}

void want_dirty(struct store *s, uint32_t page, uint32_t number)
{
    put(s->want[MARKS] + MARKS_HEAD + 4 * (s->sizes.pages + page), 4, number);
}

void want_log_row(struct store *s, size_t i, struct record record)
{
    put_record(s->want[LOG] + LOG_ROW * i, record);
}

void want_log(struct store *s, size_t count, const struct record *records)
{
    memset(s->want[LOG], 0, s->lent[LOG].length);
    want_logged(s, (uint32_t)count);
    for (size_t i = 0; i < count; i++)
        want_log_row(s, i, records[i]);
}

void want_live(struct store *s, uint32_t number, uint8_t live)
{
    s->want[TABLES][LIVE_AT + number - 1] = live;
}

void want_entry(struct store *s, uint32_t page, uint8_t entry)
{
    s->want[TABLES][ORDER_AT + s->sizes.frames + page] = entry;
}

void want_used(struct store *s, uint8_t used)
{
    s->want[TABLES][2] = used;
}

void want_order(struct store *s, size_t count, const uint8_t *frames)
{
    memset(s->want[TABLES] + ORDER_AT, 0, s->sizes.frames);
    want_used(s, (uint8_t)count);
    for (size_t i = 0; i < count; i++)
        s->want[TABLES][ORDER_AT + i] = frames[i];
}

void want_online_count(struct store *s, uint16_t count)
{
    put(s->want[TABLES], 2, count);
}

void want_row(struct store *s, size_t i, struct row row)
{
    uint8_t *bytes = s->want[ONLINE] + ONLINE_ROW * i;
    put_record(bytes, row.record);
    put(bytes + LOG_ROW, 1, row.owner);
    put(bytes + LOG_ROW + 1, 4, row.number);
}

void want_online(struct store *s, size_t count, const struct row *rows)
{
    memset(s->want[ONLINE], 0, s->lent[ONLINE].length);
    want_online_count(s, (uint16_t)count);
    for (size_t i = 0; i < count; i++)
        want_row(s, i, rows[i]);
}

void want_lost_empty(struct store *s)
{
    memset(s->want[TABLES], 0, s->lent[TABLES].length);
    memset(s->want[ONLINE], 0, s->lent[ONLINE].length);
}

static uint8_t *wanted_frame(const struct store *s, uint32_t frame)
{
    return s->want[POOL] + (size_t)s->sizes.page_size * frame;
}

static uint8_t *wanted_page(const struct store *s, uint32_t page)
{
    return s->want[STORED] + (size_t)s->sizes.page_size * page;
}

void want_fetched(struct store *s, uint32_t frame, uint32_t page)
{
    memcpy(wanted_frame(s, frame), wanted_page(s, page), s->sizes.page_size);
}

void want_written(struct store *s, uint32_t page, uint32_t frame)
{
    memcpy(wanted_page(s, page), wanted_frame(s, frame), s->sizes.page_size);
}

void want_frame(struct store *s, uint32_t frame, uint32_t offset, uint32_t length, uint64_t value)
{
    put(wanted_frame(s, frame) + offset, length, value);
}

void want_stored(struct store *s, uint32_t page, uint32_t offset, uint32_t length, uint64_t value)
{
    put(wanted_page(s, page) + offset, length, value);
}

void want_byte(struct store *s, enum area area, size_t at, uint8_t byte)
{
    s->want[area][at] = byte;
}

uint8_t stored_byte(const struct store *s, uint32_t page, uint32_t offset)
{
    return s->lent[STORED].bytes[(size_t)s->sizes.page_size * page + offset];
}

uint8_t frame_byte(const struct store *s, uint32_t frame, uint32_t offset)
{
    return s->lent[POOL].bytes[(size_t)s->sizes.page_size * frame + offset];
}

/* ---- Replies. */

ventarico_reply done(uint32_t reads, uint32_t writes, uint32_t logs)
{
    return (ventarico_reply){.reads = reads, .writes = writes, .logs = logs};
}

ventarico_reply refused(uint32_t code)
{
    return (ventarico_reply){.code = code};
}

ventarico_reply not_due(void)
{
    return (ventarico_reply){.note = 1};
}

/* ---- The judging of a call. */

static void judge_field(const char *call, const char *field, uint32_t got, uint32_t right)
{
    check_at(call_file, call_line, got == right, "%s: %s: expected %" PRIu32 ", got %" PRIu32, call, field, right, got);
}

/* What docs/LAYOUT.md calls the byte. */
static void name_byte(const struct store *s, enum area area, size_t at, char *name, size_t room)
{
    const struct sizes z = s->sizes;
    size_t size = z.page_size > 0 ? z.page_size : 1, after = at - MARKS_HEAD;
    switch (area) {
    case FIXED:
        snprintf(name, room, "%s",
            (const char *[]){"page size", "pages", "frames", "online size", "log size", "past the end"}[at / 4]);
        break;
    case MARKS:
        if (at < MARKS_HEAD)
            snprintf(name, room, "%s", (const char *[]){"L", "K", "n"}[at / 4]);
        else if (after < (size_t)4 * z.pages)
            snprintf(name, room, "stamp of page %zu", after / 4);
        else
            snprintf(name, room, "dirty number of page %zu", after / 4 - z.pages);
        break;
    case LOG:
        snprintf(name, room, "row %zu, byte %zu", at / LOG_ROW, at % LOG_ROW);
        break;
    case TABLES:
        if (at < LIVE_AT)
            snprintf(name, room, "%s", at < 2 ? "m" : "u");
        else if (at < ORDER_AT)
            snprintf(name, room, "transaction number %zu", at - LIVE_AT + 1);
        else if (at < ORDER_AT + z.frames)
            snprintf(name, room, "use order, place %zu", at - ORDER_AT);
        else
            snprintf(name, room, "entry of page %zu", at - ORDER_AT - z.frames);
        break;
    case ONLINE:
        snprintf(name, room, "row %zu, byte %zu", at / ONLINE_ROW, at % ONLINE_ROW);
        break;
    default:
        snprintf(name, room, "%s %zu, offset %zu", area == STORED ? "page" : "frame", at / size, at % size);
    }
}

static void judge_area(struct store *s, const char *call, enum area area, bool accepted)
{
    const uint8_t *got = s->lent[area].bytes, *right = s->want[area];
    size_t length = s->lent[area].length, at = 0, wrong = 0;
    if (length > 0 && memcmp(got, right, length) != 0)
        for (size_t i = length; i-- > 0;)
            if (got[i] != right[i]) {
                at = i;
                wrong++;
            }
    char name[64] = "";
    if (wrong > 0)
        name_byte(s, area, at, name, sizeof name);
    check_at(call_file, call_line, wrong == 0, "%s: %s%s, byte %zu (%s): expected %u, got %u (wrong bytes: %zu)",
        call, accepted ? "" : "refused, yet it changed ", area_names[area], at, name, wrong > 0 ? right[at] : 0,
        wrong > 0 ? got[at] : 0, wrong);
    check_at(call_file, call_line, guards_hold(&s->lent[area]), "%s: wrote beside %s", call, area_names[area]);
    if (wrong > 0 || !guards_hold(&s->lent[area])) {
        free(s->lent[area].block);
        s->lent[area] = lend(length, area);
        if (length > 0)
            memcpy(s->lent[area].bytes, right, length);
    }
}

static void judge(struct store *s, const char *call, ventarico_reply got, ventarico_reply right)
{
    judge_field(call, "code", got.code, right.code);
    judge_field(call, "note", got.note, right.note);
    judge_field(call, "reads", got.reads, right.reads);
    judge_field(call, "writes", got.writes, right.writes);
    judge_field(call, "logs", got.logs, right.logs);
    for (enum area a = FIXED; a < AREAS; a++)
        judge_area(s, call, a, right.code == VENTARICO_DONE);
}

/* ---- The calls. */

static uint8_t *start(const struct store *s, enum area area)
{
    return s->lent[area].length == 0 && s->null_if_empty ? NULL : s->lent[area].bytes;
}

#define AREA(s, area) start(s, area), (s)->lent[area].length
#define ALL(s) \
    AREA(s, FIXED), AREA(s, MARKS), AREA(s, LOG), AREA(s, STORED), AREA(s, TABLES), AREA(s, ONLINE), AREA(s, POOL)

void call_format(struct store *s, ventarico_reply reply, struct sizes z, uint32_t last)
{
    judge(s, "format", ventarico_format(ALL(s), z.page_size, z.pages, z.frames, z.online, z.log, last), reply);
}

void call_begin(struct store *s, ventarico_reply reply, uint32_t number)
{
    judge(s, "begin", ventarico_begin(ALL(s), number), reply);
}

void call_read(struct store *s, ventarico_reply reply, size_t room, uint32_t number, uint32_t page, uint32_t offset,
    uint32_t length, const uint8_t *bytes)
{
    enum { FILL = 0xb5 };
    struct lent buffer = lend(room, AREAS);
    memset(buffer.bytes, FILL, room);
    judge(s, "read",
        ventarico_read(ALL(s), room == 0 && s->null_if_empty ? NULL : buffer.bytes, room, number, page, offset, length),
        reply);
    size_t shown = reply.code == VENTARICO_DONE ? length : 0, at = 0;
    while (at < shown && buffer.bytes[at] == bytes[at])
        at++;
    check_at(call_file, call_line, at == shown, "read: byte %zu shown: expected %u, got %u", at,
        at < shown ? bytes[at] : 0, at < shown ? buffer.bytes[at] : 0);
    size_t kept = shown;
    while (kept < room && buffer.bytes[kept] == FILL)
        kept++;
    check_at(call_file, call_line, kept == room, "read: byte %zu of the buffer was to stay", kept);
    check_at(call_file, call_line, guards_hold(&buffer), "read: wrote beside the buffer");
    free(buffer.block);
}

void call_update(struct store *s, ventarico_reply reply, uint32_t number, uint32_t page, uint32_t offset,
    uint32_t length, uint32_t kind, uint64_t value)
{
    judge(s, "update", ventarico_update(ALL(s), number, page, offset, length, kind, value), reply);
}

void call_commit(struct store *s, ventarico_reply reply, uint32_t number)
{
    judge(s, "commit", ventarico_commit(ALL(s), number), reply);
}

void call_abort(struct store *s, ventarico_reply reply, uint32_t number)
{
    judge(s, "abort", ventarico_abort(ALL(s), number), reply);
}

void call_evict(struct store *s, ventarico_reply reply, uint32_t page)
{
    judge(s, "evict", ventarico_evict(ALL(s), page), reply);
}

void call_compact(struct store *s, ventarico_reply reply, uint32_t page, uint32_t min_del, uint32_t max_age)
{
    judge(s, "compact", ventarico_compact(ALL(s), page, min_del, max_age), reply);
}

void call_close(struct store *s, ventarico_reply reply)
{
    judge(s, "close", ventarico_close(ALL(s)), reply);
}

void call_checkpoint(struct store *s, ventarico_reply reply, uint32_t min_del, uint32_t max_age)
{
    judge(s, "checkpoint", ventarico_checkpoint(ALL(s), min_del, max_age), reply);
}

void call_restart(struct store *s, ventarico_reply reply)
{
    judge(s, "restart", ventarico_restart(ALL(s)), reply);
}
