/* What the library does with SQLite's files, for tests/sqlite/run. It reads files, calls the archive, writes files; what
 * SQLite makes of the same files is compared there.
 *
 *   play DATABASE JOURNAL OUT        every header of the journal in turn, over a copy of the database
 *   keep OLD LATER SECTOR OUT        a journal of those pages of OLD that LATER has changed
 *   log OLD LATER ORDER OUT          a log that leads from OLD to LATER, by updates of a store; others' updates are open
 *   again OLD LOG OUT                a log of the same pages, salts and numbers as SQLite's own LOG (one transaction)
 *   judge LOG                        what judging answers
 *   apply DATABASE LOG OUT           the database with the log's images up to the last commit frame
 *   cuts LOG                         what judging answers, for each length of the log: committed frames, from which length
 *   cut DATABASE LOG FOLDER          for each length N: FOLDER/N.db and FOLDER/N.db-wal
 *   cut-same DATABASE LOG FOLDER     for each length N: FOLDER/N.db must be what apply makes
 *   play-cut DATABASE JOURNAL STEP FOLDER       for each STEPth length N: FOLDER/N.db and FOLDER/N.db-journal
 *   play-cut-same DATABASE JOURNAL STEP FOLDER  for each of them: FOLDER/N.db must be what play makes
 */
#include <stdarg.h>
#include <stdbool.h>
#include <stdio.h>
#include <stdlib.h>
#include <string.h>

#include "ventarico.h"
#include "ventarico_journal.h"
#include "ventarico_wal.h"

struct bytes {
    uint8_t *at;
    size_t length;
};

static void stop(const char *format, ...)
{
    va_list arguments;
    va_start(arguments, format);
    fputs("  FAILED  ", stdout);
    vprintf(format, arguments);
    putchar('\n');
    va_end(arguments);
    exit(1);
}

static struct bytes room_of(size_t length)
{
    struct bytes b = {calloc(length + 1, 1), length};
    if (b.at == NULL)
        stop("no memory for %zu bytes", length);
    return b;
}

static struct bytes copy_of(struct bytes b, size_t length)
{
    struct bytes copy = room_of(length);
    memcpy(copy.at, b.at, b.length < length ? b.length : length);
    return copy;
}

static struct bytes read_file(const char *name)
{
    FILE *file = fopen(name, "rb");
    if (file == NULL || fseek(file, 0, SEEK_END) != 0)
        stop("%s cannot be read", name);
    struct bytes b = room_of((size_t)ftell(file));
    rewind(file);
    if (fread(b.at, 1, b.length, file) != b.length)
        stop("%s cannot be read", name);
    fclose(file);
    return b;
}

static void write_file(const char *name, struct bytes b)
{
    FILE *file = fopen(name, "wb");
    if (file == NULL || fwrite(b.at, 1, b.length, file) != b.length || fclose(file) != 0)
        stop("%s cannot be written", name);
}

static uint32_t big(const uint8_t *at)
{
    return (uint32_t)at[0] << 24 | (uint32_t)at[1] << 16 | (uint32_t)at[2] << 8 | at[3];
}

/* A database's page size; 65,536 is kept as 1. */
static uint32_t page_size_of(struct bytes database)
{
    if (database.length < 100)
        stop("no database: %zu bytes", database.length);
    uint32_t size = (uint32_t)database.at[16] << 8 | database.at[17];
    return size == 1 ? 65536 : size;
}

/* ---- Journals. */

/* As SQLite goes through a journal: header after header, as long as each ends with its count; the first one says how
 * long the database was. */
static struct bytes played(struct bytes database, struct bytes journal, bool talk)
{
    uint32_t page_size = page_size_of(database);
    struct bytes pages = database;
    size_t at = 0, size_in_pages = 0;
    for (;;) {
        struct bytes left = {journal.at + at, journal.length - at};
        if (at == 0 && left.length >= 28) {
            /* Pages that the transaction cut off stand in the journal; so they are lent. */
            size_in_pages = big(left.at + 16);
            if (size_in_pages * page_size > pages.length && size_in_pages <= 1024)
                pages = copy_of(pages, size_in_pages * page_size);
        }
        ventarico_journal_reply r =
            ventarico_journal_play(left.at, left.length, pages.at, pages.length, page_size);
        if (talk)
            printf("header at %zu: %u, ended %u, records %u\n", at, r.code, r.ended, r.records);
        /* SQLite takes no header whose sector is not whole: then the database keeps its length too. */
        if (at == 0 && (r.code == VENTARICO_JOURNAL_BAD_HEADER || (r.code == 0 && left.length < big(left.at + 20))))
            return database;
        if (r.code == VENTARICO_JOURNAL_BAD_HEADER || (r.code == 0 && r.ended != 0))
            break;
        if (r.code != 0)
            stop("playing was refused with %u", r.code);
        size_t sector = big(left.at + 20);
        at += sector + (size_t)r.records * (page_size + 8);
        at = (at + sector - 1) / sector * sector;
        if (at >= journal.length)
            break;
    }
    return copy_of(pages, size_in_pages * page_size);
}

/* The pages of old that later has changed or lost, from 0. */
static size_t differing(struct bytes old, struct bytes later, uint32_t page_size, uint32_t *list)
{
    size_t count = 0;
    for (size_t page = 0; page < old.length / page_size; page++) {
        size_t at = page * page_size;
        if (at + page_size > later.length || memcmp(old.at + at, later.at + at, page_size) != 0)
            list[count++] = (uint32_t)page;
    }
    return count;
}

static void keep(const char *old_name, const char *later_name, uint32_t sector, const char *out)
{
    struct bytes old = read_file(old_name), later = read_file(later_name);
    uint32_t page_size = page_size_of(old), list[1024];
    size_t count = differing(old, later, page_size, list);
    struct bytes target = room_of(sector + count * (page_size + 8));
    ventarico_journal_reply r = ventarico_journal_write(
        old.at, old.length, list, count, target.at, target.length, page_size, 0xfffffff0u + sector, sector);
    if (r.code != 0 || r.records != count)
        stop("writing a journal: %u, records %u", r.code, r.records);
    write_file(out, target);
    printf("%zu records\n", count);
}

/* ---- A store that goes from one database to another. */

enum { FRAMES = 3, ONLINE = 512, LOG = 2048, CHANGER = 1, OTHERS = 2 };

struct store {
    struct bytes fixed, marks, log, stored, tables, online, pool;
};
#define AREA(a) (a).at, (a).length
#define STORE(s) AREA((s)->fixed), AREA((s)->marks), AREA((s)->log), AREA((s)->stored), AREA((s)->tables), \
    AREA((s)->online), AREA((s)->pool)

static void must(ventarico_reply r, const char *what)
{
    if (r.code != 0)
        stop("%s was refused with %u", what, r.code);
}

static void change(struct store *s, uint32_t page, uint32_t offset, uint32_t length, uint32_t kind, uint64_t value)
{
    ventarico_reply r = ventarico_update(STORE(s), CHANGER, page, offset, length, kind, value);
    if (r.code == VENTARICO_ONLINE_FULL) {
        /* Room is made: what is committed is folded into the stored pages. */
        must(ventarico_commit(STORE(s), CHANGER), "commit");
        must(ventarico_checkpoint(STORE(s), 1, 0), "checkpoint");
        must(ventarico_begin(STORE(s), CHANGER), "begin");
        r = ventarico_update(STORE(s), CHANGER, page, offset, length, kind, value);
    }
    must(r, "update");
}

static uint64_t low_first(const uint8_t *at, uint32_t length)
{
    uint64_t value = 0;
    for (uint32_t i = length; i > 0; i--)
        value = value << 8 | at[i - 1];
    return value;
}

/* Uncommitted updates of others, on bytes that nobody else changes: two to a page, while there is room. They would
 * spoil the database if they showed. */
static unsigned disturb(struct store *s, struct bytes later, uint32_t page_size, uint32_t page)
{
    unsigned made = 0;
    const uint8_t *now = s->stored.at + (size_t)page * page_size, *then = later.at + (size_t)page * page_size;
    for (uint32_t offset = 0; offset + 8 <= page_size && made < 2; offset += 8) {
        if (memcmp(now + offset, then + offset, 8) != 0)
            continue;
        uint32_t owner = CHANGER + 1 + page % OTHERS;
        must(ventarico_update(STORE(s), owner, page, offset, 8, made, 0xeeeeeeeeeeeeeeeeu), "update of another");
        made++;
    }
    return made;
}

/* Brings old to later by sets and adds of all lengths, and commits them. */
static struct store store_from(struct bytes old, struct bytes later)
{
    uint32_t page_size = page_size_of(later), pages = (uint32_t)(later.length / page_size);
    struct store s = {room_of(20), room_of(12 + 8 * pages), room_of(14 * LOG), copy_of(old, later.length),
        room_of(35 + FRAMES + pages), room_of(19 * ONLINE), room_of(FRAMES * page_size)};
    must(ventarico_format(STORE(&s), page_size, pages, FRAMES, ONLINE, LOG, 9), "format");
    for (uint32_t number = CHANGER; number <= CHANGER + OTHERS; number++)
        must(ventarico_begin(STORE(&s), number), "begin");
    struct bytes start = copy_of(s.stored, s.stored.length);
    unsigned disturbed = 0, changes = 0;
    for (uint32_t page = 0; page < pages && disturbed < ONLINE / 4; page++)
        disturbed += disturb(&s, later, page_size, page);
    if (disturbed == 0)
        stop("no byte of the database stays, so nobody can disturb it");
    for (size_t at = 0; at < later.length;) {
        if (start.at[at] == later.at[at]) {
            at++;
            continue;
        }
        uint32_t page = (uint32_t)(at / page_size), offset = (uint32_t)(at % page_size), length = 8;
        /* As long as a length fits the page and ends with a changed byte; so bytes that stay are hardly touched. */
        while (length > 1 && (offset + length > page_size || start.at[at + length - 1] == later.at[at + length - 1]))
            length /= 2;
        uint64_t was = low_first(start.at + at, length), is = low_first(later.at + at, length);
        uint64_t most = length == 8 ? UINT64_MAX : ((uint64_t)1 << 8 * length) - 1;
        if (changes++ % 2 == 0)
            change(&s, page, offset, length, VENTARICO_SET, is);
        else
            change(&s, page, offset, length, VENTARICO_ADD, (is - was) & most);
        at += length;
    }
    must(ventarico_commit(STORE(&s), CHANGER), "commit");
    /* The least recently used page leaves its frame; the others stay there, with the others' bytes in them. */
    for (uint32_t page = 0; page < pages; page++)
        if (ventarico_evict(STORE(&s), page).code == 0)
            break;
    fprintf(stderr, "%u updates, %u open ones of others\n", changes, disturbed);
    return s;
}

static struct bytes log_of(
    struct store *s, const uint32_t *list, size_t count, uint32_t salt_1, uint32_t salt_2, uint32_t sequence, uint32_t order)
{
    size_t page_size = s->pool.length / FRAMES;
    struct bytes target = room_of(32 + count * (24 + page_size));
    struct bytes *areas[] = {&s->fixed, &s->marks, &s->log, &s->stored, &s->tables, &s->online, &s->pool};
    struct bytes before[7];
    for (int i = 0; i < 7; i++)
        before[i] = copy_of(*areas[i], areas[i]->length);
    ventarico_reply r = ventarico_wal_write(
        STORE(s), list, count, target.at, target.length, salt_1, salt_2, sequence, order);
    must(r, "writing a log");
    if (r.reads != count || r.writes != 0 || r.logs != 0)
        stop("writing a log of %zu pages: reads %u, writes %u, log writes %u", count, r.reads, r.writes, r.logs);
    for (int i = 0; i < 7; i++)
        if (memcmp(before[i].at, areas[i]->at, before[i].length) != 0)
            stop("writing a log has changed the store");
    return target;
}

static void log_between(const char *old_name, const char *later_name, uint32_t order, const char *out)
{
    struct bytes old = read_file(old_name), later = read_file(later_name);
    uint32_t page_size = page_size_of(later), list[1025];
    /* Pages that old has not are changed as well, so the comparison goes from later. */
    size_t count = differing(later, old, page_size, list);
    for (size_t i = 0; i < count / 2; i++) { /* the last page first: the order is the caller's */
        uint32_t page = list[i];
        list[i] = list[count - 1 - i];
        list[count - 1 - i] = page;
    }
    list[count++] = list[0]; /* and one of them twice */
    struct store s = store_from(old, later);
    write_file(out, log_of(&s, list, count, 0xc0ffee00u + order, 0xffffffffu, 3, order));
    printf("%zu frames\n", count);
}

/* ---- Logs. */

static struct bytes applied(struct bytes database, struct bytes log)
{
    ventarico_wal_judged j = ventarico_wal_judge(log.at, log.length);
    if (j.code != 0 || j.end == 0)
        return database;
    size_t page_size = big(log.at + 8);
    size_t pages = big(log.at + j.end - page_size - 24 + 4);
    struct bytes out = copy_of(database, pages * page_size);
    for (size_t page = 1; page <= pages; page++) {
        ventarico_wal_found f = ventarico_wal_find(log.at, log.length, (uint32_t)page);
        if (f.code != 0)
            stop("page %zu: %u", page, f.code);
        if (f.found)
            memcpy(out.at + (page - 1) * page_size, log.at + f.at, page_size);
    }
    return out;
}

static void again(const char *old_name, const char *log_name, const char *out)
{
    struct bytes old = read_file(old_name), log = read_file(log_name);
    ventarico_wal_judged j = ventarico_wal_judge(log.at, log.length);
    if (j.code != 0 || j.end != log.length)
        stop("%s: %u, committed to %llu of %zu bytes", log_name, j.code, (unsigned long long)j.end, log.length);
    size_t page_size = big(log.at + 8), count = (log.length - 32) / (24 + page_size);
    uint32_t list[1024];
    if (count > 1024)
        stop("%zu frames are too many for this test", count);
    for (size_t i = 0; i < count; i++)
        list[i] = big(log.at + 32 + i * (24 + page_size)) - 1;
    struct store s = store_from(old, applied(old, log));
    write_file(out, log_of(&s, list, count, big(log.at + 16), big(log.at + 20), big(log.at + 12), big(log.at) & 1));
}

static size_t committed(struct bytes log)
{
    ventarico_wal_judged j = ventarico_wal_judge(log.at, log.length);
    return j.code != 0 || j.end == 0 ? 0 : (j.end - 32) / (24 + big(log.at + 8));
}

static const char *in(const char *folder, size_t number, const char *kind)
{
    static char name[4096];
    snprintf(name, sizeof name, "%s/%zu.db%s", folder, number, kind);
    return name;
}

static void same(struct bytes right, const char *name)
{
    struct bytes is = read_file(name);
    if (is.length != right.length || memcmp(is.at, right.at, is.length) != 0)
        stop("%s is not what SQLite made of it", name);
    free(is.at);
}

static int number_in(const char *word) { return atoi(word); }

int main(int count, char **words)
{
    const char *what = count > 1 ? words[1] : "";
#define IS(name, more) (strcmp(what, name) == 0 && count == 2 + (more))
    if (IS("play", 3)) {
        write_file(words[4], played(read_file(words[2]), read_file(words[3]), true));
    } else if (IS("keep", 4)) {
        keep(words[2], words[3], (uint32_t)number_in(words[4]), words[5]);
    } else if (IS("log", 4)) {
        log_between(words[2], words[3], (uint32_t)number_in(words[4]), words[5]);
    } else if (IS("again", 3)) {
        again(words[2], words[3], words[4]);
    } else if (IS("judge", 1)) {
        struct bytes log = read_file(words[2]);
        ventarico_wal_judged j = ventarico_wal_judge(log.at, log.length);
        printf("%u, frames %llu, committed %zu\n", j.code, (unsigned long long)j.frames, committed(log));
    } else if (IS("apply", 3)) {
        write_file(words[4], applied(read_file(words[2]), read_file(words[3])));
    } else if (IS("cuts", 1)) {
        struct bytes log = read_file(words[2]);
        size_t last = SIZE_MAX;
        for (size_t length = 0; length <= log.length; length++) {
            size_t now = committed((struct bytes){log.at, length});
            if (now != last)
                printf("%zu %zu\n", length, now);
            last = now;
        }
    } else if (IS("cut", 3) || IS("cut-same", 3)) {
        struct bytes database = read_file(words[2]), log = read_file(words[3]);
        for (size_t length = 0; length <= log.length; length++) {
            struct bytes part = {log.at, length};
            if (IS("cut", 3)) {
                write_file(in(words[4], length, ""), database);
                write_file(in(words[4], length, "-wal"), part);
            } else {
                struct bytes right = applied(database, part);
                same(right, in(words[4], length, ""));
                if (right.at != database.at)
                    free(right.at);
            }
        }
    } else if (IS("play-cut", 4) || IS("play-cut-same", 4)) {
        struct bytes database = read_file(words[2]), journal = read_file(words[3]);
        size_t step = (size_t)number_in(words[4]);
        for (size_t length = 0; length <= journal.length; length += step) {
            struct bytes part = {journal.at, length};
            if (IS("play-cut", 4)) {
                write_file(in(words[5], length, ""), database);
                write_file(in(words[5], length, "-journal"), part);
            } else {
                same(played(copy_of(database, database.length), part, false), in(words[5], length, ""));
            }
        }
    } else {
        stop("no such words; the head of tests/sqlite/sqlite.c has them");
    }
    return 0;
}
