/* The usage ledger on a disk: the file-backed host of examples/ beside SQLite (WAL, synchronous FULL), where that is
 * installed. The two take turns, fifty transactions each, so that both see the same disk; the workload is that of
 * host/src/ledger.rs, row for row, layout spread. Counted are the calls and bytes that go to the system: the program puts
 * its own pwrite, fdatasync and so on before those of the C library, for SQLite's library too.
 *
 * usage: disk FOLDER [TRANSACTIONS]      a folder on the disk to measure
 */
#define _GNU_SOURCE
#include <dlfcn.h>
#include <fcntl.h>
#include <inttypes.h>
#include <math.h>
#include <stdio.h>
#include <stdlib.h>
#include <string.h>
#include <time.h>
#include <unistd.h>
#ifdef WITH_SQLITE
#include <sqlite3.h>
#endif

#include "filestore.h"

enum { ROWS = 4096, ROW = 16, A_PAGE = 16, PAGE = 4096, PAGES = ROWS / A_PAGE, MOST_K = 16, SLICE = 50 };
static const struct filestore_sizes sizes = {
    .page_size = PAGE, .pages = PAGES, .frames = 16, .online = 512, .log = 2048};
static const uint32_t MIN_DEL = 16, MAX_AGE = 512;

static void stop(const char *what)
{
    fprintf(stderr, "disk FAILED: %s. Next: see that the folder may be written; the lines above may say more.\n", what);
    exit(1);
}

/* ---- What goes to the system. */

struct counts {
    uint64_t syncs, bytes;
};
static struct counts *counting;

#define REAL(name, type) ((type)(uintptr_t)dlsym(RTLD_NEXT, name))

static void count_bytes(ssize_t bytes)
{
    if (counting && bytes > 0)
        counting->bytes += (uint64_t)bytes;
}

ssize_t pwrite(int file, const void *bytes, size_t length, off_t at)
{
    static ssize_t (*real)(int, const void *, size_t, off_t);
    real = real ? real : REAL("pwrite", ssize_t (*)(int, const void *, size_t, off_t));
    ssize_t some = real(file, bytes, length, at);
    count_bytes(some);
    return some;
}

ssize_t pwrite64(int file, const void *bytes, size_t length, off64_t at)
{
    return pwrite(file, bytes, length, at);
}

ssize_t write(int file, const void *bytes, size_t length)
{
    static ssize_t (*real)(int, const void *, size_t);
    real = real ? real : REAL("write", ssize_t (*)(int, const void *, size_t));
    ssize_t some = real(file, bytes, length);
    count_bytes(some);
    return some;
}

int fdatasync(int file)
{
    static int (*real)(int);
    real = real ? real : REAL("fdatasync", int (*)(int));
    if (counting)
        counting->syncs++;
    return real(file);
}

int fsync(int file)
{
    static int (*real)(int);
    real = real ? real : REAL("fsync", int (*)(int));
    if (counting)
        counting->syncs++;
    return real(file);
}

static double now(void)
{
    struct timespec time;
    clock_gettime(CLOCK_MONOTONIC, &time);
    return (double)time.tv_sec + 1e-9 * (double)time.tv_nsec;
}

/* ---- The workload. */

static uint64_t state;
static uint64_t next(void)
{
    uint64_t z = state += UINT64_C(0x9e3779b97f4a7c15);
    z = (z ^ z >> 30) * UINT64_C(0xbf58476d1ce4e5b9);
    z = (z ^ z >> 27) * UINT64_C(0x94d049bb133111eb);
    return z ^ z >> 31;
}

static uint32_t below(uint32_t end)
{
    return (uint32_t)((next() >> 32) * end >> 32);
}

struct transaction {
    uint32_t rows[MOST_K];
    bool aborts;
};

static uint32_t pick(const uint32_t *shuffled, const uint64_t *up_to)
{
    uint64_t at = next() % up_to[ROWS - 1];
    uint32_t low = 0, high = ROWS;
    while (low < high) {
        uint32_t middle = (low + high) / 2;
        if (up_to[middle] <= at)
            low = middle + 1;
        else
            high = middle;
    }
    return shuffled[low];
}

static void make_transactions(struct transaction *all, uint32_t count, uint32_t k)
{
    static uint32_t shuffled[ROWS];
    static uint64_t up_to[ROWS];
    state = 1;
    for (uint32_t i = 0; i < ROWS; i++)
        shuffled[i] = i;
    for (uint32_t i = ROWS - 1; i > 0; i--) {
        uint32_t other = below(i + 1), row = shuffled[i];
        shuffled[i] = shuffled[other];
        shuffled[other] = row;
    }
    for (uint32_t rank = 1; rank <= ROWS; rank++)
        up_to[rank - 1] = (rank > 1 ? up_to[rank - 2] : 0) + (uint64_t)(pow(rank, -0.99) * (1u << 30));
    for (uint32_t i = 0; i < count; i++) {
        for (uint32_t r = 0; r < k; r++)
            all[i].rows[r] = pick(shuffled, up_to);
        all[i].aborts = below(100) < 5;
    }
}

/* ---- This store. */

static struct filestore store;
static uint64_t page_writes;

static bool done(ventarico_reply r)
{
    page_writes += r.writes;
    return r.code == VENTARICO_DONE;
}

static bool make_room(uint32_t min_del)
{
    return done(filestore_checkpoint(&store, min_del, MAX_AGE));
}

/* One update of a transaction's list. */
static ventarico_reply add_to(uint32_t row)
{
    return filestore_update(&store, 1, row / A_PAGE, row % A_PAGE * ROW, 8, VENTARICO_ADD, 1);
}

static bool full(ventarico_reply r)
{
    return r.code == VENTARICO_ONLINE_FULL || r.code == VENTARICO_LOG_FULL;
}

static void run_here(const struct transaction *t, uint32_t k)
{
    uint32_t used = (uint32_t)store.tables.bytes[0] | (uint32_t)store.tables.bytes[1] << 8;
    if (10 * (sizes.online - used) < sizes.online && !make_room(MIN_DEL))
        stop("checkpoint");
    bool good = done(filestore_begin(&store, 1));
    for (uint32_t i = 0; i < k; i++) {
        ventarico_reply r = add_to(t->rows[i]);
        if (full(r) && make_room(MIN_DEL))
            r = add_to(t->rows[i]);
        if (full(r) && make_room(1))
            r = add_to(t->rows[i]);
        good = good && done(r);
    }
    ventarico_reply r = t->aborts ? filestore_abort(&store, 1) : filestore_commit(&store, 1);
    if (full(r) && make_room(MIN_DEL))
        r = filestore_commit(&store, 1);
    if (full(r) && make_room(1))
        r = filestore_commit(&store, 1);
    if (!good || !done(r))
        stop("a call of the store");
}

static uint64_t sum_here(void)
{
    static uint8_t page[PAGE];
    uint64_t sum = 0;
    if (!done(filestore_begin(&store, 2)))
        stop("begin");
    for (uint32_t p = 0; p < PAGES; p++) {
        if (!done(filestore_read(&store, page, PAGE, 2, p, 0, PAGE)))
            stop("read");
        for (uint32_t i = 0; i < A_PAGE * ROW; i++)
            sum += (uint64_t)page[i] << 8 * (i % 8);
    }
    return done(filestore_abort(&store, 2)) ? sum : 0;
}

/* ---- SQLite: a page of 4 KiB, 16 rows to a page by a filling of 240 bytes a row. */

#ifdef WITH_SQLITE
static sqlite3 *base;
static sqlite3_stmt *begin, *add, *commit, *rollback;

static void sql(const char *text)
{
    char *why = NULL;
    if (sqlite3_exec(base, text, NULL, NULL, &why) != SQLITE_OK) {
        fprintf(stderr, "sqlite: %s\n", why);
        stop(text);
    }
}

static sqlite3_stmt *prepared(const char *text)
{
    sqlite3_stmt *made = NULL;
    if (sqlite3_prepare_v2(base, text, -1, &made, NULL) != SQLITE_OK)
        stop(text);
    return made;
}

static void step(sqlite3_stmt *one)
{
    if (sqlite3_step(one) != SQLITE_DONE)
        stop(sqlite3_errmsg(base));
    sqlite3_reset(one);
}

static void open_there(const char *path)
{
    if (sqlite3_open(path, &base) != SQLITE_OK)
        stop("sqlite3_open");
    sql("PRAGMA page_size=4096; PRAGMA journal_mode=WAL; PRAGMA synchronous=FULL;"
        "CREATE TABLE rows (row INTEGER PRIMARY KEY, charge INTEGER, filling BLOB);"
        "BEGIN; WITH RECURSIVE n(i) AS (SELECT 0 UNION ALL SELECT i + 1 FROM n WHERE i < 4095)"
        "INSERT INTO rows SELECT i, 0, zeroblob(236) FROM n; COMMIT; PRAGMA wal_checkpoint(TRUNCATE);");
    begin = prepared("BEGIN IMMEDIATE");
    add = prepared("UPDATE rows SET charge = charge + 1 WHERE row = ?");
    commit = prepared("COMMIT");
    rollback = prepared("ROLLBACK");
}

static void run_there(const struct transaction *t, uint32_t k)
{
    step(begin);
    for (uint32_t i = 0; i < k; i++) {
        sqlite3_bind_int(add, 1, (int)t->rows[i]);
        step(add);
    }
    step(t->aborts ? rollback : commit);
}

static uint64_t sum_there(void)
{
    sqlite3_stmt *all = prepared("SELECT sum(charge) FROM rows");
    uint64_t sum = sqlite3_step(all) == SQLITE_ROW ? (uint64_t)sqlite3_column_int64(all, 0) : 0;
    sqlite3_finalize(all);
    return sum;
}

static void close_there(void)
{
    sqlite3_finalize(begin);
    sqlite3_finalize(add);
    sqlite3_finalize(commit);
    sqlite3_finalize(rollback);
    sqlite3_close(base);
}
#endif

/* ---- The table. */

struct costs {
    struct counts counts;
    double seconds;
};

static void remove_files(const char *path)
{
    static const char *const ends[] = {"", ".journal", ".new", ".journal.new", ".sqlite", ".sqlite-wal", ".sqlite-shm"};
    char name[4200];
    for (size_t i = 0; i < sizeof ends / sizeof *ends; i++) {
        snprintf(name, sizeof name, "%s%s", path, ends[i]);
        unlink(name);
    }
}

/* Runs a slice, and answers how long it took. */
static double measure(struct costs *costs, void (*run)(const struct transaction *, uint32_t), const struct transaction *all,
    uint32_t count, uint32_t k)
{
    counting = &costs->counts;
    double began = now();
    for (uint32_t i = 0; i < count; i++)
        run(&all[i], k);
    double took = now() - began;
    costs->seconds += took;
    counting = NULL;
    return took;
}

#ifdef WITH_SQLITE
static int by_size(const void *one, const void *other)
{
    double a = *(const double *)one, b = *(const double *)other;
    return (a > b) - (a < b);
}

/* SQLite's time over this store's, slice by slice. */
static void print_ratio(uint32_t k, const struct costs *here, const struct costs *there, double *ratios, uint32_t count)
{
    qsort(ratios, count, sizeof *ratios, by_size);
    printf("| %" PRIu32 " | ratio | **%.2f** (%.2f to %.2f) | %.2f | %.3f |\n", k, ratios[count / 2], ratios[count / 4],
        ratios[count - 1 - count / 4], (double)here->counts.syncs / (double)there->counts.syncs,
        (double)here->counts.bytes / (double)there->counts.bytes);
}
#endif

static void print_row(const char *name, uint32_t k, const struct costs *c, uint32_t commits)
{
    printf("| %" PRIu32 " | %s | %.0f | %.3f | %.0f |\n", k, name, commits / c->seconds, (double)c->counts.syncs / commits,
        (double)c->counts.bytes / commits);
}

static void measure_k(const char *path, uint32_t k, uint32_t count)
{
    struct transaction *all = calloc(count, sizeof *all);
    struct costs here = {0};
    uint32_t commits = 0;
    if (!all)
        stop("memory");
    make_transactions(all, count, k);
    for (uint32_t i = 0; i < count; i++)
        commits += !all[i].aborts;
    remove_files(path);
    page_writes = 0;
    if (!filestore_create(&store, path, sizes, NULL))
        stop("create");
#ifdef WITH_SQLITE
    struct costs there = {0};
    double *ratios = calloc(count / SLICE + 1, sizeof *ratios);
    uint32_t slices = 0;
    char other[4200];
    snprintf(other, sizeof other, "%s.sqlite", path);
    open_there(other);
#endif
    for (uint32_t i = 0; i < count; i += SLICE) {
        uint32_t some = count - i < SLICE ? count - i : SLICE;
        double took = measure(&here, run_here, all + i, some, k);
#ifdef WITH_SQLITE
        ratios[slices++] = measure(&there, run_there, all + i, some, k) / took;
#else
        (void)took;
#endif
        fprintf(stderr, "  ... k = %" PRIu32 ": %" PRIu32 " of %" PRIu32 "\r", k, i + some, count);
    }
    if (sum_here() != (uint64_t)k * commits)
        stop("an add is missing, or counted twice");
    print_row("this store", k, &here, commits);
#ifdef WITH_SQLITE
    if (!ratios || sum_there() != (uint64_t)k * commits)
        stop("an add is missing in SQLite, or counted twice");
    print_row("SQLite", k, &there, commits);
    print_ratio(k, &here, &there, ratios, slices);
    close_there();
    free(ratios);
#endif
    fprintf(stderr, "  k = %" PRIu32 ": %.0f page writes for 1,000 commits%s\n", k, (double)page_writes * 1000 / commits,
        count == 10000 ? ", which the table of the flash must say too" : "");
    filestore_drop(&store);
    remove_files(path);
    free(all);
}

/* How long a sync of one changed block takes. */
static double sync_speed(const char *path)
{
    static uint8_t block[4096];
    enum { TIMES = 300 };
    int file = open(path, O_RDWR | O_CREAT | O_TRUNC, 0666);
    bool good = file >= 0;
    for (int i = 0; i < 64; i++)
        good = good && pwrite(file, block, sizeof block, 4096 * i) == (ssize_t)sizeof block;
    good = good && fsync(file) == 0;
    double began = now();
    for (int i = 0; i < TIMES; i++) {
        block[0]++;
        good = good && pwrite(file, block, 64, 64 * i) == 64 && fdatasync(file) == 0;
    }
    double took = now() - began;
    close(file);
    unlink(path);
    if (!good)
        stop("a sync");
    return 1e6 * took / TIMES;
}

int main(int words_count, char **words)
{
    if (words_count < 2)
        stop("no folder was named");
    char path[4096];
    uint32_t count = words_count > 2 ? (uint32_t)strtoul(words[2], NULL, 0) : 2000;
    snprintf(path, sizeof path, "%s/ledger", words[1]);
    double before = sync_speed(path);
    printf("| k | | Commits a second | Syncs a commit | Bytes a commit |\n|---|---|---|---|---|\n");
    measure_k(path, 1, count);
    measure_k(path, 4, count);
    measure_k(path, 16, count);
    printf("\n%" PRIu32 " transactions for each k. A sync of one changed block took %.0f µs before the run, %.0f after it.", count,
        before, sync_speed(path));
#ifdef WITH_SQLITE
    printf(" SQLite %s.\n", sqlite3_libversion());
#else
    printf(" SQLite is not installed here, so it stands in no row.\n");
#endif
    return 0;
}
