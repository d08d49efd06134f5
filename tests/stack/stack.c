/* How much stack each call takes, on the largest store: every call runs on a painted stack of its own, and the deepest
 * byte that was written is looked up afterwards. No call needs more than 16 KiB of it.
 */
#include <stdint.h>
#include <stdio.h>
#include <stdlib.h>
#include <string.h>
#include <ucontext.h>

#include "ventarico.h"
#include "ventarico_journal.h"
#include "ventarico_wal.h"

enum { SIZE = 4096, PAGES = 1024, FRAMES = 64, ONLINE = 512, LOG = 2048, LIMIT = 16 * 1024, STACK = 256 * 1024, PAINT = 0xA5 };

static uint8_t fixed[20], marks[12 + 8 * PAGES], log_rows[14 * LOG], stored[(size_t)SIZE * PAGES];
static uint8_t tables[35 + FRAMES + PAGES], online[19 * ONLINE], pool[(size_t)SIZE * FRAMES], buffer[SIZE];
#define AREA(a) a, sizeof a
#define STORE AREA(fixed), AREA(marks), AREA(log_rows), AREA(stored), AREA(tables), AREA(online), AREA(pool)

static uint8_t target[65536 + 32 + (size_t)PAGES * (SIZE + 24)]; /* a journal, or a log, of every page */
static uint32_t list[PAGES];
static uint8_t stack[STACK];
static ucontext_t home, away;
static ventarico_reply reply;
static unsigned page;

static void do_format(void) { reply = ventarico_format(STORE, SIZE, PAGES, FRAMES, ONLINE, LOG, 0); }
static void do_begin(void) { reply = ventarico_begin(STORE, 1); }
static void do_update(void) { reply = ventarico_update(STORE, 1, page, 8 * (page % 500), 8, VENTARICO_ADD, 1); }
static void do_read(void) { reply = ventarico_read(STORE, AREA(buffer), 1, page, 0, SIZE); }
static void do_commit(void) { reply = ventarico_commit(STORE, 1); }
static void do_abort(void) { reply = ventarico_abort(STORE, 1); }
static void do_evict(void) { reply = ventarico_evict(STORE, page); }
static void do_compact(void) { reply = ventarico_compact(STORE, page, 1, 0); }
static void do_close(void) { reply = ventarico_close(STORE); }
static void do_checkpoint(void) { reply = ventarico_checkpoint(STORE, 1, 0); }
static void do_restart(void) { reply = ventarico_restart(STORE); }

static void do_log(void) { reply = ventarico_wal_write(STORE, list, PAGES, AREA(target), 1, 2, 3, VENTARICO_WAL_LOWEST_FIRST); }
static void do_judge(void) { reply.code = ventarico_wal_judge(AREA(target)).code; }
static void do_find(void) { reply.code = ventarico_wal_find(AREA(target), PAGES).code; }
static void do_keep(void) { reply.code = ventarico_journal_write(AREA(stored), list, PAGES, AREA(target), SIZE, 7, 65536).code; }
static void do_play(void) { reply.code = ventarico_journal_play(AREA(target), AREA(stored), SIZE).code; }

static int failed, passed;

/* Runs one call on the painted stack; says how deep it went. */
static size_t depth_of(void (*call)(void)) {
    memset(stack, PAINT, sizeof stack);
    getcontext(&away);
    away.uc_stack.ss_sp = stack;
    away.uc_stack.ss_size = sizeof stack;
    away.uc_link = &home;
    makecontext(&away, call, 0);
    swapcontext(&home, &away);
    size_t low = 0;
    while (low < sizeof stack && stack[low] == PAINT) low++;
    return sizeof stack - low;
}

static void show(const char *name, void (*call)(void)) {
    size_t depth = depth_of(call);
    int good = reply.code == VENTARICO_DONE && depth <= LIMIT;
    printf("%-13s code %u, %6zu bytes of stack%s\n", name, (unsigned)reply.code, depth, good ? "" : "   <-- not done, or too deep");
    good ? passed++ : failed++;
}

/* Nearly full tables of one transaction, every frame in use. */
static int fill(void) {
    for (unsigned i = 0; i < ONLINE - 2; i++) {
        page = 2 * i;
        do_update();
        if (reply.code != VENTARICO_DONE) return printf("update %u answered %u\n0 passed, 1 failed\n", i, (unsigned)reply.code), 1;
    }
    return 0;
}

int main(void) {
    show("format", do_format);
    show("begin", do_begin);
    if (fill()) return 1;
    show("abort", do_abort); /* of nearly all rows */
    show("begin", do_begin);
    if (fill()) return 1;
    page = 0;
    show("read", do_read); /* an evicted page */
    page = 1;
    show("update", do_update);
    show("read", do_read);
    show("evict", do_evict);
    show("commit", do_commit);
    show("begin", do_begin);
    page = 3;
    show("update", do_update);
    show("abort", do_abort);
    show("restart", do_restart);
    page = 2;
    show("compact", do_compact); /* an evicted page */
    show("begin", do_begin);
    page = 4;
    show("update", do_update);
    show("compact", do_compact); /* some uncommitted */
    page = 6;
    show("read", do_read);
    show("compact", do_compact); /* from its frame */
    show("close", do_close);
    show("checkpoint", do_checkpoint);
    for (unsigned i = 0; i < PAGES; i++) list[i] = i;
    show("wal_write", do_log);
    show("wal_judge", do_judge);
    show("wal_find", do_find);
    show("journal_write", do_keep);
    show("journal_play", do_play);
    printf("%d passed, %d failed\n", passed, failed);
    return failed != 0;
}
