/* The worked port of examples/flashport.c, cut at every operation of its flash.
 *
 * A life of many calls is lived once without a cut; the durable bytes after each whole write are kept. Then it is lived
 * again for every operation of the flash, and the power goes inside that one: before it, in its middle, after its last
 * byte. What the port loads then must be, byte for byte, what the last finished write left, or the one that was cut;
 * and the life goes on from there. Slots can be written only where they are erased, as on flash.
 */
#include <stdio.h>
#include <stdlib.h>
#include <string.h>

#include "flashport.h"

enum { SLOTS = 10, SLOT = 600, STEPS = 70 };
static const ventarico_sizes sizes = {512, 4, 2, 6, 12};
VENTARICO_STORE_STATIC(areas, 512, 4, 2, 6, 12);

/* ---- The flash. */

static uint8_t cells[SLOTS][SLOT];
static long operations, cut_at; /* the power goes inside operation number cut_at; -1: never */
static int manner;              /* how much of the cut operation is done: 0 nothing, 1 a part, 2 all of it */
static bool dead;
static uint64_t chance;

static uint32_t below(uint32_t end)
{
    chance = chance * 6364136223846793005u + 1442695040888963407u;
    return (uint32_t)((chance >> 33) % end);
}

static void stop(const char *what)
{
    printf("tests/flash FAILED: cut in operation %ld, manner %d: %s. Next: look at examples/flashport.c there\n",
        cut_at, manner, what);
    exit(1);
}

/* How many of so many bytes the operation does before the power goes. */
static size_t power(size_t length)
{
    if (dead)
        return 0;
    if (operations++ != cut_at)
        return length;
    dead = true;
    return manner == 0 ? 0 : manner == 1 ? 1 + below((uint32_t)length - 1) : length;
}

static bool erase(void *device, uint32_t slot)
{
    (void)device;
    memset(cells[slot], 0xff, power(SLOT));
    return !dead;
}

static bool write(void *device, uint32_t slot, size_t at, const uint8_t *bytes, size_t length)
{
    (void)device;
    size_t done = power(length);
    for (size_t i = 0; i < done; i++) {
        if (cells[slot][at + i] != 0xff)
            stop("a byte was written that is not erased");
        cells[slot][at + i] = bytes[i];
    }
    return !dead;
}

static bool read(void *device, uint32_t slot, size_t at, uint8_t *bytes, size_t length)
{
    (void)device;
    if (at + length > SLOT)
        stop("a slot is shorter than the port thinks");
    memcpy(bytes, &cells[slot][at], length);
    return true;
}

static const struct flash flash = {erase, write, read, NULL};
static struct flashport port;

/* ---- The durable bytes after each whole write of the life that is not cut. */

enum { MOST = 400 };
static uint8_t *kept[MOST];
static long count;

static uint8_t *durable(void)
{
    const ventarico_area parts[] = {areas.fixed, areas.marks, areas.log, areas.stored};
    uint8_t *all = malloc(ventarico_durable_length(sizes)), *next = all;
    for (int i = 0; all && i < 4; i++)
        memcpy(next, parts[i].bytes, parts[i].length), next += parts[i].length;
    return all ? all : (stop("no memory"), all);
}

static long writes; /* whole writes that came back in this life */

/* After each call that may have written one. `more` are the writes that it was to make. */
static void wrote(long more)
{
    if (dead)
        return;
    writes += more;
    if (cut_at >= 0 || more == 0)
        return;
    if (count == MOST)
        stop("the life is too long for the list");
    kept[count++] = durable();
}

/* ---- A life: the same calls each time. A call that the dead flash refuses ends it. */

static void must(ventarico_reply r, const char *call)
{
    if (dead ? r.code != FLASHPORT_BROKEN : r.code != VENTARICO_DONE)
        stop(call);
}

/* One transaction of up to three updates, committed or not. Full tables are met with a checkpoint. */
static void transact(uint32_t step)
{
    uint32_t number = 1 + step % 32, many = below(4);
    must(ventarico_store_begin(&port.store, number), "begin");
    for (uint32_t i = 0; i < many; i++)
        must(ventarico_store_update(&port.store, number, below(4), 8 * below(64), 8, below(2), below(1000)), "update");
    if (below(4) == 0)
        must(ventarico_store_abort(&port.store, number), "abort");
    else
        must(flashport_commit(&port, number), "commit"), wrote(many > 0);
}

static void checkpoint(uint32_t min_del)
{
    /* As flashport_checkpoint does it, so that each of its writes is kept. */
    if (cut_at >= 0) {
        long before = writes;
        ventarico_reply r = flashport_checkpoint(&port, min_del, UINT32_MAX);
        must(r, "checkpoint");
        if (!dead)
            writes = before + r.writes + r.logs;
        return;
    }
    for (uint32_t page = 0; page < sizes.pages; page++) {
        ventarico_reply r = flashport_compact(&port, page, min_del, UINT32_MAX);
        must(r, "compact"), wrote(r.writes);
    }
    must(flashport_close(&port), "close"), wrote(1);
}

static void live(void)
{
    writes = operations = 0;
    dead = false;
    chance = 5;
    memset(cells, 0x5a, sizeof cells); /* flash that nobody has written holds anything */
    port = (struct flashport){.store = areas, .flash = &flash};
    if (flashport_open(&port))
        stop("a store was found where there is none");
    must(flashport_format(&port, 7), "format"), wrote(1);
    for (uint32_t step = 0; step < STEPS && !dead; step++) {
        if (ventarico_store_online(&areas) > 3 || ventarico_store_logged(&areas) > 8)
            checkpoint(1);
        else if (step % 9 == 4)
            checkpoint(2);
        else if (step % 9 == 7) {
            ventarico_reply r = flashport_compact(&port, below(4), 1, 0);
            must(r, "compact"), wrote(r.writes);
        } else if (step == 33)
            must(flashport_format(&port, 3), "format"), wrote(1);
        if (!dead)
            transact(step);
    }
}

/* The power comes back: noise in the lost areas, and in the durable ones too, which are only memory here. */
static bool reopen(void)
{
    const ventarico_area all[] = {
        areas.fixed, areas.marks, areas.log, areas.stored, areas.tables, areas.online, areas.pool};
    for (int i = 0; i < 7; i++)
        memset(all[i].bytes, 0xa5 ^ i, all[i].length);
    dead = false;
    port = (struct flashport){.store = areas, .flash = &flash};
    return flashport_open(&port);
}

static bool is_kept(long i)
{
    uint8_t *now = durable();
    bool same = i >= 1 && i <= count && memcmp(now, kept[i - 1], ventarico_durable_length(sizes)) == 0;
    free(now);
    return same;
}

/* What is in memory now is what comes back. */
static void comes_back(const char *otherwise)
{
    uint8_t *then = durable();
    bool back = reopen();
    uint8_t *now = durable();
    if (!back || memcmp(then, now, ventarico_durable_length(sizes)) != 0)
        stop(otherwise);
    free(then);
    free(now);
}

int main(void)
{
    if (flashport_slots(sizes) != SLOTS || flashport_slot_length(sizes) > SLOT)
        stop("other slots");
    cut_at = -1;
    live();
    long all = operations, cuts = 0, as_before = 0, as_after = 0;
    if (!reopen() || !is_kept(count))
        stop("without a cut the store did not come back");
    /* The newest slot of a page goes bad: its older one is not taken for it. */
    for (uint32_t page = 0; page < sizes.pages; page++) {
        uint8_t *a = cells[2 + 2 * page], *b = cells[3 + 2 * page], good;
        uint8_t *last = ventarico_four_bytes(a + 4) > ventarico_four_bytes(b + 4) ? a : b;
        good = last[100];
        last[100] ^= 1;
        if (reopen())
            stop("a page that has gone bad was not found");
        last[100] = good;
    }
    if (!reopen() || !is_kept(count))
        stop("the pages made good did not come back");
    /* Both heads go bad: there is no store. A new one stands over the pages, and none of their old stamps counts. */
    memset(cells[0], 0, SLOT);
    memset(cells[1], 0, SLOT);
    if (reopen())
        stop("a store was found without a head");
    for (int formats = 0; formats < 3; formats++) {
        must(flashport_format(&port, 0), "format over lost heads");
        comes_back("the new store over lost heads did not come back");
    }
    for (cut_at = 0; cut_at < all; cut_at++)
        for (manner = 0; manner < 3; manner++, cuts++) {
            live();
            if (!dead)
                stop("the life was not the same");
            long finished = writes;
            bool found = reopen();
            if (finished == 0 && !found) {
                as_before++; /* cut inside the first format: there is no store yet */
                continue;
            }
            if (!found)
                stop("the store is gone");
            bool before = is_kept(finished), after = is_kept(finished + 1);
            if (!before && !after) {
                /* A checkpoint makes several writes: it may have been cut after any of them. */
                for (long more = 2; more <= (long)sizes.pages + 1 && !after; more++)
                    after = is_kept(finished + more);
                if (!after)
                    stop("the durable bytes are those of no whole write");
            }
            before ? as_before++ : as_after++;
            /* Life goes on, and is kept. */
            operations = cut_at + 1;
            must(flashport_checkpoint(&port, 1, 0), "checkpoint after the cut");
            must(ventarico_store_begin(&port.store, 1), "begin after the cut");
            must(ventarico_store_update(&port.store, 1, 1, 0, 4, VENTARICO_ADD, 9), "update after the cut");
            must(flashport_commit(&port, 1), "commit after the cut");
            comes_back("what was saved after the cut did not come back");
        }
    if (as_before == 0 || as_after == 0)
        stop("no cut of one of the two kinds");
    printf("%ld whole writes in %ld operations of the flash; %ld cuts: %ld as before the write, %ld as after it\n",
        count, all, cuts, as_before, as_after);
    return 0;
}
