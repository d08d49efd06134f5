/* A worked port to flash without files: the smallest that is right. docs/PORTING.md has its argument.
 *
 * All seven areas are in memory. On the flash stand pairs of slots, a slot being one or more erase blocks: pair 0 holds
 * the head (fixed, marks and log), pair 1 + p holds page p with its stamp. A save writes the slot of its pair that is
 * not the newest, with the next generation and a checksum. So a save that is cut leaves a slot that does not count, and
 * the other one as it was; a save that is finished is the newest from its last byte on. Each durable write of the store
 * is one save.
 */
#ifndef FLASHPORT_H
#define FLASHPORT_H

#include <stdbool.h>

#include "ventarico_store.h"

/* The driver. What it promises: an erase or a write that is cut leaves any bytes in that slot, and every other slot as
 * it was; one that came back true stays. Slots are numbered from 0 to flashport_slots(sizes) - 1. */
struct flash {
    bool (*erase)(void *device, uint32_t slot);
    bool (*write)(void *device, uint32_t slot, size_t at, const uint8_t *bytes, size_t length);
    bool (*read)(void *device, uint32_t slot, size_t at, uint8_t *bytes, size_t length);
    void *device;
};

/* The caller fills in the first two. Begin, read, update, abort and evict change nothing durable, and go straight to
 * the store: ventarico_store_begin(&port.store, 1). */
struct flashport {
    ventarico_store store;
    const struct flash *flash;
    uint32_t epoch; /* counts formats: a stamp of an earlier one does not count */
    bool broken;
};

/* Beside the store's codes: the flash was not written, so memory and flash may differ. Open again. */
enum { FLASHPORT_BROKEN = 100 };

/* How many slots a store needs, and how long the longest of them is. */
uint32_t flashport_slots(ventarico_sizes sizes);
size_t flashport_slot_length(ventarico_sizes sizes);

/* Loads the store that is on the flash and restarts it. Nothing is written. False: there is no store of these sizes, or
 * a page of it has gone bad. */
bool flashport_open(struct flashport *p);
/* A new store over the pages that are on the flash; a page that was never written is zero. */
ventarico_reply flashport_format(struct flashport *p, uint32_t last);

/* The calls that change the durable part: an accepted one is on the flash when it comes back. */
ventarico_reply flashport_commit(struct flashport *p, uint32_t number);
ventarico_reply flashport_compact(struct flashport *p, uint32_t page, uint32_t min_del, uint32_t max_age);
ventarico_reply flashport_close(struct flashport *p);
ventarico_reply flashport_checkpoint(struct flashport *p, uint32_t min_del, uint32_t max_age);

#endif
