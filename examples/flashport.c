#include "flashport.h"

#include <string.h>

/* A slot, numbers lowest byte first: 0 the word below, 4 generation, 8 epoch, 12 stamp (of a page; 0 in a head), 16
 * checksum (CRC-32) of bytes 0 to 15 and of what follows, 20 the content. */
enum { SLOT_HEAD = 20, WORD = 0x31464c56, HEAD = 0 };

static void put32(uint8_t *at, uint32_t number)
{
    for (int i = 0; i < 4; i++)
        at[i] = (uint8_t)(number >> 8 * i);
}

static uint32_t crc32(uint32_t crc, const uint8_t *bytes, size_t length)
{
    crc = ~crc;
    for (size_t i = 0; i < length; i++) {
        crc ^= bytes[i];
        for (int bit = 0; bit < 8; bit++)
            crc = crc >> 1 ^ (crc & 1 ? 0xedb88320u : 0);
    }
    return ~crc;
}

uint32_t flashport_slots(ventarico_sizes sizes)
{
    return 2 * (1 + sizes.pages);
}

size_t flashport_slot_length(ventarico_sizes sizes)
{
    size_t head = VENTARICO_FIXED_LENGTH + VENTARICO_MARKS_LENGTH(sizes.pages) + VENTARICO_LOG_LENGTH(sizes.log_size);
    return SLOT_HEAD + (head > sizes.page_size ? head : sizes.page_size);
}

/* What a pair holds, as parts of the areas: the head is three of them, a page one. */
static int parts_of(const struct flashport *p, uint32_t pair, ventarico_area parts[3])
{
    const ventarico_store *s = &p->store;
    if (pair != HEAD) {
        parts[0].bytes = s->stored.bytes + VENTARICO_PAGE_AT(s->sizes.page_size, pair - 1);
        parts[0].length = s->sizes.page_size;
        return 1;
    }
    parts[0] = s->fixed;
    parts[1] = s->marks;
    parts[2] = s->log;
    return 3;
}

struct found {
    bool valid;
    uint32_t slot, generation, epoch, stamp;
};

/* The slot's head, and whether its checksum is right. Memory is not touched. */
static struct found look(const struct flashport *p, uint32_t slot)
{
    const struct flash *f = p->flash;
    struct found found = {.slot = slot};
    uint8_t head[SLOT_HEAD], some[64];
    ventarico_area parts[3];
    if (!f->read(f->device, slot, 0, head, SLOT_HEAD) || ventarico_four_bytes(head) != WORD)
        return found;
    uint32_t crc = crc32(0, head, 16);
    size_t at = SLOT_HEAD, end = SLOT_HEAD;
    for (int i = 0, count = parts_of(p, slot / 2, parts); i < count; i++)
        end += parts[i].length;
    for (size_t length; at < end; at += length) {
        length = end - at < sizeof some ? end - at : sizeof some;
        if (!f->read(f->device, slot, at, some, length))
            return found;
        crc = crc32(crc, some, length);
    }
    found.valid = crc == ventarico_four_bytes(head + 16);
    found.generation = ventarico_four_bytes(head + 4);
    found.epoch = ventarico_four_bytes(head + 8);
    found.stamp = ventarico_four_bytes(head + 12);
    return found;
}

/* The newest slot of the pair that counts. Generations may pass the end of 32 bits. */
static struct found newest(const struct flashport *p, uint32_t pair)
{
    struct found a = look(p, 2 * pair), b = look(p, 2 * pair + 1);
    return !b.valid || (a.valid && (int32_t)(a.generation - b.generation) > 0) ? a : b;
}

/* Writes the pair's parts to the slot that is not the newest. The save counts from its last byte on. */
static bool save(struct flashport *p, uint32_t pair)
{
    const struct flash *f = p->flash;
    struct found last = newest(p, pair);
    uint32_t slot = last.slot ^ 1;
    uint8_t head[SLOT_HEAD];
    ventarico_area parts[3];
    int count = parts_of(p, pair, parts);
    put32(head, WORD);
    put32(head + 4, last.valid ? last.generation + 1 : 0);
    put32(head + 8, p->epoch);
    put32(head + 12, pair == HEAD ? 0 : ventarico_store_stamp(&p->store, pair - 1));
    uint32_t crc = crc32(0, head, 16);
    for (int i = 0; i < count; i++)
        crc = crc32(crc, parts[i].bytes, parts[i].length);
    put32(head + 16, crc);
    bool good = f->erase(f->device, slot) && f->write(f->device, slot, 0, head, SLOT_HEAD);
    size_t at = SLOT_HEAD;
    for (int i = 0; i < count && good; at += parts[i++].length)
        good = f->write(f->device, slot, at, parts[i].bytes, parts[i].length);
    p->broken = !good;
    return good;
}

/* Reads the pair's newest slot into memory. */
static bool load(struct flashport *p, struct found from)
{
    ventarico_area parts[3];
    size_t at = SLOT_HEAD;
    for (int i = 0, count = parts_of(p, from.slot / 2, parts); i < count; at += parts[i++].length)
        if (!p->flash->read(p->flash->device, from.slot, at, parts[i].bytes, parts[i].length))
            return false;
    return true;
}

bool flashport_open(struct flashport *p)
{
    const ventarico_store *s = &p->store;
    struct found head = newest(p, HEAD);
    p->broken = true;
    p->epoch = head.valid ? head.epoch : 0;
    if (head.valid && !load(p, head))
        return false;
    for (uint32_t page = 0; page < s->sizes.pages; page++) {
        struct found slot = newest(p, 1 + page);
        if (!slot.valid)
            memset(s->stored.bytes + VENTARICO_PAGE_AT(s->sizes.page_size, page), 0, s->sizes.page_size);
        else if (!load(p, slot))
            return false;
        /* The head may be older than the page. If a format came between, the head's stamp counts. */
        if (slot.valid && slot.epoch == p->epoch) {
            if (head.valid && slot.stamp < ventarico_store_stamp(s, page))
                return false; /* the head knows a newer one: that slot has gone bad */
            put32(s->marks.bytes + VENTARICO_STAMP_AT(page), slot.stamp);
        }
        /* With no head left, the next format must be none of those that the pages know. */
        if (slot.valid && !head.valid && slot.epoch > p->epoch)
            p->epoch = slot.epoch;
    }
    if (!head.valid || ventarico_store_restart(s).code != VENTARICO_DONE)
        return false;
    p->broken = false;
    return true;
}

static const ventarico_reply broken = {.code = FLASHPORT_BROKEN};

ventarico_reply flashport_format(struct flashport *p, uint32_t last)
{
    flashport_open(p); /* for the pages and the epoch; there need be no store */
    ventarico_reply r = ventarico_store_format(&p->store, last);
    if (r.code != VENTARICO_DONE)
        return r;
    p->epoch++;
    return save(p, HEAD) ? r : broken;
}

ventarico_reply flashport_commit(struct flashport *p, uint32_t number)
{
    ventarico_reply r = p->broken ? broken : ventarico_store_commit(&p->store, number);
    return r.code != VENTARICO_DONE || r.logs == 0 || save(p, HEAD) ? r : broken;
}

ventarico_reply flashport_compact(struct flashport *p, uint32_t page, uint32_t min_del, uint32_t max_age)
{
    ventarico_reply r = p->broken ? broken : ventarico_store_compact(&p->store, page, min_del, max_age);
    return r.code != VENTARICO_DONE || r.writes == 0 || save(p, 1 + page) ? r : broken;
}

ventarico_reply flashport_close(struct flashport *p)
{
    ventarico_reply r = p->broken ? broken : ventarico_store_close(&p->store);
    return r.code != VENTARICO_DONE || save(p, HEAD) ? r : broken;
}

/* Each step is on the flash before the next begins. */
ventarico_reply flashport_checkpoint(struct flashport *p, uint32_t min_del, uint32_t max_age)
{
    ventarico_reply sum = {0};
    for (uint32_t page = 0, pages = p->store.sizes.pages; page <= pages; page++) {
        ventarico_reply r = page < pages ? flashport_compact(p, page, min_del, max_age) : flashport_close(p);
        if (r.code != VENTARICO_DONE)
            return r;
        sum.reads += r.reads;
        sum.writes += r.writes;
        sum.logs += r.logs;
    }
    return sum;
}
