/* SQLite's write-ahead log in plain C: the same work as ventarico_wal_write and ventarico_wal_judge, for their speed alone
 * (host/bench wal). It trusts the store: the bench has the tables checked before, as the library does at each call. Nothing else
 * uses it. */
#include <stddef.h>
#include <stdint.h>
#include <string.h>

typedef struct {
    uint32_t code;
    uint64_t frames, end;
} plain_judged;

static uint32_t get(const uint8_t *at)
{
    return (uint32_t)at[0] << 24 | (uint32_t)at[1] << 16 | (uint32_t)at[2] << 8 | at[3];
}

static uint32_t get_low(const uint8_t *at)
{
    return (uint32_t)at[3] << 24 | (uint32_t)at[2] << 16 | (uint32_t)at[1] << 8 | at[0];
}

static void put(uint8_t *at, uint32_t value)
{
    at[0] = (uint8_t)(value >> 24);
    at[1] = (uint8_t)(value >> 16);
    at[2] = (uint8_t)(value >> 8);
    at[3] = (uint8_t)value;
}

static void sum(uint32_t sums[2], const uint8_t *bytes, size_t length, uint32_t order)
{
    uint32_t s0 = sums[0], s1 = sums[1];
    if (order == 0)
        for (size_t i = 0; i < length; i += 8) {
            s0 += get_low(bytes + i) + s1;
            s1 += get_low(bytes + i + 4) + s0;
        }
    else
        for (size_t i = 0; i < length; i += 8) {
            s0 += get(bytes + i) + s1;
            s1 += get(bytes + i + 4) + s0;
        }
    sums[0] = s0;
    sums[1] = s1;
}

static void apply(const uint8_t *row, uint8_t *page)
{
    uint8_t *at = page + (row[2] | row[3] << 8);
    unsigned carry = 0;
    for (unsigned i = 0; i < row[4]; i++) {
        carry += row[6 + i] + (row[5] == 1 ? at[i] : 0u);
        at[i] = (uint8_t)carry;
        carry >>= 8;
    }
}

void plain_wal_write(const uint8_t *fixed, const uint8_t *stored, const uint8_t *tables, const uint8_t *online,
    const uint32_t *list, size_t list_len, uint8_t *target, uint32_t salt_1, uint32_t salt_2, uint32_t sequence, uint32_t order)
{
    uint32_t page_size = get_low(fixed), pages = get_low(fixed + 4), rows = tables[0] | (uint32_t)tables[1] << 8;
    uint32_t sums[2] = {0, 0};
    put(target, 0x377f0682 + order);
    put(target + 4, 3007000);
    put(target + 8, page_size);
    put(target + 12, sequence);
    put(target + 16, salt_1);
    put(target + 20, salt_2);
    sum(sums, target, 24, order);
    put(target + 24, sums[0]);
    put(target + 28, sums[1]);
    for (size_t i = 0; i < list_len; i++) {
        uint8_t *frame = target + 32 + i * (24 + (size_t)page_size), *image = frame + 24;
        memcpy(image, stored + (size_t)list[i] * page_size, page_size);
        for (uint32_t r = 0; r < rows; r++) {
            const uint8_t *row = online + 19 * (size_t)r;
            if ((row[0] | (uint32_t)row[1] << 8) == list[i] && row[14] == 0)
                apply(row, image);
        }
        put(frame, list[i] + 1);
        put(frame + 4, i + 1 == list_len ? pages : 0);
        put(frame + 8, salt_1);
        put(frame + 12, salt_2);
        sum(sums, frame, 8, order);
        sum(sums, image, page_size, order);
        put(frame + 16, sums[0]);
        put(frame + 20, sums[1]);
    }
}

plain_judged plain_wal_judge(const uint8_t *file, size_t length)
{
    plain_judged judged = {0, 0, 0};
    uint32_t sums[2] = {0, 0};
    judged.code = 16;
    if (length < 32 || (get(file) & ~1u) != 0x377f0682 || get(file + 4) != 3007000)
        return judged;
    uint32_t order = get(file) & 1, page_size = get(file + 8);
    if (page_size < 512 || page_size > 65536 || (page_size & (page_size - 1)) != 0)
        return judged;
    sum(sums, file, 24, order);
    judged.code = 17;
    if (sums[0] != get(file + 24) || sums[1] != get(file + 28))
        return judged;
    judged.code = 0;
    for (size_t at = 32; length - at >= 24 + (size_t)page_size; at += 24 + (size_t)page_size) {
        const uint8_t *frame = file + at;
        if (get(frame + 8) != get(file + 16) || get(frame + 12) != get(file + 20))
            break;
        sum(sums, frame, 8, order);
        sum(sums, frame + 24, page_size, order);
        if (get(frame + 16) != sums[0] || get(frame + 20) != sums[1])
            break;
        judged.frames++;
        if (get(frame + 4) != 0)
            judged.end = at + 24 + page_size;
    }
    return judged;
}
