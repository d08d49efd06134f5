/* The clerk's functions, over a struct that the caller lends. */
#include <string.h>

#include "store.h"
#include "topics.h"

/* A clerk between guards, and what it should be. */
struct desk {
    uint8_t before[64];
    struct ventarico_clerk clerk;
    uint8_t after[64];
    struct ventarico_clerk want;
};

static struct desk desk_of(uint32_t last)
{
    struct desk d = {.clerk = {.last = last}, .want = {.last = last}};
    memset(d.before, 0x5a, sizeof d.before);
    memset(d.after, 0x5a, sizeof d.after);
    return d;
}

static bool guards_hold(const struct desk *d)
{
    for (size_t i = 0; i < sizeof d->before; i++)
        if (d->before[i] != 0x5a || d->after[i] != 0x5a)
            return false;
    return true;
}

static void judge(const char *file, int line, struct desk *d, uint8_t got, uint8_t right)
{
    same_at(file, line, "code", got, right);
    check_at(file, line, memcmp(d->clerk.live, d->want.live, 32) == 0, "the live numbers are not as they should be");
    same_at(file, line, "the last number", d->clerk.last, d->want.last);
    check_at(file, line, guards_hold(d), "wrote beside the clerk");
    d->clerk = d->want;
}

#define CLERK_BEGIN(d, right, number) \
    judge(__FILE__, __LINE__, d, ventarico_clerk_begin(&(d)->clerk, number), right)
#define CLERK_ABORT(d, right, number) \
    judge(__FILE__, __LINE__, d, ventarico_clerk_abort(&(d)->clerk, number), right)
#define CLERK_COMMIT(d, right, number, records) \
    judge(__FILE__, __LINE__, d, ventarico_clerk_commit(&(d)->clerk, number, records), right)

static const uint32_t no_numbers[] = {0, 33, END, 256 + 1};

static void bad_numbers_are_refused(void)
{
    story("clerk: bad numbers are refused");
    struct desk d = desk_of(7);
    for (size_t i = 0; i < sizeof no_numbers / sizeof *no_numbers; i++) {
        CLERK_BEGIN(&d, 2, no_numbers[i]);
        CLERK_ABORT(&d, 2, no_numbers[i]);
        CLERK_COMMIT(&d, 2, no_numbers[i], END);
    }
}

static void each_number_begins_once_and_ends(void)
{
    story("clerk: each number begins once, and ends");
    struct desk d = desk_of(7);
    for (uint32_t number = 1; number <= 32; number++) {
        CLERK_ABORT(&d, 4, number);
        CLERK_COMMIT(&d, 4, number, END);
        d.want.live[number - 1] = 1;
        CLERK_BEGIN(&d, 0, number);
        CLERK_BEGIN(&d, 5, number);
    }
    for (uint32_t number = 32; number >= 1; number--) {
        d.want.live[number - 1] = 0;
        CLERK_ABORT(&d, 0, number);
        d.want.live[number - 1] = 1;
        CLERK_BEGIN(&d, 0, number);
        d.want.live[number - 1] = 0;
        d.want.last += number;
        CLERK_COMMIT(&d, 0, number, number);
    }
}

static void the_last_number_is_given_and_no_more(void)
{
    story("clerk: the last number is given, and no more");
    struct desk d = desk_of(END - 2);
    d.want.live[0] = 1;
    CLERK_BEGIN(&d, 0, 1);
    CLERK_COMMIT(&d, 9, 1, 3);
    CLERK_COMMIT(&d, 9, 1, END);
    d.want.live[0] = 0;
    d.want.last = END;
    CLERK_COMMIT(&d, 0, 1, 2);
    d.want.live[31] = 1;
    CLERK_BEGIN(&d, 0, 32);
    CLERK_COMMIT(&d, 9, 32, 1);
    d.want.live[31] = 0;
    CLERK_COMMIT(&d, 0, 32, 0);
}

/* Records up to the last of 32 bits, on both sides of the highest bit. */
static void any_number_of_records_is_counted(void)
{
    static const uint32_t ends[] = {0, 1, 255, 256, 65535, 65536, END / 2, END / 2 + 1, END - 1, END};
    for (size_t i = 0; i < sizeof ends / sizeof *ends; i++)
        for (size_t j = 0; j < sizeof ends / sizeof *ends; j++) {
            story("clerk: %u records after number %u", (unsigned)ends[j], (unsigned)ends[i]);
            struct desk d = desk_of(ends[i]);
            d.want.live[16] = 1;
            CLERK_BEGIN(&d, 0, 17);
            if ((uint64_t)ends[i] + ends[j] <= END) {
                d.want.live[16] = 0;
                d.want.last = ends[i] + ends[j];
                CLERK_COMMIT(&d, 0, 17, ends[j]);
            } else {
                CLERK_COMMIT(&d, 9, 17, ends[j]);
            }
        }
}

/* The header: with any values, and live where the byte is 1. */
static void a_byte_other_than_1_is_not_live(void)
{
    static const uint8_t others[] = {0, 2, 3, 128, 255};
    for (size_t i = 0; i < sizeof others; i++) {
        story("clerk: a live byte of %u", others[i]);
        struct desk d = desk_of(7);
        d.clerk.live[8] = d.want.live[8] = others[i];
        CLERK_ABORT(&d, 4, 9);
        CLERK_COMMIT(&d, 4, 9, 1);
        d.want.live[8] = 1;
        CLERK_BEGIN(&d, 0, 9);
        CLERK_BEGIN(&d, 5, 9);
    }
}

void clerk(void)
{
    bad_numbers_are_refused();
    each_number_begins_once_and_ends();
    the_last_number_is_given_and_no_more();
    any_number_of_records_is_counted();
    a_byte_other_than_1_is_not_live();
}
