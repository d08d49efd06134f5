/* The rollback journal's functions: the example of SQLite's layout by its bytes, and each refusal. host/ has the rest. */
#include <string.h>

#include "store.h"
#include "topics.h"
#include "ventarico_journal.h"

/* Page size 512, sector 32, nonce fffffff0, one page with byte j = j mod 256: the header, the record's head and its sum. */
static const uint8_t head[36] = {0xd9, 0xd5, 0x05, 0xf9, 0x20, 0xa1, 0x63, 0xd7, 0, 0, 0, 1, 0xff, 0xff, 0xff, 0xf0,
    0, 0, 0, 1, 0, 0, 0, 0x20, 0, 0, 2, 0, 0, 0, 0, 0, 0, 0, 0, 1};
static const uint8_t sum[4] = {0, 0, 0, 0x98};

struct books {
    uint8_t page[512], journal[552];
};

static struct books example(void)
{
    struct books b;
    for (int j = 0; j < 512; j++)
        b.page[j] = (uint8_t)j;
    memcpy(b.journal, head, 36);
    memcpy(b.journal + 36, b.page, 512);
    memcpy(b.journal + 548, sum, 4);
    return b;
}

static void answers(int line, ventarico_journal_reply got, uint32_t code, uint32_t ended, uint32_t records)
{
    same_at(__FILE__, line, "code", got.code, code);
    same_at(__FILE__, line, "why it ended", got.ended, ended);
    same_at(__FILE__, line, "records", got.records, records);
}
#define ANSWERS(got, code, ended, records) answers(__LINE__, got, code, ended, records)

static void the_example_is_written_and_played_back(void)
{
    story("journal: the layout's example, written and played back");
    struct books b = example();
    uint8_t target[600], page[512] = {0};
    uint32_t list[] = {0};
    memset(target, 0xee, sizeof target);
    ANSWERS(ventarico_journal_write(b.page, 512, list, 1, target, 600, 512, 0xfffffff0u, 32), VENTARICO_DONE, 0, 1);
    check_at(__FILE__, __LINE__, memcmp(target, b.journal, 552) == 0, "other bytes than those of the layout");
    for (int i = 552; i < 600; i++)
        same_at(__FILE__, __LINE__, "a byte past the end", target[i], 0xee);
    ANSWERS(ventarico_journal_play(b.journal, 552, page, 512, 512), VENTARICO_DONE, 0, 1);
    check_at(__FILE__, __LINE__, memcmp(page, b.page, 512) == 0, "another page was brought back");
}

static void records_end(void)
{
    story("journal: cut short, a wrong checksum, all ones");
    struct books b = example();
    uint8_t page[512] = {0}, zeros[512] = {0};
    ANSWERS(ventarico_journal_play(b.journal, 551, page, 512, 512), 0, 1, 0);
    b.journal[551]++;
    ANSWERS(ventarico_journal_play(b.journal, 552, page, 512, 512), 0, 2, 0);
    check_at(__FILE__, __LINE__, memcmp(page, zeros, 512) == 0, "a page was changed");
    b = example();
    memset(b.journal + 8, 0xff, 4);
    ANSWERS(ventarico_journal_play(b.journal, 551, page, 512, 512), 0, 0, 0);
    ANSWERS(ventarico_journal_play(b.journal, 552, page, 512, 512), 0, 0, 1);
}

static void refusals_of_playing(void)
{
    story("journal: what playing refuses");
    struct books b = example();
    uint8_t page[512] = {0}, zeros[512] = {0};
    ANSWERS(ventarico_journal_play(b.journal, 552, page, 512, 511), VENTARICO_JOURNAL_BAD_PARAMETER, 0, 0);
    ANSWERS(ventarico_journal_play(b.journal, 552, page, 511, 512), VENTARICO_JOURNAL_BAD_LENGTH, 0, 0);
    ANSWERS(ventarico_journal_play(b.journal, 552, NULL, 0, 512), VENTARICO_JOURNAL_BAD_LENGTH, 0, 0);
    ANSWERS(ventarico_journal_play(b.journal, 27, page, 512, 512), VENTARICO_JOURNAL_BAD_HEADER, 0, 0);
    ANSWERS(ventarico_journal_play(NULL, 0, page, 512, 512), VENTARICO_JOURNAL_BAD_HEADER, 0, 0);
    b.journal[35] = 2; /* page 2 of 1 */
    ANSWERS(ventarico_journal_play(b.journal, 552, page, 512, 512), VENTARICO_JOURNAL_WRONG_PAGE, 0, 0);
    b.journal[35] = 0;
    ANSWERS(ventarico_journal_play(b.journal, 552, page, 512, 512), VENTARICO_JOURNAL_WRONG_PAGE, 0, 0);
    check_at(__FILE__, __LINE__, memcmp(page, zeros, 512) == 0, "a page was changed");
}

static void refusals_of_writing(void)
{
    story("journal: what writing refuses");
    struct books b = example();
    uint8_t target[552], before[552];
    uint32_t one[] = {1}, none[] = {0};
    memset(target, 0xee, sizeof target);
    memcpy(before, target, sizeof target);
    ANSWERS(ventarico_journal_write(b.page, 512, one, 1, target, 552, 512, 0, 32), VENTARICO_JOURNAL_BAD_PAGE, 0, 0);
    ANSWERS(ventarico_journal_write(b.page, 512, none, 1, target, 552, 512, 0, 33), VENTARICO_JOURNAL_BAD_PARAMETER, 0, 0);
    ANSWERS(ventarico_journal_write(b.page, 512, none, 1, target, 552, 511, 0, 32), VENTARICO_JOURNAL_BAD_PARAMETER, 0, 0);
    ANSWERS(ventarico_journal_write(b.page, 511, NULL, 0, target, 552, 512, 0, 32), VENTARICO_JOURNAL_BAD_LENGTH, 0, 0);
    ANSWERS(ventarico_journal_write(b.page, 512, none, 1, target, 551, 512, 0, 32), VENTARICO_JOURNAL_SHORT_TARGET, 0, 0);
    ANSWERS(ventarico_journal_write(b.page, 512, NULL, 0, target, 32, 512, 0, 32), VENTARICO_JOURNAL_EMPTY_LIST, 0, 0);
    check_at(__FILE__, __LINE__, memcmp(target, before, sizeof target) == 0, "the target was changed");
}

void journal(void)
{
    the_example_is_written_and_played_back();
    records_end();
    refusals_of_playing();
    refusals_of_writing();
}
