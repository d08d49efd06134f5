/* SQLite's rollback journal, brought back over lent pages and written for them. It knows no store: what it acts on is a
 * set of pages outside any running store. docs/JOURNAL.md has the bytes.
 *
 * The caller's duties are those of ventarico.h: each pointer is valid for its length, and no two lent slices overlap.
 * Whatever is passed, a call ends, does nothing undefined and answers one of the codes below; a refused call has
 * changed no byte.
 */
#ifndef VENTARICO_JOURNAL_H
#define VENTARICO_JOURNAL_H

#include <stddef.h>
#include <stdint.h>

#ifdef __cplusplus
extern "C" {
#endif

/* Codes beside VENTARICO_DONE (0), in the order in which they are judged: playing 26, 27, 29, 30; writing 20, 26, 27, 14, 15. */
enum {
    VENTARICO_JOURNAL_SHORT_TARGET = 14, /* write: the target is too short */
    VENTARICO_JOURNAL_EMPTY_LIST = 15,   /* write: the list is empty */
    VENTARICO_JOURNAL_BAD_PAGE = 20,     /* write: a listed page is not among the lent ones */
    VENTARICO_JOURNAL_BAD_PARAMETER = 26, /* a page size other than 512, 1,024, 2,048, 4,096; write: the sector size */
    VENTARICO_JOURNAL_BAD_LENGTH = 27,   /* the lent pages are not 1 to 1,024 whole ones */
    VENTARICO_JOURNAL_BAD_HEADER = 29,   /* play: under 28 bytes; wrong first bytes, sector size or page size */
    VENTARICO_JOURNAL_WRONG_PAGE = 30    /* play: a record to be restored names page 0, or one beyond the lent set */
};

typedef struct {
    uint32_t code;    /* 0 done, else the refusal; the rest is 0 then */
    uint32_t ended;   /* play: why no further record was restored. 0: all that the header counts (all ones: all whole
                         ones that the file holds); 1: the next one is cut short; 2: its checksum is wrong. Write: 0 */
    uint32_t records; /* records restored, or written; restored ones by remainder of 2 to the 32nd, which only a file of
                         2 terabytes and more can reach */
} ventarico_journal_reply;

/* Plays the first header's records over pages (page 1 of the journal is at byte 0), in their order. */
ventarico_journal_reply ventarico_journal_play(const uint8_t *journal, size_t journal_len, uint8_t *pages, size_t pages_len,
    uint32_t page_size);

/* Writes a journal of the listed pages (numbered from 0 here) to the front of target: sector + list_len x (page_size + 8)
 * bytes; the rest of target stays. list_len counts the numbers. */
ventarico_journal_reply ventarico_journal_write(const uint8_t *pages, size_t pages_len, const uint32_t *list, size_t list_len,
    uint8_t *target, size_t target_len, uint32_t page_size, uint32_t nonce, uint32_t sector);

#ifdef __cplusplus
}
#endif
#endif
