/* SQLite's write-ahead log: committed pages of a store written as one (ventarico_wal_write), and logs of other programs
 * judged (ventarico_wal_judge, ventarico_wal_find). docs/WAL.md has the bytes.
 *
 * The caller's duties are those of ventarico.h: each pointer is valid for its length, the list is aligned, and no two
 * lent slices overlap.
 * Whatever is passed, a call ends, does nothing undefined and answers one of the codes below; a refused call has
 * changed no byte.
 */
#ifndef VENTARICO_WAL_H
#define VENTARICO_WAL_H

#include <stddef.h>
#include <stdint.h>

#include "ventarico.h"

#ifdef __cplusplus
extern "C" {
#endif

/* Codes beside those of ventarico.h, in the order in which they are judged: writing 1, 2, 14, 15; judging 2, 16, 17. */
enum {
    VENTARICO_WAL_SHORT_TARGET = 14, /* write: the target is too short */
    VENTARICO_WAL_EMPTY_LIST = 15,   /* write: the list is empty */
    VENTARICO_WAL_BAD_HEADER = 16,   /* judge, find: header too short, or of wrong magic, version or page size */
    VENTARICO_WAL_BAD_SUM = 17       /* judge, find: the header's checksum is wrong */
};

enum { VENTARICO_WAL_LOWEST_FIRST = 0, VENTARICO_WAL_HIGHEST_FIRST = 1 }; /* byte order of the words that are summed */

/* Writes the header and a frame for each listed page (numbered from 0 here) to the front of target: 32 + list_len x
 * (24 + page size) bytes; the rest of target stays. The last frame is a commit frame. list_len counts the numbers.
 * The store is only read: one page read for each page listed. */
ventarico_reply ventarico_wal_write(const uint8_t *fixed, size_t fixed_len, const uint8_t *marks, size_t marks_len,
    const uint8_t *log, size_t log_len, const uint8_t *stored, size_t stored_len, const uint8_t *tables, size_t tables_len,
    const uint8_t *online, size_t online_len, const uint8_t *pool, size_t pool_len,
    const uint32_t *list, size_t list_len, uint8_t *target, size_t target_len,
    uint32_t salt_1, uint32_t salt_2, uint32_t sequence, uint32_t order);

typedef struct {
    uint32_t code;   /* 0 accepted, else the refusal; the rest is 0 then */
    uint64_t frames; /* valid frames, from the first on */
    uint64_t end;    /* where the last valid commit frame ends, as an offset in the file; 0: there is none */
} ventarico_wal_judged;

/* Judges a whole file: header at 0, frames behind it. */
ventarico_wal_judged ventarico_wal_judge(const uint8_t *file, size_t file_len);

typedef struct {
    uint32_t code;  /* 0 accepted, else the refusal; the rest is 0 then */
    uint32_t found; /* 1: the page has an image up to the last commit frame; 0: none */
    uint64_t at;    /* where its last image begins, as an offset in the file; 0 where there is none */
} ventarico_wal_found;

/* Where the last image of a page (numbered from 1, as in the file) begins, frames behind the last commit frame left out. */
ventarico_wal_found ventarico_wal_find(const uint8_t *file, size_t file_len, uint32_t page);

#ifdef __cplusplus
}
#endif
#endif
