/* A sound store in the middle of its life, with every kind of page. It comes from a history, and is written down by
 * hand: the calls under test have no part in it.
 *
 * page   entry           records
 *    0   absent          none
 *    1   clean, frame 3  none; log record 14 is on the stored page
 *    2   dirty, frame 0  16 and 20, both on byte 0
 *    3   evicted         15 and 19, both on bytes 8 and 9
 *    4   dirty, frame 5  17; uncommitted of 1 (byte 16) and of 2 (bytes 17 and 18)
 *    5   evicted         18; uncommitted of 2, on bytes of 18
 *    6   dirty, frame 1  uncommitted of 32 (bytes 0 to 3)
 *    7   evicted         uncommitted of 1 (bytes 504 to 511)
 *
 * 8 pages of 512 bytes, 6 frames. Frames 2 and 4 are free; the use order is 5, 3, 0, 1. Live: 1, 2, 5, 32.
 * L = 20, K = 16, and the log holds 14 to 20.
 */
#ifndef SAMPLE_H
#define SAMPLE_H

#include "store.h"

/* Its rows, as the online table has them from place 0 on. */
extern const struct row sample_rows[11];
/* Its log records, from 14 on. */
extern const struct record sample_log[7];

/* With room for 16 online records and 12 log records. */
struct store sample_store(void);
/* With just the room that its records take. */
struct store full_sample_store(void);
/* The sample's rows without those at some places. */
void want_rows_without(struct store *s, size_t count, const size_t *places);
#define WANT_ROWS_WITHOUT(s, ...) want_rows_without(s, COUNT_OF(size_t, __VA_ARGS__), (const size_t[]){__VA_ARGS__})
/* The sample's rows and one more. */
void want_rows_and(struct store *s, struct row row);
/* The lost part as restart makes it of the sample. */
void want_sample_restarted(struct store *s);

#endif
