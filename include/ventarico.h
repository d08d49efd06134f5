/* Ventarico: a page store for flash with on-the-fly redo. This header is the manual of the C interface.
 * include/ventarico_store.h, on top of it, has the same calls over one struct, and is shorter to write.
 *
 * Contents: 1 what is lent, 2 duties, 3 the rule of life, 4 arguments, 5 what each call changes, 6 threads and
 * interrupts, 7 what the archive wants, 8 codes, 9 the calls, 10 the clerk alone.
 * Beside it: docs/LAYOUT.md has every byte, docs/RULES.md what each call means, docs/PORTING.md how to bring it to a
 * device.
 *
 * 1. WHAT IS LENT
 *
 * The store keeps nothing of its own. Every call is lent the same seven areas of bytes, in this order:
 *
 *   area     length in bytes           part      what it holds
 *   fixed    20                        durable   what format was given: the five sizes
 *   marks    12 + 8 * pages            durable   L, K, n; a stamp and a dirty number for each page
 *   log      14 * log_size             durable   the log: n committed records, then zeros
 *   stored   page_size * pages         durable   the pages
 *   tables   35 + frames + pages       lost      counts, live numbers, use order, page entries
 *   online   19 * online_size          lost      the online table: records that the stored pages lack
 *   pool     page_size * frames        lost      the frames: pages as they are being used
 *
 * L is the last log number, K what L was at the last close or format, n the number of records in the log. The
 * durable part must outlive a power loss; the lost part is plain memory. No area needs an alignment.
 *
 * Every call checks the tables and its numbers before it does anything. (Format looks at its numbers and the lengths
 * alone; restart at the durable part and the lengths.) So whatever is passed, a call ends, does nothing undefined and
 * answers a code of section 8. A call that answers another code than 0 has changed no byte, read's buffer included.
 *
 * 2. DUTIES. A caller has these two, and no others.
 *
 *   - Each pointer is valid for its length, for writing too where it is not const. NULL with length 0 is fine.
 *   - No two of the areas overlap, and read's buffer overlaps none of them.
 *
 * And whoever copies the durable areas to a medium makes these writes, each whole or not at all: a page with its stamp;
 * what a commit changed; what a close changed; what a format changed. A checkpoint's pages reach the medium in page
 * order, its close last. docs/PORTING.md shows how.
 *
 * 3. THE RULE OF LIFE. AFTER A POWER LOSS CALL NOTHING BEFORE AN ACCEPTED ventarico_restart (or a new format).
 * Lost tables that happen to be zero look sound. A call on them misses committed updates, and a close or a checkpoint
 * drops them for good.
 *
 * 4. ARGUMENTS. One out of its range is refused with 2, and so is an offset + length past the page's end.
 *
 *   number     1 to 32: names a transaction from its begin to its commit or abort; then it may be given out again
 *   page       0 to pages - 1
 *   offset     0 to page_size - 1: where in the page
 *   length     read: 1 to page_size. Update: 1, 2, 4 or 8. offset + length is at most page_size; a record never crosses
 *              into the next page
 *   kind       VENTARICO_SET writes the value, lowest byte first. VENTARICO_ADD takes the bytes that are there as such
 *              a number, adds the value, and keeps the lowest `length` bytes of the sum
 *   value      below 256 to the power of length. To subtract d, add 0 - d cut to the length: (uint8_t)(0 - d) for
 *              length 1, (uint32_t)(0 - d) for length 4, (uint64_t)0 - d for length 8. An add that passes either end
 *              of the range wraps round, and no code tells it
 *   buffer     read's; buffer_len is at least length (else 3). Bytes from length on stay as they are
 *   min_del    1 to 512, and
 *   max_age    0 to 4,294,967,295: when a page is worth a write. Let the page have c committed records in the online
 *              table, the oldest with number f. Compact is due if c >= 1, and c >= min_del or L - f >= max_age: many
 *              records, or an old one. min_del 1, or max_age 0: due whenever c >= 1. max_age 4,294,967,295: never due
 *              by age. Larger values write a page less often, and keep more records in the online table and the log
 *   page_size  512, 1,024, 2,048 or 4,096
 *   pages      1 to 1,024
 *   frames     1 to 64
 *   online_size  1 to 512 records: those of open transactions, and committed ones not yet compacted
 *   log_size   1 to 2,048 records: committed ones, from the oldest that was still online at the last close
 *   last       any: format's L. The first record to be committed gets last + 1. A new store takes 0
 *
 * 5. WHAT EACH CALL CHANGES, when it is accepted: what a port copies to its medium. A byte that is not named stays.
 *
 *   call        durable part                                      lost part
 *   begin       -                                                 tables: a live byte
 *   read        -                                                 tables: use order, entries; pool: one frame
 *   update      -                                                 tables: m, use order, entries; online: row m;
 *                                                                 pool: one frame
 *   commit      marks: L and n (bytes 0 to 3, 8 to 11);           tables: a live byte; online: owners and numbers
 *               log: the k rows from row n (the old n) on
 *   abort       -                                                 tables: m, a live byte, use order, entries; online
 *   evict       -                                                 tables: use order, an entry
 *   compact     stored: the page;                                 tables: m, use order, an entry; online
 *               marks: its stamp (4 bytes at 12 + 4 * page)
 *   close       marks: K, n (bytes 4 to 11), the dirty numbers    -
 *               (from 12 + 4 * pages on); log: rows move up
 *   checkpoint  as compact for each page due, then as close       tables: m, use order, entries; online
 *   restart     -                                                 tables, online: all of them
 *   format      fixed, marks, log: all of them                    tables, online: all of them
 *
 * m is the number of online records; with the use order goes u, the number of frames in use. A commit of no record
 * (reply.logs 0) and a compact that is not due (reply.note 1) change nothing durable. Which pages a checkpoint has
 * written is told by their stamps: a page that is written gets a greater stamp, every other stamp stays.
 *
 * 6. THREADS AND INTERRUPTS. The library has no state, so calls on different stores may run at the same time. On the
 * same areas only one call may run at a time, whichever it is, and nobody else may touch the areas meanwhile: take a
 * lock around each call, and call from no interrupt or signal handler that may have cut into a call on the same areas.
 * A call takes no lock, waits for nothing, allocates nothing and calls nothing back. Its time is bounded by the sizes
 * of the tables. It must run to its end: after one that was cut off for good (a thread that was killed, a jump out of a
 * handler) the areas in memory may hold anything. Load the durable ones from the medium again, then restart.
 * It takes up to 13.5 KiB of stack, on any store.
 *
 * 7. WHAT THE ARCHIVE WANTS. memcpy and memset from whoever links it, and nothing else: no operating system, no C
 * library beyond these two, no set-up call. It has no data of its own, only code and constants. It is made for x86-64,
 * System V calling convention, with SSE2 registers and the red zone: a handler that cuts into a call keeps both. Header
 * and archive belong together; take them from the same build.
 */
#ifndef VENTARICO_H
#define VENTARICO_H

#if !defined(__x86_64__) || defined(__ILP32__) || defined(_WIN32)
#error "ventarico: the archive is for x86-64, 64-bit size_t, System V calling convention: see docs/PORTING.md"
#endif

#include <stddef.h>
#include <stdint.h>

/* Major: a caller must change something, or a store made by an earlier one is not accepted. Minor: something was added.
 * Patch: neither. */
#define VENTARICO_VERSION_MAJOR 1
#define VENTARICO_VERSION_MINOR 0
#define VENTARICO_VERSION_PATCH 0
#define VENTARICO_VERSION "1.0.0"

#ifdef __cplusplus
extern "C" {
#endif

/* 8. CODES. They are judged in this order, so a call that has two things wrong answers the smaller number.
 * ventarico_store.h has their names and their meaning as strings. */
enum {
    VENTARICO_DONE = 0,
    VENTARICO_NOT_SOUND = 1,     /* every call but format: the lent tables are not sound, or a length is wrong */
    VENTARICO_BAD_ARGUMENT = 2,  /* an argument out of its range; offset + length past the page; format: a length */
    VENTARICO_SHORT_BUFFER = 3,  /* read: the buffer is shorter than the length */
    VENTARICO_NOT_LIVE = 4,      /* read, update, commit, abort: no transaction of that number is open */
    VENTARICO_LIVE = 5,          /* begin: a transaction of that number is open already */
    VENTARICO_HELD = 6,          /* read, update: another open transaction has changed a byte that is asked for */
    VENTARICO_ONLINE_FULL = 7,   /* update: the online table is full; restart: more records enter than it holds */
    VENTARICO_LOG_FULL = 8,      /* commit: the log has no room for the records */
    VENTARICO_NUMBERS_END = 9,   /* commit: a record would get a number above 4,294,967,295 */
    VENTARICO_NO_FRAME = 10      /* evict: the page is in no frame */
};

/* What to do about them:
 *   1   after a power loss: restart. Else the bytes were damaged: load the durable areas again, restart; and if that
 *       answers 1, take back a copy
 *   2, 3, 4, 5, 10   mend the call
 *   6   try again once the other transaction has ended
 *   7, 8   checkpoint with min_del 1, then try again. Records of open transactions stay until these end, so what still
 *       does not fit then waits for them, or aborts. A transaction of more records than the log holds can only abort.
 *       Restart answers 7 only if the durable areas are not a store's own: load them again, or take back a copy
 *   9   end every transaction (this one can only abort), checkpoint with min_del 1, then format with last 0: the pages
 *       keep all that was committed */

enum { VENTARICO_SET = 0, VENTARICO_ADD = 1 }; /* a record's kind */

typedef struct {
    uint32_t code;   /* 0 done, else the refusal; the rest is 0 then */
    uint32_t note;   /* 1: compact was not due, and did nothing; else 0 */
    uint32_t reads;  /* pages read from stored */
    uint32_t writes; /* pages written to stored */
    uint32_t logs;   /* log writes */
} ventarico_reply;

/* 9. THE CALLS. Each area goes as pointer and length. An area that a call does not change is const there. */

/* Opens a transaction under the number. Refusals: 1, 2, 5. */
ventarico_reply ventarico_begin(const uint8_t *fixed, size_t fixed_len, const uint8_t *marks, size_t marks_len,
    const uint8_t *log, size_t log_len, const uint8_t *stored, size_t stored_len, uint8_t *tables, size_t tables_len,
    const uint8_t *online, size_t online_len, const uint8_t *pool, size_t pool_len, uint32_t number);

/* Copies `length` bytes of the page, from offset on, to the front of the buffer: the page with every committed update
 * and the transaction's own. The page is fetched into a frame if it is in none (reads 1, else 0). The page that was
 * used least recently may leave its frame for it; nothing is written. Refusals: 1, 2, 3, 4, 6. */
ventarico_reply ventarico_read(const uint8_t *fixed, size_t fixed_len, const uint8_t *marks, size_t marks_len,
    const uint8_t *log, size_t log_len, const uint8_t *stored, size_t stored_len, uint8_t *tables, size_t tables_len,
    const uint8_t *online, size_t online_len, uint8_t *pool, size_t pool_len, uint8_t *buffer, size_t buffer_len,
    uint32_t number, uint32_t page, uint32_t offset, uint32_t length);

/* Changes `length` bytes of the page by a set or an add, for the transaction alone: others get 6 there until it ends.
 * It takes a row of the online table. The page is fetched as by read. Refusals: 1, 2, 4, 6, 7. */
ventarico_reply ventarico_update(const uint8_t *fixed, size_t fixed_len, const uint8_t *marks, size_t marks_len,
    const uint8_t *log, size_t log_len, const uint8_t *stored, size_t stored_len, uint8_t *tables, size_t tables_len,
    uint8_t *online, size_t online_len, uint8_t *pool, size_t pool_len,
    uint32_t number, uint32_t page, uint32_t offset, uint32_t length, uint32_t kind, uint64_t value);

/* Ends the transaction and keeps its k updates: they get the numbers L + 1 to L + k and go to the log (logs 1; 0 if it
 * made none). Refusals: 1, 2, 4, 8, 9; the transaction is open then as before. */
ventarico_reply ventarico_commit(const uint8_t *fixed, size_t fixed_len, uint8_t *marks, size_t marks_len,
    uint8_t *log, size_t log_len, const uint8_t *stored, size_t stored_len, uint8_t *tables, size_t tables_len,
    uint8_t *online, size_t online_len, const uint8_t *pool, size_t pool_len, uint32_t number);

/* Ends the transaction and drops its updates. Pages that it had changed leave their frames. Refusals: 1, 2, 4. */
ventarico_reply ventarico_abort(const uint8_t *fixed, size_t fixed_len, const uint8_t *marks, size_t marks_len,
    const uint8_t *log, size_t log_len, const uint8_t *stored, size_t stored_len, uint8_t *tables, size_t tables_len,
    uint8_t *online, size_t online_len, const uint8_t *pool, size_t pool_len, uint32_t number);

/* Frees the page's frame. Nothing is written: its records are still online. Never needed, since read and update make
 * room for themselves. Refusals: 1, 2, 10. */
ventarico_reply ventarico_evict(const uint8_t *fixed, size_t fixed_len, const uint8_t *marks, size_t marks_len,
    const uint8_t *log, size_t log_len, const uint8_t *stored, size_t stored_len, uint8_t *tables, size_t tables_len,
    const uint8_t *online, size_t online_len, const uint8_t *pool, size_t pool_len, uint32_t page);

/* If it is due (section 4), writes the page with its committed records and takes these out of the online table (writes
 * 1; reads 1, or 0 if it could be written from its frame). Else note 1 and no change. The log stays as it is: close
 * cuts it. Refusals: 1, 2. */
ventarico_reply ventarico_compact(const uint8_t *fixed, size_t fixed_len, uint8_t *marks, size_t marks_len,
    const uint8_t *log, size_t log_len, uint8_t *stored, size_t stored_len, uint8_t *tables, size_t tables_len,
    uint8_t *online, size_t online_len, const uint8_t *pool, size_t pool_len,
    uint32_t page, uint32_t min_del, uint32_t max_age);

/* Drops the log records that no page needs any more, and notes how far a restart must look (logs 1). Refusal: 1. */
ventarico_reply ventarico_close(const uint8_t *fixed, size_t fixed_len, uint8_t *marks, size_t marks_len,
    uint8_t *log, size_t log_len, const uint8_t *stored, size_t stored_len, const uint8_t *tables, size_t tables_len,
    const uint8_t *online, size_t online_len, const uint8_t *pool, size_t pool_len);

/* Compact for each page, from page 0 on, then close. The counts are the sums; note is 0. Refusals: 1, 2. */
ventarico_reply ventarico_checkpoint(const uint8_t *fixed, size_t fixed_len, uint8_t *marks, size_t marks_len,
    uint8_t *log, size_t log_len, uint8_t *stored, size_t stored_len, uint8_t *tables, size_t tables_len,
    uint8_t *online, size_t online_len, const uint8_t *pool, size_t pool_len, uint32_t min_del, uint32_t max_age);

/* Makes tables and online anew from the durable part, whatever they hold: nobody is live, no page is in a frame, and
 * the committed records that the stored pages lack are online. Called without a loss it is one: open transactions are
 * dropped. After an honest use it is never refused. Refusals: 1, 7. */
ventarico_reply ventarico_restart(const uint8_t *fixed, size_t fixed_len, const uint8_t *marks, size_t marks_len,
    const uint8_t *log, size_t log_len, const uint8_t *stored, size_t stored_len, uint8_t *tables, size_t tables_len,
    uint8_t *online, size_t online_len, const uint8_t *pool, size_t pool_len);

/* Starts a store over the stored pages as they are. Of what is lent it looks at the lengths alone, which must be those
 * of the sizes given. Whatever was in a log before is gone. Refusal: 2. */
ventarico_reply ventarico_format(uint8_t *fixed, size_t fixed_len, uint8_t *marks, size_t marks_len,
    uint8_t *log, size_t log_len, const uint8_t *stored, size_t stored_len, uint8_t *tables, size_t tables_len,
    uint8_t *online, size_t online_len, const uint8_t *pool, size_t pool_len,
    uint32_t page_size, uint32_t pages, uint32_t frames, uint32_t online_size, uint32_t log_size, uint32_t last);

/* 10. THE CLERK ALONE, apart from any store, for a caller who keeps tables of his own: which numbers are live, and the
 * last log number. Any values may be lent. Each function answers 0, or a code of section 8 and leaves the struct as it
 * was. The pointer is not NULL; it is aligned, and valid for writing. */
struct ventarico_clerk {
    uint8_t live[32]; /* number t, 1 to 32, is live where live[t - 1] is 1 */
    uint32_t last;    /* the last log number */
};

/* Makes the number live. 2: it is not 1 to 32; 5: it is live already. */
uint8_t ventarico_clerk_begin(struct ventarico_clerk *clerk, uint32_t number);

/* Ends the transaction. 2: the number is not 1 to 32; 4: it is not live. */
uint8_t ventarico_clerk_abort(struct ventarico_clerk *clerk, uint32_t number);

/* Ends the transaction and adds `records` to last. 2, 4 as above; 9: last would be above 4,294,967,295. */
uint8_t ventarico_clerk_commit(struct ventarico_clerk *clerk, uint32_t number, uint32_t records);

#ifdef __cplusplus
}
#endif
#endif
