/* The disk under the host, for the tests: each write, sync, truncation and change of a name passes here (the linker wraps
 * the calls), is counted, and may fail, be cut short, be interrupted, or be the last thing that the process does.
 *
 * What no sync has covered is remembered, over the deaths of processes too, and taken back when the power goes: all of
 * it, or by chance some. A new name is unsynced until its folder is synced. After a sync that failed, what it should have
 * covered can still be read, as from a cache, but no later sync covers it: only writing it again does. */
#ifndef SHIM_H
#define SHIM_H

#include <stdbool.h>
#include <stddef.h>
#include <stdint.h>

enum shim_deed {
    SHIM_NONE,
    SHIM_FAIL,      /* EIO, and nothing is done */
    SHIM_FULL,      /* a write: the front half is done, then ENOSPC */
    SHIM_SHORT,     /* a write: the front half is done, and its length answered */
    SHIM_NOTHING,   /* this write and all later ones answer 0 */
    SHIM_INTERRUPT, /* EINTR, three times */
    SHIM_CRASH,     /* a part is done, perhaps with noise in it, and the process dies; the system lives on */
    SHIM_POWER,     /* the same, and the power goes: what no sync covers is taken back by chance */
    SHIM_BLACKOUT,  /* nothing is done, and the power goes: what no sync covers is taken back, all of it */
    SHIM_DEEDS      /* how many there are */
};

struct shim {
    unsigned long count;      /* calls so far */
    unsigned long at;         /* the call that is not done as it should; 0: none */
    enum shim_deed deed;
    unsigned long zeros;      /* how often a write has answered 0 */
    bool real_syncs;          /* syncs are made, and nothing is noted: for a process that is killed at any moment, which
                               * could be while a note is made. Else a sync is noted and not made: so a test is quick */
    unsigned long reads, read_at; /* reads are counted apart; the one that fails, is cut short or interrupted */
    void (*after)(void);      /* called behind each call that was done */
    unsigned long writes, syncs, bytes;
};
extern struct shim shim; /* of this process */

/* Before any process is started: the store's name. */
void shim_begin(const char *path);
/* Whatever was written is on the disk. */
void shim_settle(void);
/* The power goes while no process is running. */
void shim_power_loss(bool all);

uint64_t shim_chance(uint64_t below);
void shim_seed(uint64_t seed);

#endif
