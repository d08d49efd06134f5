/* A file-backed host for Ventarico: the example to copy. C11 with POSIX, and flock.
 *
 * A store is two files that belong together: F holds the durable areas with their checksums, F.journal the saves that F
 * has not taken in yet. The lost areas are memory. docs/FILESTORE.md has every byte of both, and why each save is whole
 * or not at all.
 *
 * A save is one record, appended to the journal, which has its full length from the start. A commit syncs it: one
 * fdatasync, and the commit is there for good when the call comes back. A compact, close or checkpoint is appended and
 * not synced: the next commit's sync covers it too. Should the power go before, the store is as it was without it, and
 * nothing that was committed is gone. filestore_sync syncs at once.
 *
 * When the journal is full, or the store is left, F takes in what the journal holds.
 *
 * A struct filestore is for one thread at a time, and, after a fork, for one of the two processes.
 */
#ifndef FILESTORE_H
#define FILESTORE_H

#include <stdbool.h>
#include <stddef.h>
#include <stdint.h>
#include <stdio.h>

#include "ventarico.h"

/* The host's own answers, beside the store's codes. */
enum {
    /* The files could not be written, so memory and files may differ. Every later call answers it too. What to do is
     * what one does after a power loss: filestore_drop, then filestore_open. All that was accepted before is then
     * there; what this call was to save is there whole or not at all: read, and see. */
    FILESTORE_BROKEN = 100,
    FILESTORE_VIEWED = 101 /* the store is only viewed: nothing can be saved */
};

/* Why create, open or view answered false. */
enum filestore_refusal {
    FILESTORE_ACCEPTED,
    FILESTORE_SYSTEM,      /* the system refused, or memory is short */
    FILESTORE_NAME,        /* a symbolic link, a folder or a device, no plain file */
    FILESTORE_THERE,       /* create: the file or the journal is there already */
    FILESTORE_NOT_THERE,   /* open: no such file */
    FILESTORE_NO_STORE,    /* open: the file is empty, or no store of this host */
    FILESTORE_OPEN,        /* the store is open already, here or in another process */
    FILESTORE_SIZES,       /* sizes out of range, or others than the store was made with */
    FILESTORE_NOT_ITS_OWN, /* the journal beside the file is missing, or not the one that belongs to it */
    FILESTORE_DAMAGED      /* a checksum is wrong, or the tables are not sound */
};

struct filestore_sizes {
    uint32_t page_size, pages, frames, online, log; /* ranges: docs/LAYOUT.md, fixed */
    uint32_t journal; /* create: bytes for the journal, raised to the least that does; 0: twice that, and 64 KiB */
};

struct filestore_area {
    uint8_t *bytes;
    size_t length;
};

/* Where something stands in F. */
struct filestore_place {
    uint32_t at, length;
};

struct filestore {
    struct filestore_sizes sizes;
    struct filestore_area fixed, marks, log, stored; /* durable: all within `live` */
    struct filestore_area tables, online, pool;      /* lost with the power */
    enum filestore_refusal refused;
    uint32_t damage; /* view: how many checksums are wrong */
    bool broken;
    FILE *talk; /* each call is printed here with its answer; NULL: silent */

    /* What follows is the host's own. */
    bool view;
    int file, journal;
    char *path, *beside; /* F and F.journal */
    struct {
        struct filestore_place fixed, marks, log, sums, stored;
        uint32_t length;      /* of F */
        uint32_t most;        /* the longest record that a save needs */
        uint32_t sums_record; /* the record that ends a generation */
    } layout;
    uint8_t *live;  /* what is lent to the store; the byte for place i of F is live[i] */
    uint8_t *saved; /* what F and its journal hold together, likewise */
    uint8_t *room;  /* a record is built here */
    bool *touched;  /* the parts of F that this generation's records hold whole */
    struct filestore_place *changes; /* room for what a save is to save */
    uint8_t identity[16];
    uint64_t generation, tie, header_number;
    uint32_t state, applying;
    uint32_t journal_length, end; /* of the journal; where its next record begins */
    uint32_t records, synced;     /* this generation's, and those that a sync has covered */
    uint64_t seed;                /* what the checksums of this generation's records begin with */
    uint32_t previous;            /* that of the last record */
    bool ended;                   /* the last record is that of F's new checksums */
};

/* Makes a new store: format, over pages of zero bytes. Neither F nor F.journal may be there. A power loss leaves a
 * store of that name that is whole, or none. */
bool filestore_create(struct filestore *f, const char *path, struct filestore_sizes sizes, FILE *talk);

/* Opens a store, and restarts it. Nothing is written before it is known that the journal belongs to the file, that all
 * checksums are right and that the store restarts. Create and open answer false when refused: f->refused says why,
 * stderr says what to do next, and nothing is left open. */
bool filestore_open(struct filestore *f, const char *path, struct filestore_sizes sizes, FILE *talk);

/* Opens F without its journal, which is gone for good and must not stand beside it: what the journal held is lost. */
bool filestore_open_alone(struct filestore *f, const char *path, struct filestore_sizes sizes, FILE *talk);

/* Looks at a store of any sizes, and writes nothing. Wrong checksums are said on stderr and counted in f->damage, and
 * the store is shown as it is found. Calls that save are refused. */
bool filestore_view(struct filestore *f, const char *path, FILE *talk);

/* Lets go of files and memory and writes nothing: after a power loss the files look no other. */
void filestore_drop(struct filestore *f);

/* Has F take in its journal, then drops: F is at rest, and may be copied alone. False: it was not done, and the store
 * is dropped all the same. */
bool filestore_leave(struct filestore *f);

/* Reads both files anew and checks each checksum. Answers how many are wrong, each said on stderr. */
uint32_t filestore_scrub(struct filestore *f);

/* Writes all of F anew from memory: what to do when scrub has found damage. */
bool filestore_mend(struct filestore *f);

/* What was saved so far is there for good when this comes back. */
bool filestore_sync(struct filestore *f);

/* The store's calls. */
ventarico_reply filestore_begin(struct filestore *f, uint32_t number);
ventarico_reply filestore_read(struct filestore *f, uint8_t *buffer, size_t room, uint32_t number, uint32_t page,
    uint32_t offset, uint32_t length);
ventarico_reply filestore_update(struct filestore *f, uint32_t number, uint32_t page, uint32_t offset, uint32_t length,
    uint32_t kind, uint64_t value);
ventarico_reply filestore_commit(struct filestore *f, uint32_t number);
ventarico_reply filestore_abort(struct filestore *f, uint32_t number);
ventarico_reply filestore_evict(struct filestore *f, uint32_t page);
ventarico_reply filestore_compact(struct filestore *f, uint32_t page, uint32_t min_del, uint32_t max_age);
ventarico_reply filestore_close(struct filestore *f);
ventarico_reply filestore_checkpoint(struct filestore *f, uint32_t min_del, uint32_t max_age);

/* A checkpoint of all, then a format over the same pages with `last` as the last log number: what to do when the
 * numbers are used up. Refused 5 while a transaction is open. */
ventarico_reply filestore_format(struct filestore *f, uint32_t last);

/* What a code means and what to do next, in a few words. */
const char *filestore_meaning(uint32_t code);

#endif
