#define _XOPEN_SOURCE 700
#include "story.h"

#include <string.h>
#include <unistd.h>

enum { MOST = 5, LENGTH = 4 };
const struct filestore_sizes story_sizes = {
    .page_size = STORY_PAGE, .pages = STORY_PAGES, .frames = 2, .online = 24, .log = 16, .journal = 1};

struct record {
    uint32_t page, offset, kind;
    uint32_t value;
};

/* The records of a commit, made up from its number. */
static uint32_t records_of(unsigned commit, struct record *records)
{
    uint32_t dice = commit * 2654435761u + 12345, count = 1 + commit % MOST;
    for (uint32_t i = 0; i < count; i++) {
        dice = dice * 1664525u + 1013904223u;
        records[i] = (struct record){(dice >> 8) % STORY_PAGES, 8 * ((dice >> 16) % 60), dice >> 31, dice};
    }
    return count;
}

void story_model(unsigned commits, story_pages pages)
{
    memset(pages, 0, sizeof(story_pages));
    for (unsigned c = 0; c < commits; c++) {
        struct record records[MOST];
        uint32_t count = records_of(c, records);
        for (uint32_t i = 0; i < count; i++) {
            uint8_t *at = pages[records[i].page] + records[i].offset;
            uint64_t old = at[0] | (uint64_t)at[1] << 8 | (uint64_t)at[2] << 16 | (uint64_t)at[3] << 24;
            uint64_t now = (records[i].kind == VENTARICO_ADD ? old : 0) + records[i].value;
            for (int b = 0; b < LENGTH; b++)
                at[b] = (uint8_t)(now >> 8 * b);
        }
    }
}

/* ---- Telling it. */

static struct filestore store;

/* Holds an answer to what it must be, and says whether the story goes on. Once the disk has failed, every call must answer
 * FILESTORE_BROKEN. */
static bool goes_on(struct story *s, ventarico_reply r)
{
    if (r.code == FILESTORE_BROKEN) {
        s->broke = true;
        s->failed += filestore_begin(&store, 9).code != FILESTORE_BROKEN;
        s->failed += filestore_commit(&store, 1).code != FILESTORE_BROKEN;
        s->failed += filestore_checkpoint(&store, 1, 0).code != FILESTORE_BROKEN;
        s->failed += filestore_leave(&store);
        return false;
    }
    s->failed += r.code != VENTARICO_DONE;
    return r.code == VENTARICO_DONE;
}

static bool goes_on_if(struct story *s, bool good)
{
    s->broke = s->broke || !good;
    return good;
}

static bool transaction(struct story *s)
{
    struct record records[MOST];
    uint32_t count = records_of(s->done, records);
    if (!goes_on(s, filestore_begin(&store, 1)))
        return false;
    for (uint32_t i = 0; i < count; i++)
        if (!goes_on(s, filestore_update(&store, 1, records[i].page, records[i].offset, LENGTH, records[i].kind,
                records[i].value)))
            return false;
    s->asked = s->done + 1;
    ventarico_reply r = filestore_commit(&store, 1);
    if (r.code == VENTARICO_LOG_FULL) {
        if (!goes_on(s, filestore_checkpoint(&store, 1, 0)))
            return false;
        r = filestore_commit(&store, 1);
    }
    if (!goes_on(s, r))
        return false;
    s->done++;
    return true;
}

static bool transactions(struct story *s, unsigned count)
{
    while (count-- > 0)
        if (!transaction(s))
            return false;
    return true;
}

/* What is uncommitted never shows. */
static bool cancelled(struct story *s)
{
    return goes_on(s, filestore_begin(&store, 2)) &&
        goes_on(s, filestore_update(&store, 2, 1, 500, 8, VENTARICO_SET, UINT64_MAX)) &&
        goes_on(s, filestore_checkpoint(&store, 1, 0)) && goes_on(s, filestore_abort(&store, 2));
}

static bool drop_and_open(struct story *s, const char *path)
{
    filestore_drop(&store);
    return goes_on_if(s, filestore_open(&store, path, story_sizes, NULL));
}

void story_tell(struct story *s, const char *path)
{
    s->asked = s->done;
    s->ended = false;
    bool good = goes_on_if(s, access(path, F_OK) == 0 ? filestore_open(&store, path, story_sizes, NULL) :
        filestore_create(&store, path, story_sizes, NULL));
    good = good && transactions(s, 3) && goes_on(s, filestore_checkpoint(&store, 1, 0)) && transactions(s, 3);
    good = good && cancelled(s) && goes_on_if(s, filestore_sync(&store)) && transactions(s, 2);
    good = good && goes_on(s, filestore_compact(&store, 1, 1, 0)) && goes_on(s, filestore_close(&store));
    good = good && goes_on(s, filestore_format(&store, 100)) && transactions(s, 2);
    good = good && drop_and_open(s, path) && transactions(s, 2);
    good = good && goes_on_if(s, filestore_mend(&store)) && transactions(s, 2);
    /* Three formats fill the journal, so that F takes it in within a save. */
    for (uint32_t i = 0; i < 3; i++)
        good = good && goes_on(s, filestore_format(&store, i)) && transactions(s, 2);
    good = good && goes_on(s, filestore_checkpoint(&store, 1, 0)) && goes_on_if(s, filestore_leave(&store));
    good = good && goes_on_if(s, filestore_open(&store, path, story_sizes, NULL)) && transactions(s, 4);
    s->ended = good;
    filestore_drop(&store);
}

/* ---- Looking at it. */

bool story_look(const char *path, story_pages pages, bool may_be_missing)
{
    memset(pages, 0, sizeof(story_pages));
    if (may_be_missing && access(path, F_OK) != 0)
        return true;
    if (!filestore_open(&store, path, story_sizes, NULL))
        return false;
    bool good = filestore_begin(&store, 32).code == VENTARICO_DONE;
    for (uint32_t p = 0; p < STORY_PAGES; p++)
        good = good && filestore_read(&store, pages[p], STORY_PAGE, 32, p, 0, STORY_PAGE).code == VENTARICO_DONE;
    good = good && filestore_scrub(&store) == 0;
    filestore_drop(&store);
    return good;
}

unsigned story_match(story_pages pages, unsigned low, unsigned high)
{
    for (unsigned c = low; c <= high; c++) {
        story_pages model;
        story_model(c, model);
        if (memcmp(model, pages, sizeof model) == 0)
            return c;
    }
    return high + 1;
}
