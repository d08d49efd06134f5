/* A life of a small store that is the same each time, for the tests that stop it everywhere: transactions, checkpoints,
 * compactions, formats, full journals, a store that is left and one that is dropped. The pages depend on the number of
 * commits alone. */
#ifndef STORY_H
#define STORY_H

#include "filestore.h"

enum { STORY_PAGE = 512, STORY_PAGES = 3, STORY_COMMITS = 24 };
extern const struct filestore_sizes story_sizes;

typedef uint8_t story_pages[STORY_PAGES][STORY_PAGE];

/* How far it has come. */
struct story {
    unsigned asked, done; /* commits */
    unsigned failed;      /* calls that answered other than they should, an expected FILESTORE_BROKEN left out */
    bool broke;           /* a call, open or create was refused, as it is when the disk fails */
    bool ended;
};

/* Tells it once, over no file or over what is left of an earlier one that came as far as `done`. */
void story_tell(struct story *s, const char *path);

/* The pages behind so many commits. */
void story_model(unsigned commits, story_pages pages);

/* Opens the store and reads its pages; one that is not there has zero pages, if it may be missing. */
bool story_look(const char *path, story_pages pages, bool may_be_missing);

/* Says how many commits the pages show, from low to high; high + 1: none of these. */
unsigned story_match(story_pages pages, unsigned low, unsigned high);

#endif
