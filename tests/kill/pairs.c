/* A copy of the file beside a journal of another moment. Both files are copied behind each call that the story makes to
 * the disk; then each copy of the file stands beside each copy of the journal, and beside none, and is opened. Either it
 * is refused, and both files are as they were; or it shows all commits up to some moment: at least those that were done
 * when the file was copied, or, beside an older journal, when the journal was. What was copied at one moment opens. */
#define _XOPEN_SOURCE 700
#include <fcntl.h>
#include <stdio.h>
#include <stdlib.h>
#include <string.h>
#include <unistd.h>

#include "shim.h"
#include "story.h"
#include "tests.h"

enum { MOST = 512 };
struct moment {
    struct copy copy;
    unsigned first_done, first_asked, last_done, last_asked; /* when the copy came to be, and when it was last so */
    unsigned first, last;                                    /* likewise, as numbers of calls */
};
struct moments {
    struct moment list[MOST];
    unsigned count;
};

static struct moments files, journals;
static struct story story;
static const char *path;
static unsigned calls;

static void note(struct moments *all, const char *name)
{
    struct moment *last = all->count > 0 ? &all->list[all->count - 1] : NULL;
    if (!last || !is_copy(name, last->copy)) {
        if (all->count == MOST)
            abort();
        last = &all->list[all->count++];
        *last = (struct moment){copy_of(name), story.done, story.asked, 0, 0, calls, 0};
    }
    last->last_done = story.done;
    last->last_asked = story.asked;
    last->last = calls;
}

static void note_both(void)
{
    calls++;
    if (access(path, F_OK) != 0)
        return;
    note(&files, path);
    note(&journals, beside(path));
}

static bool at_one_moment(const struct moment *f, const struct moment *j)
{
    return f->first <= j->last && j->first <= f->last;
}

static bool left_alone(const struct moment *f, const struct moment *j)
{
    char name[4200];
    snprintf(name, sizeof name, "%s.new", path);
    bool alone = access(name, F_OK) != 0;
    snprintf(name, sizeof name, "%s.journal.new", path);
    return alone && access(name, F_OK) != 0 && is_copy(path, f->copy) && is_copy(beside(path), j->copy);
}

static bool pair_holds(const struct moment *f, const struct moment *j, bool *accepted)
{
    story_pages pages;
    put_copy(path, f->copy);
    put_copy(beside(path), j->copy);
    *accepted = story_look(path, pages, false);
    if (!*accepted) {
        if (at_one_moment(f, j))
            return printf("  both were there at one moment, and are refused\n"), false;
        if (!left_alone(f, j))
            return printf("  it was refused after something had been written\n"), false;
        return true;
    }
    unsigned least = j->last < f->first && j->copy.bytes ? j->first_done : f->first_done;
    unsigned most = j->last_asked > f->last_asked ? j->last_asked : f->last_asked;
    unsigned shown = story_match(pages, 0, most);
    if (shown > most)
        return printf("  the pages are those of no moment\n"), false;
    if (shown < least)
        return printf("  %u commits are shown, and there were %u\n", shown, least), false;
    return true;
}

/* Refusals are expected here: what is said of them is kept from the screen. */
static int hush(void)
{
    fflush(stderr);
    int kept = dup(STDERR_FILENO), nowhere = open("/dev/null", O_WRONLY);
    dup2(nowhere, STDERR_FILENO);
    close(nowhere);
    return kept;
}

static void speak(int kept)
{
    fflush(stderr);
    dup2(kept, STDERR_FILENO);
    close(kept);
}

bool pairs(const char *store)
{
    unsigned long tried = 0, failed = 0, mixed = 0;
    path = store;
    clear_store(path);
    shim = (struct shim){.after = note_both};
    story_tell(&story, path);
    shim = (struct shim){0};
    if (!story.ended || story.failed > 0)
        return printf("FAILED pairs: the story does not hold by itself\n"), false;
    int kept = hush();
    for (unsigned i = 0; i < files.count && failed == 0; i++)
        for (unsigned k = 0; k < journals.count && failed == 0; k++, tried++) {
            const struct moment *f = &files.list[i], *j = &journals.list[k];
            bool accepted;
            shim_settle();
            if (pair_holds(f, j, &accepted)) {
                mixed += accepted && !at_one_moment(f, j);
                continue;
            }
            failed++;
            printf("FAILED pairs: the file behind call %u of the story, the journal behind call %u. Next: judge() in "
                   "examples/filestore.c\n", f->first, j->first);
        }
    speak(kept);
    printf("pairs: %lu of %lu held: %u copies of the file beside %u of the journal; %lu were of two moments and opened\n",
        tried - failed, tried, files.count, journals.count, mixed);
    return failed == 0;
}
