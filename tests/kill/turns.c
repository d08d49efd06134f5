/* Each call in turn: the story is told once for each call that it makes to the disk, and for each thing that can go wrong
 * with a call. Then what was committed must be there, and nothing else but the commit in flight, as a whole. */
#define _XOPEN_SOURCE 700
#define _DEFAULT_SOURCE
#include <stdio.h>
#include <stdlib.h>
#include <string.h>
#include <sys/mman.h>
#include <sys/wait.h>
#include <unistd.h>

#include "shim.h"
#include "story.h"
#include "tests.h"

static const char *const deed_names[SHIM_DEEDS] = {"none", "fails", "finds the disk full", "is cut short",
    "does nothing, and answers 0", "is interrupted", "is the process's last", "is the last before the power goes",
    "is the last before a blackout"};
static struct story *story; /* shared with the child */
static const char *path;

/* Tells the story in a child, or only opens the store there. */
static int in_child(bool only_open, unsigned long at, enum shim_deed deed, uint64_t seed)
{
    fflush(NULL);
    pid_t child = fork();
    if (child == 0) {
        story_pages pages;
        shim = (struct shim){.at = at, .deed = deed};
        shim_seed(seed);
        if (!freopen("/dev/null", "w", stderr)) /* refusals are expected here */
            _exit(8);
        alarm(20);
        if (only_open)
            _exit(story_look(path, pages, true) ? 0 : 1);
        story_tell(story, path);
        _exit(0);
    }
    int status = 0;
    waitpid(child, &status, 0);
    return status;
}

/* Up to two more children die while they open what is left, or their disk fails. */
static void die_again(uint64_t seed)
{
    static const enum shim_deed deeds[] = {SHIM_POWER, SHIM_CRASH, SHIM_FAIL, SHIM_BLACKOUT};
    shim_seed(seed);
    for (uint64_t n = shim_chance(3); n > 0; n--)
        in_child(true, 1 + shim_chance(26), deeds[shim_chance(4)], seed + n);
}

/* Must the story come to its end all the same? */
static bool is_harmless(enum shim_deed deed)
{
    return deed == SHIM_NONE || deed == SHIM_SHORT || deed == SHIM_INTERRUPT;
}

static bool shows_commits(const char *when)
{
    story_pages pages;
    if (!story_look(path, pages, story->done == 0 && story->asked == 0)) {
        printf("  %s the store does not open, or its files differ from what it holds\n", when);
        return false;
    }
    unsigned shown = story_match(pages, story->done, story->asked);
    if (shown > story->asked) {
        printf("  %s the pages are not those of %u or %u commits\n", when, story->done, story->asked);
        return false;
    }
    story->done = story->asked = shown;
    return true;
}

/* What happens after the story has stopped: a second look, a blackout, another story, by the seed. */
static bool holds_afterwards(uint64_t seed)
{
    if (seed % 2 == 1)
        shim_power_loss(seed % 4 == 1);
    die_again(seed);
    if (!shows_commits("afterwards"))
        return false;
    shim_power_loss(true);
    if (!shows_commits("after a blackout"))
        return false;
    if (seed % 3 != 0)
        return true;
    story->broke = story->ended = false;
    story->failed = 0;
    int status = in_child(false, 0, SHIM_NONE, seed);
    shim_power_loss(true);
    if (status != 0 || !story->ended || story->failed > 0) {
        printf("  the story cannot be told once more\n");
        return false;
    }
    return shows_commits("after a second story");
}

static bool turn_holds(unsigned long at, enum shim_deed deed, uint64_t seed)
{
    clear_store(path);
    *story = (struct story){0};
    int status = in_child(false, at, deed, seed);
    bool good = true;
    if (WIFEXITED(status) && WEXITSTATUS(status) == 9) {
        printf("  it would never end\n");
        good = false;
    } else if (WIFSIGNALED(status) && WTERMSIG(status) != SIGKILL) {
        printf("  it ended by signal %d\n", WTERMSIG(status));
        good = false;
    } else if (story->failed > 0) {
        printf("  %u answers were wrong\n", story->failed);
        good = false;
    } else if (is_harmless(deed) && !story->ended) {
        printf("  the story did not come to its end\n");
        good = false;
    }
    if (is_harmless(deed))
        shim_power_loss(true); /* what the story has committed needs nobody to end it */
    good = good && holds_afterwards(seed);
    if (!good)
        printf("FAILED turns: call %lu of the story %s, seed %lu. Next: tests/kill/run FOLDER turns %lu\n", at,
            deed_names[deed], (unsigned long)seed, at);
    return good;
}

bool turns(const char *store, unsigned long only)
{
    static const int times[SHIM_DEEDS] = {1, 2, 1, 1, 1, 1, 2, 4, 1};
    path = store;
    story = mmap(NULL, sizeof *story, PROT_READ | PROT_WRITE, MAP_SHARED | MAP_ANONYMOUS, -1, 0);
    if (story == MAP_FAILED)
        return false;
    *story = (struct story){0};
    clear_store(path);
    shim = (struct shim){0};
    story_tell(story, path);
    if (!story->ended || story->failed > 0 || !shows_commits("at its end")) {
        printf("FAILED turns: the story does not hold by itself\n");
        return false;
    }
    unsigned long calls = shim.count, tried = 0, failed = 0;
    for (unsigned long at = only ? only : 1; at <= (only ? only : calls) && failed == 0; at++)
        for (enum shim_deed deed = SHIM_FAIL; deed < SHIM_DEEDS && failed == 0; deed++)
            for (int i = 0; i < times[deed]; i++, tried++)
                failed += !turn_holds(at, deed, at * 37 + (unsigned)deed * 5 + (unsigned)i);
    shim = (struct shim){0};
    printf("turns: %lu of %lu held: each of the story's %lu calls to the disk, by %d faults\n", tried - failed, tried, calls,
        SHIM_DEEDS - 1);
    return failed == 0;
}
