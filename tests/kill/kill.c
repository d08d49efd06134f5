/* The host, killed at random moments.
 *
 * In each round a child opens the store and does random transactions, up to four open at once. Over a pipe it says what
 * it is about to commit, and again when the commit came back. It dies in one of three ways:
 *   - killed: the parent sends SIGKILL at a random moment; syncs are real ones, and what came before is on the disk;
 *   - crash: at a random call to the disk the child does a part of what was asked and kills itself;
 *   - power: the same, but what no sync has covered yet, of this process or of one that crashed, is taken back by chance.
 * In most rounds up to three more children die while they open the store, in the midst of mending it.
 * Then the parent opens it and compares every byte of every page with a model, which is given the commits that were
 * reported done: the store must be the model, or the model and the one commit that was in flight, as a whole.
 * Every tenth round begins with no file, so that the creation dies too.
 */
#define _XOPEN_SOURCE 700
#include <errno.h>
#include <inttypes.h>
#include <poll.h>
#include <signal.h>
#include <stdio.h>
#include <stdlib.h>
#include <string.h>
#include <sys/wait.h>
#include <time.h>
#include <unistd.h>

#include "filestore.h"
#include "shim.h"
#include "tests.h"

enum { PAGE = 512, PAGES = 6, AT_ONCE = 4, MOST = 6 };
static const struct filestore_sizes sizes = {
    .page_size = PAGE, .pages = PAGES, .frames = 2, .online = 40, .log = 24, .journal = 1};
static const char *path;

/* ---- The child. */

struct record {
    uint32_t page, offset, length, kind;
    uint64_t value;
};
struct message {
    char what; /* a: about to commit; d: done; x: given up */
    uint32_t count;
    struct record records[MOST];
};

static void report(int pipe, struct message m)
{
    if (write(pipe, &m, sizeof m) != (ssize_t)sizeof m) /* below PIPE_BUF: whole or not at all */
        _exit(3);
}

static void wrong(const char *what, uint32_t code)
{
    fprintf(stderr, "child: %s answered %" PRIu32 ": %s\n", what, code, filestore_meaning(code));
    _exit(4);
}

/* What is saved must be the durable areas as they are in memory: a save that left out a changed byte is found at once. And
 * at times the files are read, which must hold what is saved. */
static void compare(struct filestore *f)
{
    const struct filestore_area areas[] = {f->fixed, f->marks, f->log, f->stored};
    for (int i = 0; i < 4; i++)
        if (memcmp(f->saved + (areas[i].bytes - f->live), areas[i].bytes, areas[i].length) != 0) {
            fprintf(stderr, "child: what is saved differs from memory after an accepted call\n");
            _exit(5);
        }
    if (shim_chance(8) == 0 && filestore_scrub(f) != 0)
        _exit(5);
}

static bool open_or_create(struct filestore *f)
{
    return access(path, F_OK) == 0 ? filestore_open(f, path, sizes, NULL) : filestore_create(f, path, sizes, NULL);
}

/* A checkpoint; or a page compacted by itself, or a close. */
static void tend(struct filestore *f)
{
    static const uint32_t ages[] = {0, 4, UINT32_MAX};
    uint32_t min_del = 1 + (uint32_t)shim_chance(2), max_age = ages[shim_chance(3)];
    uint64_t dice = shim_chance(4);
    ventarico_reply r = dice == 0 ? filestore_compact(f, (uint32_t)shim_chance(PAGES), min_del, max_age) :
        dice == 1 ? filestore_close(f) : filestore_checkpoint(f, min_del, max_age);
    if (r.code != VENTARICO_DONE)
        wrong("compact, close or checkpoint", r.code);
    compare(f);
}

static void empty_the_log(struct filestore *f)
{
    ventarico_reply r = filestore_checkpoint(f, 1, 0);
    if (r.code != VENTARICO_DONE)
        wrong("checkpoint", r.code);
}

static void child(int pipe)
{
    struct filestore f;
    struct message open_ones[AT_ONCE + 1] = {0};
    bool live[AT_ONCE + 1] = {false};
    if (!open_or_create(&f))
        _exit(6);
    for (;;) {
        uint32_t t = 1 + (uint32_t)shim_chance(AT_ONCE);
        struct message *m = &open_ones[t];
        uint64_t dice = shim_chance(20);
        ventarico_reply r;
        if (dice == 0) {
            tend(&f);
        } else if (!live[t]) {
            r = filestore_begin(&f, t);
            if (r.code != VENTARICO_DONE)
                wrong("begin", r.code);
            live[t] = true;
            m->count = 0;
        } else if (dice < 13 && m->count < MOST) {
            struct record c = {(uint32_t)shim_chance(PAGES), 0, 1u << shim_chance(4), (uint32_t)shim_chance(2),
                shim_chance(UINT64_MAX)};
            c.offset = 8 * (uint32_t)shim_chance(12) + (uint32_t)shim_chance(9); /* few places, so that they meet */
            if (c.length < 8)
                c.value &= (UINT64_C(1) << 8 * c.length) - 1;
            r = filestore_update(&f, t, c.page, c.offset, c.length, c.kind, c.value);
            if (r.code == VENTARICO_DONE)
                m->records[m->count++] = c;
            else if (r.code == VENTARICO_ONLINE_FULL)
                empty_the_log(&f);
            else if (r.code != VENTARICO_HELD)
                wrong("update", r.code);
        } else if (dice < 16) {
            r = filestore_abort(&f, t);
            if (r.code != VENTARICO_DONE)
                wrong("abort", r.code);
            live[t] = false;
        } else {
            m->what = 'a';
            report(pipe, *m);
            r = filestore_commit(&f, t);
            if (r.code == VENTARICO_LOG_FULL) {
                empty_the_log(&f);
                r = filestore_commit(&f, t);
            }
            if (r.code != VENTARICO_DONE)
                wrong("commit", r.code);
            m->what = 'd';
            report(pipe, *m);
            compare(&f);
            live[t] = false;
        }
    }
}

/* ---- The parent. */

static uint8_t model[PAGES][PAGE], with_flight[PAGES][PAGE], found[PAGES][PAGE];
static unsigned long commits, flights, flights_kept;

static void apply(uint8_t pages[PAGES][PAGE], const struct message *m)
{
    for (uint32_t i = 0; i < m->count; i++) {
        const struct record *c = &m->records[i];
        uint8_t *at = pages[c->page] + c->offset;
        uint64_t carry = c->value;
        for (uint32_t b = 0; b < c->length; b++) {
            uint64_t sum = (carry & 255) + (c->kind == VENTARICO_ADD ? at[b] : 0);
            at[b] = (uint8_t)sum;
            carry = (carry >> 8) + (sum >> 8);
        }
    }
}

static long milliseconds(void)
{
    struct timespec now;
    clock_gettime(CLOCK_MONOTONIC, &now);
    return now.tv_sec * 1000 + now.tv_nsec / 1000000;
}

/* Reads the reports until the child is dead; sends SIGKILL after this many milliseconds. The last message that was not
 * answered by 'd' is the commit in flight. */
static bool follow(pid_t child, int pipe, long milli, struct message *flight)
{
    long end = milliseconds() + milli;
    bool killed = false;
    flight->count = 0;
    for (;;) {
        struct message m;
        struct pollfd wait = {.fd = pipe, .events = POLLIN};
        long still = end - milliseconds();
        if (!killed && still <= 0) {
            kill(child, SIGKILL);
            killed = true;
        }
        if (poll(&wait, 1, killed ? -1 : (int)still) <= 0)
            continue;
        ssize_t got = read(pipe, &m, sizeof m);
        if (got == 0)
            break;
        if (got != (ssize_t)sizeof m)
            return false;
        if (m.what == 'a') {
            *flight = m;
        } else {
            apply(model, &m);
            flight->count = 0;
            commits++;
        }
    }
    int status;
    waitpid(child, &status, 0);
    return WIFSIGNALED(status) && WTERMSIG(status) == SIGKILL;
}

static pid_t start_child(int pipe[2], unsigned long calls, enum shim_deed deed, bool only_open)
{
    fflush(NULL);
    uint64_t seed = shim_chance(UINT64_MAX);
    pid_t made = fork();
    if (made != 0)
        return made;
    if (pipe)
        close(pipe[0]);
    shim_seed(seed);
    shim = (struct shim){.at = calls, .deed = deed, .real_syncs = calls == 0};
    if (!only_open)
        child(pipe[1]);
    struct filestore f;
    _exit(open_or_create(&f) ? 0 : 6);
}

/* Every page of the reopened store, read by a transaction. */
static bool read_store(void)
{
    struct filestore f;
    if (!open_or_create(&f))
        return false;
    bool good = filestore_begin(&f, 32).code == VENTARICO_DONE;
    for (uint32_t p = 0; p < PAGES; p++)
        good = good && filestore_read(&f, found[p], PAGE, 32, p, 0, PAGE).code == VENTARICO_DONE;
    filestore_drop(&f);
    return good;
}

static bool round_holds(unsigned long number)
{
    int pipes[2];
    uint64_t dice = shim_chance(8);
    bool fresh = number % 10 == 0, killed = dice == 0;
    enum shim_deed deed = killed ? SHIM_NONE : dice < 3 ? SHIM_CRASH : SHIM_POWER;
    const char *death = killed ? "killed" : deed == SHIM_CRASH ? "crash" : "power";
    if (fresh) {
        clear_store(path);
        memset(model, 0, sizeof model);
    }
    if (killed)
        shim_settle();
    if (pipe(pipes) != 0) {
        perror("pipe");
        return false;
    }
    struct message flight;
    pid_t made = start_child(pipes, killed ? 0 : 1 + shim_chance(fresh ? 40 : 200), deed, false);
    close(pipes[1]);
    bool good = made > 0 && follow(made, pipes[0], killed ? (long)shim_chance(60) : 5000, &flight);
    close(pipes[0]);
    if (!good) {
        printf("FAILED kills, round %lu: the child ended in a way of its own. Next: its line above says which call.\n", number);
        return false;
    }
    if (deed != SHIM_POWER || shim_chance(2))
        for (uint64_t n = shim_chance(4); n > 0; n--) {
            int status;
            pid_t opener = start_child(NULL, 1 + shim_chance(20), shim_chance(4) == 0 ? SHIM_CRASH : SHIM_POWER, true);
            waitpid(opener, &status, 0);
            if (WIFEXITED(status) && WEXITSTATUS(status) != 0) {
                printf("FAILED kills, round %lu: a child could not open the file. Next: do as its line above says.\n", number);
                return false;
            }
        }
    if (!read_store()) {
        printf("FAILED kills, round %lu: the file did not open again, or a page was not read. Next: judge() in "
               "examples/filestore.c.\n", number);
        return false;
    }
    memcpy(with_flight, model, sizeof model);
    apply(with_flight, &flight);
    flights += flight.count > 0;
    if (memcmp(found, model, sizeof model) == 0)
        return true;
    if (memcmp(found, with_flight, sizeof model) == 0) {
        flights_kept++;
        memcpy(model, with_flight, sizeof model);
        return true;
    }
    size_t at = 0;
    while (((uint8_t *)found)[at] == ((uint8_t *)model)[at])
        at++;
    printf("FAILED kills, round %lu (%s): page %zu, offset %zu is %u; committed was %u. Next: see which save was cut, in "
           "examples/filestore.c.\n", number, death, at / PAGE, at % PAGE, ((uint8_t *)found)[at],
        ((uint8_t *)model)[at]);
    memcpy(model, found, sizeof model); /* the next round is judged by itself */
    return false;
}

bool kills(const char *store, uint64_t seed, unsigned long rounds)
{
    unsigned long passed = 0, failed = 0;
    path = store;
    shim_seed(seed);
    shim = (struct shim){0};
    signal(SIGPIPE, SIG_IGN);
    printf("kills: seed %" PRIu64 " (the moments of SIGKILL differ from run to run)\n", seed);
    long began = milliseconds(), told = began;
    for (unsigned long i = 0; i < rounds && failed == 0; i++) {
        bool held = round_holds(i);
        passed += held;
        failed += !held;
        if (milliseconds() - told >= 3000) {
            told = milliseconds();
            fprintf(stderr, "  ... kills: %lu of %lu rounds, %ld s\n", i + 1, rounds, (told - began) / 1000);
        }
    }
    printf("kills: %lu of %lu rounds held; %lu commits reported done, %lu deaths with one in flight, of which %lu were kept\n",
        passed, rounds, commits, flights, flights_kept);
    return passed == rounds;
}
