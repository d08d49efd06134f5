#define _XOPEN_SOURCE 700
#define _DEFAULT_SOURCE /* MAP_ANONYMOUS */
#include "shim.h"

#include <errno.h>
#include <fcntl.h>
#include <signal.h>
#include <stdarg.h>
#include <stdio.h>
#include <stdlib.h>
#include <string.h>
#include <sys/mman.h>
#include <sys/stat.h>
#include <unistd.h>

int __real_open(const char *path, int flags, ...);
int __real_fsync(int file);
int __real_fdatasync(int file);
int __real_ftruncate(int file, off_t length);
int __real_rename(const char *from, const char *to);
ssize_t __real_pwrite(int file, const void *bytes, size_t length, off_t at);
ssize_t __real_pread(int file, void *bytes, size_t length, off_t at);
int __wrap_open(const char *path, int flags, ...);
int __wrap_fsync(int file);
int __wrap_fdatasync(int file);
int __wrap_ftruncate(int file, off_t length);
int __wrap_rename(const char *from, const char *to);
ssize_t __wrap_pwrite(int file, const void *bytes, size_t length, off_t at);
ssize_t __wrap_pread(int file, void *bytes, size_t length, off_t at);

struct shim shim;

enum what { WRITTEN, CUT, MADE, RENAMED };
enum { MOST = 8192, NAMES = 4, ROOM = 64 << 20 };

/* One change that no sync has covered. */
struct change {
    enum what what;
    bool doomed; /* a sync of it has failed */
    ino_t file;
    size_t at, length, old_length; /* old_length: of the file; the old bytes are those of the range that were there */
    size_t old;                    /* where they stand in the room */
    int from, to;                  /* names */
};

static struct {
    size_t count, used;
    struct change list[MOST];
    uint8_t room[ROOM];
} *disk; /* shared by all processes of the test */

static char names[NAMES][4200];
static uint64_t state = 1;

static void stop(const char *what)
{
    perror(what);
    abort();
}

void shim_seed(uint64_t seed)
{
    state = seed * UINT64_C(0x9e3779b97f4a7c15) | 1;
}

uint64_t shim_chance(uint64_t below)
{
    state ^= state << 13;
    state ^= state >> 7;
    state ^= state << 17;
    return (state >> 11) % below;
}

void shim_begin(const char *path)
{
    static const char *const ends[NAMES] = {"", ".journal", ".new", ".journal.new"};
    for (int i = 0; i < NAMES; i++)
        snprintf(names[i], sizeof names[i], "%s%s", path, ends[i]);
    disk = mmap(NULL, sizeof *disk, PROT_READ | PROT_WRITE, MAP_SHARED | MAP_ANONYMOUS | MAP_NORESERVE, -1, 0);
    if (disk == MAP_FAILED)
        stop("mmap");
}

void shim_settle(void)
{
    disk->count = disk->used = 0;
}

static int name_number(const char *path)
{
    for (int i = 0; i < NAMES; i++)
        if (strcmp(names[i], path) == 0)
            return i;
    return -1;
}

static struct stat look(int file)
{
    struct stat is;
    if (fstat(file, &is) != 0)
        stop("fstat");
    return is;
}

static int open_again(ino_t file)
{
    for (int i = 0; i < NAMES; i++) {
        struct stat is;
        if (lstat(names[i], &is) == 0 && is.st_ino == file)
            return __real_open(names[i], O_RDWR);
    }
    return -1;
}

/* ---- What no sync has covered. */

static struct change *note(struct change c)
{
    if (disk->count == MOST)
        stop("too many changes for the shim");
    disk->list[disk->count] = c;
    return &disk->list[disk->count++];
}

static void note_name(enum what what, int from, int to)
{
    if (!shim.real_syncs)
        note((struct change){.what = what, .from = from, .to = to});
}

static void remember(int file, enum what what, size_t at, size_t length)
{
    if (shim.real_syncs)
        return;
    struct stat is = look(file);
    size_t old_length = (size_t)is.st_size, end = at + length < old_length ? at + length : old_length;
    struct change *c = note((struct change){.what = what, .file = is.st_ino, .at = at, .length = length,
        .old_length = old_length, .old = disk->used});
    if (end <= at)
        return;
    if (disk->used + (end - at) > ROOM)
        stop("too many bytes for the shim");
    if (__real_pread(file, disk->room + c->old, end - at, (off_t)at) != (ssize_t)(end - at))
        stop("pread");
    disk->used += end - at;
}

/* A doomed change is mended when what was synced now covers it. */
static bool is_covered(const struct change *doomed)
{
    for (size_t i = 0; i < disk->count; i++) {
        const struct change *c = &disk->list[i];
        if (c > doomed && !c->doomed && c->what == WRITTEN && c->file == doomed->file && c->at <= doomed->at &&
            c->at + c->length >= doomed->at + doomed->length)
            return true;
    }
    return false;
}

static void forget(ino_t file, bool names_too)
{
    static bool keep[MOST];
    size_t kept = 0;
    if (shim.real_syncs)
        return;
    for (size_t i = 0; i < disk->count; i++) {
        const struct change *c = &disk->list[i];
        bool of_this = names_too ? c->what >= MADE : c->what < MADE && c->file == file;
        keep[i] = !of_this || (c->doomed && !is_covered(c));
    }
    for (size_t i = 0; i < disk->count; i++)
        if (keep[i])
            disk->list[kept++] = disk->list[i];
    disk->count = kept;
    if (kept == 0)
        disk->used = 0;
}

static void doom(ino_t file)
{
    for (size_t i = 0; i < disk->count; i++)
        if (disk->list[i].what < MADE && disk->list[i].file == file)
            disk->list[i].doomed = true;
}

/* ---- The power goes. */

static void restore(int file, const struct change *c, size_t from, size_t to)
{
    static const uint8_t zeros[1 << 16];
    for (size_t i = from; i < to;) {
        bool old = i < c->old_length;
        size_t some = (old && to > c->old_length ? c->old_length : to) - i;
        if (some > sizeof zeros)
            some = sizeof zeros;
        if (__real_pwrite(file, old ? disk->room + c->old + (i - c->at) : zeros, some, (off_t)i) < 0)
            stop("pwrite");
        i += some;
    }
}

static void take_back_bytes(const struct change *c, bool all)
{
    int file = open_again(c->file);
    if (file < 0)
        return; /* its name was taken back, so all of it is gone */
    size_t now = (size_t)look(file).st_size;
    if (c->what == WRITTEN && !all && c->length > 0 && shim_chance(2)) {
        size_t skip = shim_chance(c->length);
        restore(file, c, c->at + skip, c->at + skip + 1 + shim_chance(c->length - skip));
    } else {
        restore(file, c, c->at, c->at + c->length);
        if (now == c->at + c->length && now > c->old_length && __real_ftruncate(file, (off_t)c->old_length) != 0)
            stop("ftruncate");
    }
    close(file);
}

static void take_back(const struct change *c, bool all)
{
    if (c->what < MADE)
        take_back_bytes(c, all);
    else if (c->what == MADE)
        unlink(names[c->to]);
    else
        __real_rename(names[c->to], names[c->from]);
}

void shim_power_loss(bool all)
{
    for (size_t i = disk->count; i-- > 0;)
        if (all || shim_chance(2))
            take_back(&disk->list[i], all);
    shim_settle();
}

static void die(void)
{
    if (shim.deed == SHIM_POWER || shim.deed == SHIM_BLACKOUT)
        shim_power_loss(shim.deed == SHIM_BLACKOUT);
    kill(getpid(), SIGKILL);
}

/* ---- The calls. */

static bool is_due(void)
{
    shim.count++;
    if (shim.deed == SHIM_INTERRUPT && shim.at > 0 && shim.count > shim.at && shim.count < shim.at + 3)
        return true;
    return shim.count == shim.at;
}

static bool dies(void)
{
    return shim.deed >= SHIM_CRASH;
}

/* The call fails by what is asked for, or not at all. */
static bool fails(void)
{
    errno = shim.deed == SHIM_FAIL ? EIO : EINTR;
    return shim.deed == SHIM_FAIL || shim.deed == SHIM_INTERRUPT;
}

static void done(void)
{
    if (shim.after)
        shim.after();
}

/* Does a write change nothing? */
static bool is_same(int file, const uint8_t *bytes, size_t length, off_t at)
{
    uint8_t *there = malloc(length + 1);
    if (!there)
        stop("malloc");
    bool same = __real_pread(file, there, length, at) == (ssize_t)length && memcmp(there, bytes, length) == 0;
    free(there);
    return same;
}

/* The front of the bytes; or a run here and there, or noise, and the file as long as it was to be. A write that changes
 * nothing leaves no noise. */
static void write_some(int file, const uint8_t *bytes, size_t length, off_t at)
{
    enum { RUN = 32 };
    static const uint8_t noise[RUN] = "what a sector holds that was cut";
    bool front = shim_chance(2), noisy = shim_chance(2) && !is_same(file, bytes, length, at);
    if (front && __real_pwrite(file, bytes, shim_chance(length + 1), at) < 0)
        stop("pwrite");
    for (size_t i = 0; !front && i < length; i += RUN) {
        uint64_t dice = shim_chance(noisy ? 3 : 2);
        if (dice > 0 && __real_pwrite(file, dice == 1 ? bytes + i : noise, length - i < RUN ? length - i : RUN,
                at + (off_t)i) < 0)
            stop("pwrite");
    }
    if (!front && look(file).st_size < at + (off_t)length && __real_ftruncate(file, at + (off_t)length) != 0)
        stop("ftruncate");
}

static ssize_t write_front(int file, const void *bytes, size_t length, off_t at)
{
    size_t front = (length + 1) / 2;
    remember(file, WRITTEN, (size_t)at, front);
    ssize_t some = __real_pwrite(file, bytes, front, at);
    if (shim.deed == SHIM_FULL) {
        errno = ENOSPC;
        return -1;
    }
    return some;
}

ssize_t __wrap_pwrite(int file, const void *bytes, size_t length, off_t at)
{
    bool due = is_due();
    shim.writes++;
    shim.bytes += length;
    if (shim.deed == SHIM_NOTHING && shim.at > 0 && shim.count >= shim.at) {
        if (++shim.zeros > 1000)
            _exit(9); /* it would never end */
        return 0;
    }
    if (due && fails())
        return -1;
    if (due && (shim.deed == SHIM_FULL || shim.deed == SHIM_SHORT))
        return write_front(file, bytes, length, at);
    if (!due || shim.deed != SHIM_BLACKOUT)
        remember(file, WRITTEN, (size_t)at, length);
    if (due && dies()) {
        if (shim.deed != SHIM_BLACKOUT)
            write_some(file, bytes, length, at);
        die();
    }
    ssize_t some = __real_pwrite(file, bytes, length, at);
    done();
    return some;
}

ssize_t __wrap_pread(int file, void *bytes, size_t length, off_t at)
{
    bool due = ++shim.reads == shim.read_at;
    if (due && fails())
        return -1;
    return __real_pread(file, bytes, due && shim.deed == SHIM_SHORT ? (length + 1) / 2 : length, at);
}

int __wrap_ftruncate(int file, off_t length)
{
    bool due = is_due();
    if (due && fails())
        return -1;
    if (due && dies())
        die();
    size_t is = (size_t)look(file).st_size;
    if (is > (size_t)length)
        remember(file, CUT, (size_t)length, is - (size_t)length);
    int result = __real_ftruncate(file, length);
    done();
    return result;
}

static int sync_file(int file, int (*real)(int))
{
    bool due = is_due();
    struct stat is = look(file);
    shim.syncs++;
    if (due && shim.deed == SHIM_FAIL)
        doom(is.st_ino);
    if (due && fails())
        return -1;
    if (due && dies())
        die();
    forget(is.st_ino, S_ISDIR(is.st_mode));
    int result = shim.real_syncs ? real(file) : 0;
    done();
    return result;
}

int __wrap_fsync(int file)
{
    return sync_file(file, __real_fsync);
}

int __wrap_fdatasync(int file)
{
    return sync_file(file, __real_fdatasync);
}

int __wrap_rename(const char *from, const char *to)
{
    bool due = is_due();
    if (due && shim.deed != SHIM_INTERRUPT && fails()) /* a rename is not interrupted */
        return -1;
    if (due && dies() && (shim.deed == SHIM_BLACKOUT || shim_chance(2)))
        die();
    note_name(RENAMED, name_number(from), name_number(to));
    int result = __real_rename(from, to);
    if (due && dies())
        die();
    done();
    return result;
}

int __wrap_open(const char *path, int flags, ...)
{
    mode_t mode = 0;
    if (flags & O_CREAT) {
        va_list list;
        va_start(list, flags);
        mode = (mode_t)va_arg(list, int);
        va_end(list);
    }
    struct stat is;
    bool makes = (flags & O_CREAT) && lstat(path, &is) != 0;
    if (!makes)
        return __real_open(path, flags, mode);
    bool due = is_due();
    if (due && fails())
        return -1;
    if (due && dies())
        die();
    note_name(MADE, -1, name_number(path));
    int file = __real_open(path, flags, mode);
    done();
    return file;
}
