/* The file-backed host. docs/FILESTORE.md has the bytes of both files and the argument in full; in short:
 *
 * F's body changes only while F's header says `applying`, and then only in parts that the journal holds whole and
 * synced. So at any moment the store is F's body with the journal's records put over it, in their order, and putting
 * them there once more changes nothing. A record counts if its checksum is right and it follows the record before it;
 * so what a loss leaves of the journal is a front of its records, and a sync that came back says how far that front
 * reaches at least.
 *
 * come_to_rest    1 a last record: the new checksums of F's parts; sync   in use: the journal is needed
 *                 2 header `applying`, so many records; sync              applying: the journal is needed, with as many
 *                 3 the parts that the records touch, whole; sync         applying: the same
 *                 4 header `rest`; sync                                   rest: F alone is whole
 * new_generation  5 the journal's header: next generation, new tie; sync  rest: F alone is whole
 *                 6 header `in use`, with both; sync                      in use: the journal is needed
 */
#define _XOPEN_SOURCE 700
#define _DEFAULT_SOURCE /* flock */
#include "filestore.h"

#include <errno.h>
#include <fcntl.h>
#include <inttypes.h>
#include <stdarg.h>
#include <stdlib.h>
#include <string.h>
#include <sys/file.h>
#include <sys/stat.h>
#include <unistd.h>

enum {
    BLOCK = 4096,
    BODY = 2 * BLOCK, /* two header slots stand before it, in F and in the journal */
    FILE_HEADER = 128,
    JOURNAL_HEADER = 64,
    RECORD_HEAD = 24,
    PIECE_HEAD = 8,
    ALIGNED = 8, /* records begin at multiples of this */
    FIXED = 20,
    MARKS_HEAD = 12,
    LOG_ROW = 14,
    TABLES_HEAD = 35,
    NUMBERS = 32,
    ONLINE_ROW = 19
};
static const uint8_t file_word[8] = {'v', 'e', 'n', 't', 'f', 'i', 'l', '2'};
static const uint8_t journal_word[8] = {'v', 'e', 'n', 't', 'j', 'r', 'n', '2'};

/* F's state; a record's kind; the parts of F, of which page p is PART_PAGES + p. */
enum { REST = 0, IN_USE = 1, APPLYING = 2 };
enum { COMMIT = 1, COMPACT = 2, CLOSE = 3, CHECKPOINT = 4, FORMAT = 5, SUMS = 6, MEND = 7 };
enum { PART_MARKS, PART_LOG, PART_SUMS, PART_PAGES };

/* ---- Bytes. */

static uint32_t get32(const uint8_t *at)
{
    return at[0] | (uint32_t)at[1] << 8 | (uint32_t)at[2] << 16 | (uint32_t)at[3] << 24;
}

static void put32(uint8_t *at, uint32_t number)
{
    for (int i = 0; i < 4; i++)
        at[i] = (uint8_t)(number >> 8 * i);
}

static uint64_t get64(const uint8_t *at)
{
    return get32(at) | (uint64_t)get32(at + 4) << 32;
}

static void put64(uint8_t *at, uint64_t number)
{
    put32(at, (uint32_t)number);
    put32(at + 4, (uint32_t)(number >> 32));
}

static struct filestore_place get_place(const uint8_t *at)
{
    return (struct filestore_place){get32(at), get32(at + 4)};
}

static void put_place(uint8_t *at, struct filestore_place place)
{
    put32(at, place.at);
    put32(at + 4, place.length);
}

static uint32_t rounded_up(uint32_t number, uint32_t to)
{
    return (number + to - 1) / to * to;
}

/* CRC-32 as zlib has it, by half bytes. */
static uint32_t crc32(uint32_t crc, const uint8_t *bytes, size_t length)
{
    static const uint32_t half[16] = {0x00000000, 0x1db71064, 0x3b6e20c8, 0x26d930ac, 0x76dc4190, 0x6b6b51f4,
        0x4db26158, 0x5005713c, 0xedb88320, 0xf00f9344, 0xd6d6a3e8, 0xcb61b38c, 0x9b64c2b0, 0x86d3d2d4, 0xa00ae278,
        0xbdbdf21c};
    crc = ~crc;
    for (size_t i = 0; i < length; i++) {
        crc = crc >> 4 ^ half[(crc ^ bytes[i]) & 15];
        crc = crc >> 4 ^ half[(crc ^ bytes[i] >> 4) & 15];
    }
    return ~crc;
}

/* The checksum of a record, by groups of eight bytes, the last one filled up with zeros. It is no CRC: pieces are bytes
 * of others, and may hold a CRC of their own next to what it covers. Then one such run may stand for another, as when a
 * record is torn and old bytes shine through, and a CRC around both does not see it. A product does. */
static uint64_t mix(uint64_t state, const uint8_t *bytes, size_t length)
{
    for (size_t i = 0; i < length; i += 8) {
        uint8_t last[8] = {0};
        if (length - i < 8)
            memcpy(last, bytes + i, length - i);
        state = (state ^ get64(length - i < 8 ? last : bytes + i)) * UINT64_C(0x9e3779b97f4a7c15);
        state ^= state >> 32;
    }
    return state;
}

/* ---- The system. These answer false, or -1, with the reason in errno. */

static bool write_all(int file, const uint8_t *bytes, size_t length, size_t at)
{
    while (length > 0) {
        ssize_t some = pwrite(file, bytes, length, (off_t)at);
        if (some < 0 && errno == EINTR)
            continue;
        if (some == 0)
            errno = EIO; /* a disk that takes nothing and says nothing: to try again might never end */
        if (some <= 0)
            return false;
        bytes += some;
        length -= (size_t)some;
        at += (size_t)some;
    }
    return true;
}

static bool read_all(int file, uint8_t *bytes, size_t length, size_t at)
{
    while (length > 0) {
        ssize_t some = pread(file, bytes, length, (off_t)at);
        if (some < 0 && errno == EINTR)
            continue;
        if (some == 0)
            errno = EIO; /* shorter than its length said */
        if (some <= 0)
            return false;
        bytes += some;
        length -= (size_t)some;
        at += (size_t)some;
    }
    return true;
}

/* The bytes of a file whose length does not change. */
static bool sync_bytes(int file)
{
    while (fdatasync(file) != 0)
        if (errno != EINTR)
            return false;
    return true;
}

/* Bytes and length. */
static bool sync_whole(int file)
{
    while (fsync(file) != 0)
        if (errno != EINTR)
            return false;
    return true;
}

/* The name itself must be a plain file: behind a symbolic link the journal would be looked for at the wrong place. */
static int open_plain(const char *path, int flags)
{
    int file;
    do
        file = open(path, flags | O_NOFOLLOW | O_CLOEXEC | O_NONBLOCK, 0666);
    while (file < 0 && errno == EINTR);
    struct stat is;
    if (file >= 0 && (fstat(file, &is) != 0 || !S_ISREG(is.st_mode))) {
        close(file);
        errno = ELOOP;
        return -1;
    }
    return file;
}

static bool empty(int file)
{
    while (ftruncate(file, 0) != 0)
        if (errno != EINTR)
            return false;
    return true;
}

static bool has_length(int file, uint32_t length)
{
    struct stat is;
    return fstat(file, &is) == 0 && is.st_size == (off_t)length;
}

static bool is_there(const char *path)
{
    struct stat is;
    return lstat(path, &is) == 0;
}

/* New names in a folder are there for good only when the folder is synced. */
static bool sync_folder(const char *path)
{
    const char *slash = strrchr(path, '/');
    size_t length = slash ? (size_t)(slash - path) + 1 : 0;
    char *folder = malloc(length + 2);
    if (!folder)
        return false;
    memcpy(folder, path, length);
    memcpy(folder + length, ".", 2);
    int opened = open(folder, O_RDONLY | O_DIRECTORY | O_CLOEXEC);
    free(folder);
    bool good = opened >= 0 && sync_whole(opened);
    if (opened >= 0)
        close(opened);
    return good;
}

static bool fill_random(uint8_t *bytes, size_t length)
{
    int source = open("/dev/urandom", O_RDONLY | O_CLOEXEC);
    bool good = source >= 0;
    while (good && length > 0) {
        ssize_t some = read(source, bytes, length);
        good = some > 0 || (some < 0 && errno == EINTR);
        bytes += some > 0 ? some : 0;
        length -= some > 0 ? (size_t)some : 0;
    }
    if (source >= 0)
        close(source);
    return good;
}

static char *joined(const char *path, const char *more)
{
    size_t length = strlen(path), rest = strlen(more) + 1;
    char *name = malloc(length + rest);
    if (name) {
        memcpy(name, path, length);
        memcpy(name + length, more, rest);
    }
    return name;
}

/* A lock belongs to what was opened, not to the process: a second open in the same process is refused too, and its
 * close frees nothing. */
static bool lock(int file, int how)
{
    return flock(file, how | LOCK_NB) == 0;
}

/* Another process may have had the lock before, and have given the file another name. */
static bool has_name(int file, const char *path)
{
    struct stat is, named;
    errno = EWOULDBLOCK;
    return fstat(file, &is) == 0 && lstat(path, &named) == 0 && is.st_dev == named.st_dev && is.st_ino == named.st_ino;
}

/* A new file gets its name only when it is whole: until then it is NAME.new, which may be left from a loss. */
static int begin_draft(const char *draft)
{
    int file = open_plain(draft, O_RDWR | O_CREAT);
    if (file >= 0 && lock(file, LOCK_EX) && has_name(file, draft) && empty(file))
        return file;
    int why = errno;
    if (file >= 0)
        close(file);
    errno = why;
    return -1;
}

static bool end_draft(int file, const char *draft, const char *name)
{
    return sync_whole(file) && rename(draft, name) == 0 && sync_folder(name);
}

/* ---- Layout. Every length of an area stands here. */

static struct filestore_place behind(struct filestore_place before, uint32_t length)
{
    return (struct filestore_place){before.at + before.length, length};
}

static uint32_t parts(const struct filestore *f)
{
    return PART_PAGES + f->sizes.pages;
}

static bool sizes_in_range(struct filestore_sizes z)
{
    return z.page_size >= 512 && z.page_size <= 4096 && z.pages >= 1 && z.pages <= 1024 && z.frames >= 1 &&
        z.frames <= 64 && z.online >= 1 && z.online <= 512 && z.log >= 1 && z.log <= 2048;
}

static void lay_out(struct filestore *f)
{
    const struct filestore_sizes z = f->sizes;
    f->layout.fixed = (struct filestore_place){BODY, FIXED};
    f->layout.marks = behind(f->layout.fixed, MARKS_HEAD + 8 * z.pages);
    f->layout.log = behind(f->layout.marks, LOG_ROW * z.log);
    f->layout.sums = behind(f->layout.log, 4 * parts(f));
    f->layout.stored.at = rounded_up(behind(f->layout.sums, 0).at, BLOCK);
    f->layout.stored.length = z.page_size * z.pages;
    f->layout.length = behind(f->layout.stored, 0).at;
    f->layout.most = rounded_up(RECORD_HEAD + PIECE_HEAD * parts(f) + f->layout.length - BODY, ALIGNED);
    f->layout.sums_record = rounded_up(RECORD_HEAD + PIECE_HEAD + f->layout.sums.length, ALIGNED);
    f->tables.length = (size_t)TABLES_HEAD + z.frames + z.pages;
    f->online.length = (size_t)ONLINE_ROW * z.online;
    f->pool.length = (size_t)z.page_size * z.frames;
}

static uint32_t least_journal(const struct filestore *f)
{
    return rounded_up(BODY + f->layout.most + f->layout.sums_record, BLOCK);
}

static struct filestore_area area(struct filestore *f, struct filestore_place place)
{
    return (struct filestore_area){f->live + place.at, place.length};
}

static bool make_areas(struct filestore *f)
{
    f->live = calloc(1, f->layout.length);
    f->saved = calloc(1, f->layout.length);
    f->room = malloc(f->layout.most);
    f->touched = calloc(parts(f), sizeof *f->touched);
    f->changes = calloc(parts(f), sizeof *f->changes);
    f->tables.bytes = malloc(f->tables.length + f->online.length + f->pool.length);
    if (!f->live || !f->saved || !f->room || !f->touched || !f->changes || !f->tables.bytes)
        return false;
    f->fixed = area(f, f->layout.fixed);
    f->marks = area(f, f->layout.marks);
    f->log = area(f, f->layout.log);
    f->stored = area(f, f->layout.stored);
    f->online.bytes = f->tables.bytes + f->tables.length;
    f->pool.bytes = f->online.bytes + f->online.length;
    /* Memory at power-up holds anything. Noise shows a forgotten restart at once, where zeros would look sound. */
    for (size_t i = 0; i < f->tables.length + f->online.length + f->pool.length; i++)
        f->tables.bytes[i] = (uint8_t)(0xa5 ^ i * 151);
    return true;
}

/* A part of F has one checksum, and goes into the journal whole when a generation touches it first. */
static struct filestore_place part(const struct filestore *f, uint32_t n)
{
    const struct filestore_place fixed = f->layout.fixed;
    const uint32_t size = f->sizes.page_size;
    switch (n) {
    case PART_MARKS: return (struct filestore_place){fixed.at, fixed.length + f->layout.marks.length};
    case PART_LOG: return f->layout.log;
    case PART_SUMS: return f->layout.sums;
    default: return (struct filestore_place){f->layout.stored.at + size * (n - PART_PAGES), size};
    }
}

static uint32_t part_of(const struct filestore *f, uint32_t at)
{
    if (at >= f->layout.stored.at)
        return PART_PAGES + (at - f->layout.stored.at) / f->sizes.page_size;
    return at >= f->layout.sums.at ? PART_SUMS : at >= f->layout.log.at ? PART_LOG : PART_MARKS;
}

/* ---- Checksums of F's parts. */

static struct filestore_place stamp_of(const struct filestore *f, uint32_t page)
{
    return (struct filestore_place){f->layout.marks.at + MARKS_HEAD + 4 * page, 4};
}

/* Where the checksum of a part stands; that of the checksums themselves is the last. */
static uint32_t sum_at(const struct filestore *f, uint32_t n)
{
    uint32_t i = n < PART_SUMS ? n : n == PART_SUMS ? parts(f) - 1 : n - 1;
    return f->layout.sums.at + 4 * i;
}

static uint32_t sum_of(const struct filestore *f, const uint8_t *image, uint32_t n)
{
    struct filestore_place place = part(f, n);
    uint32_t crc = 0;
    if (n == PART_SUMS)
        place.length -= 4;
    if (n >= PART_PAGES) {
        uint8_t number[4];
        put32(number, n - PART_PAGES);
        crc = crc32(crc32(0, number, 4), image + stamp_of(f, n - PART_PAGES).at, 4);
    }
    return crc32(crc, image + place.at, place.length);
}

static bool sum_is_right(const struct filestore *f, const uint8_t *image, uint32_t n)
{
    return get32(image + sum_at(f, n)) == sum_of(f, image, n);
}

/* The checksums of what this generation has touched, as it is saved. */
static void put_sums(struct filestore *f)
{
    for (uint32_t n = 0; n < parts(f); n++)
        if (f->touched[n] && n != PART_SUMS)
            put32(f->live + sum_at(f, n), sum_of(f, f->saved, n));
    put32(f->live + sum_at(f, PART_SUMS), sum_of(f, f->live, PART_SUMS));
}

/* ---- Headers. */

/* The sizes as `fixed` has them. F's header has them too: F's body may be torn. */
static void put_sizes(uint8_t *at, struct filestore_sizes z)
{
    put32(at, z.page_size);
    put32(at + 4, z.pages);
    put32(at + 8, z.frames);
    put32(at + 12, z.online);
    put32(at + 16, z.log);
}

static struct filestore_sizes get_sizes(const uint8_t *at)
{
    return (struct filestore_sizes){get32(at), get32(at + 4), get32(at + 8), get32(at + 12), get32(at + 16), 0};
}

static bool write_header(struct filestore *f, uint32_t state, uint32_t applying)
{
    uint8_t head[FILE_HEADER] = {0};
    f->header_number++;
    memcpy(head, file_word, sizeof file_word);
    memcpy(head + 8, f->identity, sizeof f->identity);
    put64(head + 24, f->header_number);
    put64(head + 32, f->generation);
    put64(head + 40, f->tie);
    put32(head + 48, state);
    put32(head + 52, applying);
    put32(head + 56, f->layout.length);
    put_place(head + 60, f->layout.fixed);
    put_place(head + 68, f->layout.marks);
    put_place(head + 76, f->layout.log);
    put_place(head + 84, f->layout.sums);
    put_place(head + 92, f->layout.stored);
    put_sizes(head + 100, f->sizes);
    put32(head + FILE_HEADER - 4, crc32(0, head, FILE_HEADER - 4));
    f->state = state;
    f->applying = applying;
    return write_all(f->file, head, sizeof head, BLOCK * (f->header_number % 2)) && sync_bytes(f->file);
}

/* Reads the newer of the two headers that are right. One that cannot be read may be the newer: then none is taken. */
static bool read_header(struct filestore *f)
{
    bool found = false;
    for (uint32_t slot = 0; slot < 2; slot++) {
        uint8_t head[FILE_HEADER];
        if (!read_all(f->file, head, sizeof head, BLOCK * slot))
            return false;
        if (memcmp(head, file_word, sizeof file_word) != 0 ||
            get32(head + FILE_HEADER - 4) != crc32(0, head, FILE_HEADER - 4) ||
            (found && get64(head + 24) < f->header_number))
            continue;
        found = true;
        memcpy(f->identity, head + 8, sizeof f->identity);
        f->header_number = get64(head + 24);
        f->generation = get64(head + 32);
        f->tie = get64(head + 40);
        f->state = get32(head + 48);
        f->applying = get32(head + 52);
        f->layout.length = get32(head + 56);
        f->layout.fixed = get_place(head + 60);
        f->layout.marks = get_place(head + 68);
        f->layout.log = get_place(head + 76);
        f->layout.sums = get_place(head + 84);
        f->layout.stored = get_place(head + 92);
        f->sizes = get_sizes(head + 100);
    }
    return found;
}

static void set_seed(struct filestore *f, uint64_t generation, uint64_t tie)
{
    uint8_t words[16];
    put64(words, generation);
    put64(words + 8, tie);
    f->seed = mix(mix(0, f->identity, sizeof f->identity), words, sizeof words);
}

/* A generation's header has its own slot, so that the one before stands until it is whole. */
static bool write_journal_header(struct filestore *f)
{
    uint8_t head[JOURNAL_HEADER] = {0};
    memcpy(head, journal_word, sizeof journal_word);
    memcpy(head + 8, f->identity, sizeof f->identity);
    put64(head + 24, f->generation);
    put64(head + 32, f->tie);
    put32(head + 40, f->journal_length);
    put32(head + JOURNAL_HEADER - 4, crc32(0, head, JOURNAL_HEADER - 4));
    return write_all(f->journal, head, sizeof head, BLOCK * (f->generation % 2));
}

struct journal_head {
    bool found;
    uint8_t identity[16];
    uint64_t generation, tie;
    uint32_t length;
};

static struct journal_head read_journal_head(int journal)
{
    struct journal_head newest = {.found = false};
    for (uint32_t slot = 0; slot < 2; slot++) {
        uint8_t head[JOURNAL_HEADER];
        if (!read_all(journal, head, sizeof head, BLOCK * slot))
            return (struct journal_head){.found = false};
        if (memcmp(head, journal_word, sizeof journal_word) != 0 ||
            get32(head + JOURNAL_HEADER - 4) != crc32(0, head, JOURNAL_HEADER - 4) ||
            (newest.found && get64(head + 24) < newest.generation))
            continue;
        newest = (struct journal_head){.found = true, .generation = get64(head + 24), .tie = get64(head + 32),
            .length = get32(head + 40)};
        memcpy(newest.identity, head + 8, sizeof newest.identity);
    }
    return newest;
}

/* ---- Records. */

static uint32_t record_sum(const struct filestore *f, const uint8_t *record, uint32_t length)
{
    return (uint32_t)mix(f->seed, record + 4, length - 4);
}

/* Is there a whole record of this generation at this place of the journal? Anything may stand there. */
static bool is_record(const struct filestore *f, const uint8_t *journal, uint32_t at)
{
    if (f->journal_length - at < RECORD_HEAD || get32(journal + at + 4) > f->journal_length - at - RECORD_HEAD)
        return false;
    uint32_t number = get32(journal + at + 8), kind = get32(journal + at + 20);
    return number > 0 && number < f->journal_length && get32(journal + at + 12) < number && kind >= COMMIT &&
        kind <= MEND && get32(journal + at) == record_sum(f, journal + at, RECORD_HEAD + get32(journal + at + 4));
}

static bool piece_fits(const struct filestore *f, const uint8_t *piece, uint32_t left)
{
    if (left < PIECE_HEAD)
        return false;
    struct filestore_place place = get_place(piece);
    if (place.at < BODY || place.length == 0 || place.length > left - PIECE_HEAD || part_of(f, place.at) >= parts(f))
        return false;
    struct filestore_place whole = part(f, part_of(f, place.at));
    return place.at - whole.at < whole.length && place.length <= whole.length - (place.at - whole.at);
}

/* Puts a record's pieces over what is saved. False: one of them lies in no part of F. */
static bool replay(struct filestore *f, const uint8_t *pieces, uint32_t left)
{
    while (left > 0) {
        if (!piece_fits(f, pieces, left))
            return false;
        struct filestore_place place = get_place(pieces);
        memcpy(f->saved + place.at, pieces + PIECE_HEAD, place.length);
        f->touched[part_of(f, place.at)] = true;
        pieces += PIECE_HEAD + place.length;
        left -= PIECE_HEAD + place.length;
    }
    return true;
}

/* Goes through the records from the first on, up to one that is torn or does not follow the one before. */
static bool replay_all(struct filestore *f, const uint8_t *journal)
{
    f->end = BODY;
    f->records = f->synced = f->previous = 0;
    while ((f->state != APPLYING || f->records < f->applying) && is_record(f, journal, f->end) &&
        get32(journal + f->end + 8) == f->records + 1 && get32(journal + f->end + 16) == f->previous) {
        uint32_t length = get32(journal + f->end + 4);
        if (!replay(f, journal + f->end + RECORD_HEAD, length))
            return false;
        f->synced = get32(journal + f->end + 12);
        f->previous = get32(journal + f->end);
        f->ended = get32(journal + f->end + 20) == SUMS;
        f->records++;
        f->end += rounded_up(RECORD_HEAD + length, ALIGNED);
    }
    return true;
}

/* A record further on which says that more were synced than are there: no power loss leaves that. */
static bool one_is_missing(const struct filestore *f, const uint8_t *journal)
{
    for (uint32_t at = f->end; f->journal_length - at >= RECORD_HEAD; at += ALIGNED)
        if (get32(journal + at + 12) > f->records && is_record(f, journal, at))
            return true;
    return false;
}

static uint32_t add_piece(struct filestore *f, uint32_t end, struct filestore_place place)
{
    put_place(f->room + end, place);
    memcpy(f->room + end + PIECE_HEAD, f->live + place.at, place.length);
    return end + PIECE_HEAD + place.length;
}

/* A piece for each run of bytes that differ. Runs with less than a piece's head between them are one, so that all
 * pieces together are no longer than the whole would be. */
static uint32_t add_differences(struct filestore *f, uint32_t end, struct filestore_place place)
{
    enum { STEP = 64 };
    const uint8_t *live = f->live, *saved = f->saved;
    uint32_t i = place.at, stop = place.at + place.length;
    while (i < stop) {
        if (stop - i >= STEP && memcmp(live + i, saved + i, STEP) == 0) {
            i += STEP;
            continue;
        }
        if (live[i] == saved[i]) {
            i++;
            continue;
        }
        uint32_t from = i, to = ++i; /* the run's first byte, and the one behind its last */
        for (; i < stop && i < to + PIECE_HEAD; i++)
            if (live[i] != saved[i])
                to = i + 1;
        end = add_piece(f, end, (struct filestore_place){from, to - from});
    }
    return end;
}

/* Builds the record that saves these changes, each within one part, and answers its length. */
static uint32_t build_record(struct filestore *f, uint32_t kind, const struct filestore_place *changes, size_t count)
{
    uint32_t end = RECORD_HEAD;
    for (size_t i = 0; i < count; i++) {
        uint32_t n = part_of(f, changes[i].at);
        end = f->touched[n] ? add_differences(f, end, changes[i]) : add_piece(f, end, part(f, n));
    }
    put32(f->room + 4, end - RECORD_HEAD);
    put32(f->room + 8, f->records + 1);
    put32(f->room + 12, f->synced);
    put32(f->room + 16, f->previous);
    put32(f->room + 20, kind);
    put32(f->room, record_sum(f, f->room, end));
    for (; end % ALIGNED != 0; end++)
        f->room[end] = 0;
    return end;
}

static bool append_record(struct filestore *f, uint32_t length, const struct filestore_place *changes, size_t count)
{
    if (!write_all(f->journal, f->room, length, f->end))
        return false;
    f->end += length;
    f->records++;
    f->previous = get32(f->room);
    f->ended = get32(f->room + 20) == SUMS;
    for (size_t i = 0; i < count; i++) {
        memcpy(f->saved + changes[i].at, f->live + changes[i].at, changes[i].length);
        f->touched[part_of(f, changes[i].at)] = true;
    }
    return true;
}

static bool sync_journal(struct filestore *f)
{
    if (f->synced < f->records && !sync_bytes(f->journal))
        return false;
    f->synced = f->records;
    return true;
}

/* ---- F takes in its journal: the steps of this file's head. */

/* Steps 2 and 3. */
static bool apply(struct filestore *f)
{
    if (!write_header(f, APPLYING, f->records))
        return false;
    for (uint32_t n = 0; n < parts(f); n++) {
        struct filestore_place place = part(f, n);
        if (f->touched[n] && !write_all(f->file, f->saved + place.at, place.length, place.at))
            return false;
    }
    return sync_bytes(f->file);
}

/* Step 1. A loss may have come behind it: then the record is there already, and there is no room for another. */
static bool end_generation(struct filestore *f)
{
    if (!f->ended) {
        put_sums(f);
        uint32_t length = build_record(f, SUMS, &f->layout.sums, 1);
        if (!append_record(f, length, &f->layout.sums, 1))
            return false;
    }
    return sync_journal(f);
}

static bool come_to_rest(struct filestore *f)
{
    if (f->state == IN_USE && f->records > 0 && !end_generation(f))
        return false;
    return (f->records == 0 || apply(f)) && write_header(f, REST, 0);
}

static bool new_generation(struct filestore *f)
{
    uint8_t tie[8];
    if (!fill_random(tie, sizeof tie))
        return false;
    f->tie = get64(tie);
    f->generation++;
    f->records = f->synced = f->previous = 0;
    f->ended = false;
    f->end = BODY;
    memset(f->touched, 0, parts(f) * sizeof *f->touched);
    set_seed(f, f->generation, f->tie);
    return write_journal_header(f) && sync_bytes(f->journal) && write_header(f, IN_USE, 0);
}

/* ---- Saves. */

static bool save_failed(struct filestore *f)
{
    fprintf(stderr, "filestore: %s with %s: a save failed: %s. Next: make room or mend the disk, then drop the store "
                    "and open it again; what was accepted before is kept.\n", f->path, f->beside, strerror(errno));
    f->broken = true;
    return false;
}

/* Saves these changes, all or none. */
static bool save(struct filestore *f, uint32_t kind, const struct filestore_place *changes, size_t count, bool sync)
{
    uint32_t length = build_record(f, kind, changes, count);
    if (length > f->journal_length - f->layout.sums_record - f->end) {
        if (!come_to_rest(f) || !new_generation(f))
            return save_failed(f);
        length = build_record(f, kind, changes, count);
    }
    if (!append_record(f, length, changes, count) || (sync && !sync_journal(f)))
        return save_failed(f);
    return true;
}

/* ---- Create, open and drop. */

#define AREA(a) (a).bytes, (a).length
#define ALL(f) AREA((f)->fixed), AREA((f)->marks), AREA((f)->log), AREA((f)->stored), AREA((f)->tables), \
    AREA((f)->online), AREA((f)->pool)

static ventarico_reply say(struct filestore *f, ventarico_reply r, const char *call, ...)
    __attribute__((format(printf, 3, 4)));

static bool refuse(struct filestore *f, enum filestore_refusal refusal, const char *why, const char *next)
{
    fprintf(stderr, "filestore: %s with %s: %s. Next: %s.\n", f->path ? f->path : "?", f->beside ? f->beside : "?", why,
        next);
    filestore_drop(f);
    f->refused = refusal;
    return false;
}

static bool refuse_by_system(struct filestore *f, const char *what)
{
    char why[160];
    int reason = errno;
    snprintf(why, sizeof why, "%s: %s", what, strerror(reason));
    if (reason == ELOOP || reason == EISDIR)
        return refuse(f, FILESTORE_NAME, why, "name the file itself: no symbolic link, folder or device");
    if (reason == EWOULDBLOCK)
        return refuse(f, FILESTORE_OPEN, "the store is open already, here or in another process",
            "drop it there, or take another file");
    return refuse(f, FILESTORE_SYSTEM, why,
        "see that the folder is there, may be written and has room, then try again");
}

static bool name_files(struct filestore *f, const char *path, FILE *talk)
{
    *f = (struct filestore){.file = -1, .journal = -1, .talk = talk};
    f->path = joined(path, "");
    f->beside = joined(path, ".journal");
    return (f->path && f->beside) || refuse_by_system(f, "memory");
}

/* Opens F, and learns from its header what it is. */
static bool open_file(struct filestore *f, int flags, int lock_kind)
{
    f->file = open_plain(f->path, flags);
    if (f->file < 0 && errno == ENOENT)
        return refuse(f, FILESTORE_NOT_THERE, "there is no such file",
            "see that the name is right; filestore_create makes a new store");
    if (f->file < 0)
        return refuse_by_system(f, "the file");
    if (!lock(f->file, lock_kind) || !has_name(f->file, f->path))
        return refuse_by_system(f, "the lock");
    if (has_length(f->file, 0))
        return refuse(f, FILESTORE_NO_STORE, "the file is empty", "take back a copy of both files; or remove both, and "
            "filestore_create makes a new store");
    if (!read_header(f))
        return refuse(f, FILESTORE_NO_STORE, "the file is no store of this host, or its headers cannot be read",
            "see that the name is right, or take back a copy of both files");
    return true;
}

static bool read_body(struct filestore *f)
{
    const struct filestore_place found[5] = {f->layout.fixed, f->layout.marks, f->layout.log, f->layout.sums,
        f->layout.stored};
    uint32_t length = f->layout.length;
    if (sizes_in_range(f->sizes))
        lay_out(f);
    const struct filestore_place wanted[5] = {f->layout.fixed, f->layout.marks, f->layout.log, f->layout.sums,
        f->layout.stored};
    if (!sizes_in_range(f->sizes) || memcmp(found, wanted, sizeof found) != 0 || length != f->layout.length)
        return refuse(f, FILESTORE_NO_STORE, "the file is of another version of this host", "open it with that one");
    if (!has_length(f->file, length))
        return refuse(f, FILESTORE_DAMAGED, "the file was cut or grown", "take back a copy of both files");
    if (!make_areas(f) || !read_all(f->file, f->saved + BODY, length - BODY, BODY))
        return refuse_by_system(f, "the file's body");
    return true;
}

static bool compare_sizes(struct filestore *f, struct filestore_sizes asked)
{
    uint8_t has[FIXED], wants[FIXED];
    put_sizes(has, f->sizes);
    put_sizes(wants, asked);
    f->sizes.journal = asked.journal;
    return memcmp(has, wants, FIXED) == 0 ||
        refuse(f, FILESTORE_SIZES, "it was made with other sizes", "open it with those, or take another file");
}

static bool has_damage(struct filestore *f, const char *file, const char *what, uint32_t number)
{
    fprintf(stderr, "filestore: %s: %s %" PRIu32 " is damaged: its checksum is wrong\n", file, what, number);
    f->damage++;
    return false;
}

static bool part_has_damage(struct filestore *f, uint32_t n)
{
    static const char *const names[PART_PAGES] = {"fixed with marks, part", "the log, part", "the checksums, part"};
    return n < PART_PAGES ? has_damage(f, f->path, names[n], n) : has_damage(f, f->path, "page", n - PART_PAGES);
}

/* Counts the parts whose checksum is wrong. */
static bool check_sums(struct filestore *f, const uint8_t *image)
{
    bool good = true;
    for (uint32_t n = 0; n < parts(f); n++)
        if (!sum_is_right(f, image, n))
            good = part_has_damage(f, n);
    return good;
}

static bool refuse_damage(struct filestore *f)
{
    return f->view || refuse(f, FILESTORE_DAMAGED, "a part is damaged, as said above",
        "take back a copy of both files; filestore_view shows what is there");
}

/* A view shows F alone then. */
static bool refuse_journal(struct filestore *f, const char *why, const char *next)
{
    if (!f->view)
        return refuse(f, FILESTORE_NOT_ITS_OWN, why, next);
    fprintf(stderr, "filestore: %s with %s: %s; the file is shown alone\n", f->path, f->beside, why);
    f->damage++;
    return true;
}

/* F alone is whole: does the journal have nothing that F lacks? */
static bool judge_beside_rest(struct filestore *f, const struct journal_head *head, const uint8_t *journal)
{
    if (head->generation == f->generation + 1) {
        set_seed(f, head->generation, head->tie);
        f->records = 0;
        f->end = BODY;
        if (!is_record(f, journal, BODY) && !one_is_missing(f, journal))
            return true; /* it was made new, and F's header was not written any more */
    }
    return head->generation <= f->generation ||
        refuse_journal(f, "the file is an older copy than the journal",
            "put back the newer file; or, if the older one is wanted, move the journal away: the file is whole without "
            "it");
}

static bool judge_in_use(struct filestore *f, const struct journal_head *head, const uint8_t *journal)
{
    if (head->generation != f->generation || head->tie != f->tie)
        return refuse_journal(f, head->generation > f->generation ?
                "the file is an older copy than the journal, and its own journal is missing" :
                "the journal is of another time, and the file's own is missing",
            "put back the two files that belong together; or move this journal away, and filestore_open_alone takes "
            "the file as it stands");
    set_seed(f, f->generation, f->tie);
    if (!replay_all(f, journal))
        return refuse(f, FILESTORE_DAMAGED, "the journal has a record that fits no part of the file",
            "take back a copy of both files");
    if ((f->state == APPLYING && f->records < f->applying) || one_is_missing(f, journal) ||
        (!f->ended && f->end > f->journal_length - f->layout.sums_record))
        return has_damage(f, f->beside, "record", f->records + 1) || refuse_damage(f);
    return true;
}

/* Judges whether the journal belongs to F, and puts its records over what is saved. */
static bool judge(struct filestore *f, const uint8_t *journal)
{
    struct journal_head head = read_journal_head(f->journal);
    if (!head.found || memcmp(head.identity, f->identity, sizeof head.identity) != 0)
        return refuse_journal(f, head.found ? "the journal is another store's" :
                "the journal is none of this host, or its headers cannot be read",
            f->state == REST ? "move it away: the file is whole without it" : "put back the file's own journal");
    if (head.length != f->journal_length || f->journal_length < least_journal(f))
        return refuse_journal(f, "the journal was cut or grown", "put back a copy of both files");
    return f->state == REST ? judge_beside_rest(f, &head, journal) : judge_in_use(f, &head, journal);
}

/* The journal's bytes; they are read whole, for a record may stand anywhere. */
static uint8_t *read_journal(struct filestore *f)
{
    struct stat is;
    if (fstat(f->journal, &is) != 0)
        return NULL;
    f->journal_length = is.st_size > INT32_MAX ? 0 : (uint32_t)is.st_size; /* then judge says that it was grown */
    uint8_t *journal = malloc(f->journal_length + 1);
    if (journal && read_all(f->journal, journal, f->journal_length, 0))
        return journal;
    free(journal);
    return NULL;
}

static bool load_journal(struct filestore *f, int flags, bool alone)
{
    f->journal = open_plain(f->beside, flags);
    if (f->journal < 0 && errno == ENOENT)
        return f->state == REST || alone ||
            refuse_journal(f, "the journal is missing, and the file needs it",
                "put it back; if it is gone for good, filestore_open_alone takes the file as it stands");
    if (f->journal < 0)
        return refuse_by_system(f, "the journal");
    if (alone)
        return refuse(f, FILESTORE_THERE, "there is a journal", "filestore_open; or move the journal away first");
    uint8_t *journal = read_journal(f);
    if (!journal)
        return refuse_by_system(f, "the journal");
    bool good = judge(f, journal);
    free(journal);
    return good;
}

/* F and its journal as they are on the disk come to stand in `saved`. Nothing is written. */
static bool load(struct filestore *f, int flags, bool alone)
{
    bool torn = f->state == APPLYING; /* then F is whole only with the journal */
    if (!torn && !check_sums(f, f->saved) && !refuse_damage(f))
        return false;
    if (!load_journal(f, flags, alone))
        return false;
    return !torn || check_sums(f, f->saved) || refuse_damage(f);
}

static bool restart(struct filestore *f)
{
    memcpy(f->live + BODY, f->saved + BODY, f->layout.length - BODY);
    ventarico_reply r = ventarico_restart(ALL(f));
    say(f, r, "restart");
    return r.code == VENTARICO_DONE || f->view ||
        refuse(f, FILESTORE_DAMAGED, filestore_meaning(r.code), "the store is damaged: take back a copy of both files");
}

/* What can be read may be on no disk yet: a process that died has not synced it, or its sync has failed. So the header
 * that counts is written again, before the other one is lost, and so are the records that are not known to be synced;
 * the next sync covers these. */
static bool rewrite_unsynced(struct filestore *f)
{
    f->header_number--;
    if (!write_header(f, f->state, f->applying))
        return false;
    if (f->state != IN_USE || f->records == 0)
        return true;
    uint8_t *journal = read_journal(f);
    if (!journal)
        return false;
    uint32_t at = BODY;
    for (uint32_t i = 0; i < f->synced; i++)
        at += rounded_up(RECORD_HEAD + get32(journal + at + 4), ALIGNED);
    bool good = write_all(f->journal, journal + at, f->end - at, at);
    free(journal);
    return good;
}

static bool make_journal(struct filestore *f)
{
    static const uint8_t zeros[1 << 16];
    uint32_t least = least_journal(f), asked = rounded_up(f->sizes.journal, BLOCK);
    f->journal_length = f->sizes.journal == 0 ? 2 * least + sizeof zeros : asked > least ? asked : least;
    char *draft = joined(f->beside, ".new");
    f->journal = draft ? begin_draft(draft) : -1;
    bool good = f->journal >= 0;
    for (uint32_t at = 0, some; good && at < f->journal_length; at += some) {
        some = f->journal_length - at < sizeof zeros ? f->journal_length - at : (uint32_t)sizeof zeros;
        good = write_all(f->journal, zeros, some, at);
    }
    good = good && write_journal_header(f) && end_draft(f->journal, draft, f->beside);
    free(draft);
    return good;
}

/* All is known to be right: F takes in what the journal holds, and a new generation begins. */
static bool take_over(struct filestore *f)
{
    uint32_t held = f->records;
    if (!sync_folder(f->path)) /* a name that can be seen may be one that is not there for good */
        return refuse_by_system(f, "the folder");
    if (!rewrite_unsynced(f))
        return refuse_by_system(f, "the files");
    if (!come_to_rest(f))
        return refuse_by_system(f, "the file");
    if (f->talk && held > 0)
        fprintf(f->talk, "  (the journal held %" PRIu32 " record%s, which the file has taken in)\n", held,
            held == 1 ? "" : "s");
    if (f->journal < 0 && !make_journal(f))
        return refuse_by_system(f, "a new journal");
    return new_generation(f) || refuse_by_system(f, "a new generation");
}

static bool open_store(struct filestore *f, const char *path, struct filestore_sizes sizes, FILE *talk, bool alone)
{
    return name_files(f, path, talk) && open_file(f, O_RDWR, LOCK_EX) && read_body(f) && compare_sizes(f, sizes) &&
        load(f, O_RDWR, alone) && restart(f) && take_over(f);
}

bool filestore_open(struct filestore *f, const char *path, struct filestore_sizes sizes, FILE *talk)
{
    return open_store(f, path, sizes, talk, false);
}

bool filestore_open_alone(struct filestore *f, const char *path, struct filestore_sizes sizes, FILE *talk)
{
    return open_store(f, path, sizes, talk, true);
}

bool filestore_view(struct filestore *f, const char *path, FILE *talk)
{
    if (!name_files(f, path, talk))
        return false;
    f->view = true;
    return open_file(f, O_RDONLY, LOCK_SH) && read_body(f) && load(f, O_RDONLY, false) && restart(f);
}

/* Format in memory, then F under its own name when it is whole. */
static bool make_file(struct filestore *f)
{
    const struct filestore_sizes z = f->sizes;
    ventarico_reply r = ventarico_format(ALL(f), z.page_size, z.pages, z.frames, z.online, z.log, 0);
    if (r.code != VENTARICO_DONE)
        return refuse(f, FILESTORE_SIZES, filestore_meaning(r.code), "docs/LAYOUT.md, fixed, has the ranges");
    memcpy(f->saved + BODY, f->live + BODY, f->layout.length - BODY);
    for (uint32_t n = 0; n < parts(f); n++)
        f->touched[n] = true; /* so that all of them get a checksum */
    put_sums(f);
    f->generation = 1;
    char *draft = joined(f->path, ".new");
    f->file = draft ? begin_draft(draft) : -1;
    errno = f->file >= 0 && is_there(f->path) ? EEXIST : errno;
    bool good = f->file >= 0 && !is_there(f->path) && fill_random(f->identity, sizeof f->identity) &&
        write_all(f->file, f->live, f->layout.length, 0) && write_header(f, REST, 0) &&
        end_draft(f->file, draft, f->path);
    free(draft);
    memcpy(f->saved + BODY, f->live + BODY, f->layout.length - BODY);
    if (good)
        say(f, r, "format, %" PRIu32 " pages of %" PRIu32 " bytes", z.pages, z.page_size);
    return good || refuse_by_system(f, "a new file");
}

bool filestore_create(struct filestore *f, const char *path, struct filestore_sizes sizes, FILE *talk)
{
    if (!name_files(f, path, talk))
        return false;
    f->sizes = sizes;
    if (!sizes_in_range(sizes) || sizes.journal > INT32_MAX)
        return refuse(f, FILESTORE_SIZES, "a size is out of range", "docs/LAYOUT.md, fixed, has the ranges");
    if (is_there(f->path) || is_there(f->beside))
        return refuse(f, FILESTORE_THERE,
            is_there(f->path) ? "the file is there already" : "a journal is there, without its file",
            "filestore_open opens a store; for a new one take another name, or move away what is there");
    lay_out(f);
    if (!make_areas(f))
        return refuse_by_system(f, "memory");
    return make_file(f) && take_over(f);
}

void filestore_drop(struct filestore *f)
{
    if (f->journal >= 0)
        close(f->journal);
    if (f->file >= 0)
        close(f->file);
    free(f->path);
    free(f->beside);
    free(f->live);
    free(f->saved);
    free(f->room);
    free(f->touched);
    free(f->changes);
    free(f->tables.bytes);
    *f = (struct filestore){.file = -1, .journal = -1, .broken = true};
}

bool filestore_leave(struct filestore *f)
{
    bool good = !f->broken && !f->view && (come_to_rest(f) || save_failed(f));
    filestore_drop(f);
    return good;
}

/* ---- Looking after the files. */

bool filestore_sync(struct filestore *f)
{
    return !f->broken && !f->view && (sync_journal(f) || save_failed(f));
}

/* Both files as they are on the disk, in a second struct; what they hold together must be what is saved. */
uint32_t filestore_scrub(struct filestore *f)
{
    struct filestore on_disk;
    if (f->broken || !name_files(&on_disk, f->path, NULL))
        return 1;
    on_disk.view = true;
    on_disk.file = fcntl(f->file, F_DUPFD_CLOEXEC, 0);
    posix_fadvise(f->file, 0, 0, POSIX_FADV_DONTNEED);
    posix_fadvise(f->journal, 0, 0, POSIX_FADV_DONTNEED);
    if (on_disk.file < 0 || !read_header(&on_disk) || !read_body(&on_disk) || !load(&on_disk, O_RDONLY, false))
        on_disk.damage++;
    else if (on_disk.damage == 0 && (on_disk.records != f->records || on_disk.header_number != f->header_number ||
        memcmp(on_disk.saved + BODY, f->saved + BODY, f->layout.length - BODY) != 0))
        has_damage(&on_disk, f->beside, "the last of its records,", f->records);
    uint32_t damage = on_disk.damage;
    filestore_drop(&on_disk);
    return damage;
}

bool filestore_mend(struct filestore *f)
{
    if (f->broken || f->view)
        return false;
    if (!come_to_rest(f) || !new_generation(f))
        return save_failed(f);
    for (uint32_t n = 0; n < parts(f); n++)
        f->changes[n] = part(f, n);
    return save(f, MEND, f->changes, parts(f), true) && ((come_to_rest(f) && new_generation(f)) || save_failed(f));
}

/* ---- The calls. */

const char *filestore_meaning(uint32_t code)
{
    switch (code) {
    case VENTARICO_DONE: return "done";
    case VENTARICO_NOT_SOUND: return "the tables are not sound; drop the store and open it again";
    case VENTARICO_BAD_ARGUMENT: return "an argument is out of range; mend the call";
    case VENTARICO_SHORT_BUFFER: return "the buffer is too short; lend a longer one";
    case VENTARICO_NOT_LIVE: return "that number is not open; begin it first";
    case VENTARICO_LIVE: return "that number is open already; commit or abort it, or take another";
    case VENTARICO_HELD: return "another open transaction holds these bytes; try again after its end";
    case VENTARICO_ONLINE_FULL: return "the online table is full; make a checkpoint with min_del 1, then try again";
    case VENTARICO_LOG_FULL: return "the log is full; make a checkpoint with min_del 1, then try again";
    case VENTARICO_NUMBERS_END:
        return "the log numbers are used up; end all transactions, call filestore_format with 0, then do it again";
    case VENTARICO_NO_FRAME: return "the page is in no frame; there is nothing to evict";
    case FILESTORE_BROKEN: return "the files were not written; drop the store and open it again";
    case FILESTORE_VIEWED: return "the store is only viewed; drop it, and filestore_open opens it for writing";
    default: return "no known code; see include/ventarico.h";
    }
}

/* Prints the call and its answer, and hands the answer on. */
static ventarico_reply say(struct filestore *f, ventarico_reply r, const char *call, ...)
{
    if (!f->talk)
        return r;
    char words[96];
    va_list list;
    va_start(list, call);
    vsnprintf(words, sizeof words, call, list);
    va_end(list);
    fprintf(f->talk, "  %-47s ", words);
    if (r.code == VENTARICO_DONE)
        fprintf(f->talk, "done%s; page reads %" PRIu32 ", page writes %" PRIu32 ", log writes %" PRIu32 "\n",
            r.note == 1 ? ", not due" : "", r.reads, r.writes, r.logs);
    else
        fprintf(f->talk, "refused, %" PRIu32 ": %s\n", r.code, filestore_meaning(r.code));
    return r;
}

static const ventarico_reply broken = {.code = FILESTORE_BROKEN};

/* May a call be made that saves? */
static ventarico_reply may_save(const struct filestore *f)
{
    return (ventarico_reply){.code = f->broken ? FILESTORE_BROKEN : f->view ? FILESTORE_VIEWED : VENTARICO_DONE};
}

ventarico_reply filestore_begin(struct filestore *f, uint32_t number)
{
    ventarico_reply r = f->broken ? broken : ventarico_begin(ALL(f), number);
    return say(f, r, "begin %" PRIu32, number);
}

ventarico_reply filestore_read(struct filestore *f, uint8_t *buffer, size_t room, uint32_t number, uint32_t page,
    uint32_t offset, uint32_t length)
{
    ventarico_reply r = f->broken ? broken : ventarico_read(ALL(f), buffer, room, number, page, offset, length);
    return say(f, r, "read %" PRIu32 ": page %" PRIu32 ", offset %" PRIu32 ", length %" PRIu32, number, page, offset,
        length);
}

ventarico_reply filestore_update(struct filestore *f, uint32_t number, uint32_t page, uint32_t offset, uint32_t length,
    uint32_t kind, uint64_t value)
{
    ventarico_reply r =
        f->broken ? broken : ventarico_update(ALL(f), number, page, offset, length, kind, value);
    return say(f, r, "update %" PRIu32 ": page %" PRIu32 ", offset %" PRIu32 ", %s %" PRIu64, number, page, offset,
        kind == VENTARICO_SET ? "set" : "add", value);
}

/* A commit changes L and n (the head of marks) and the log rows from the old n to the new one. */
ventarico_reply filestore_commit(struct filestore *f, uint32_t number)
{
    ventarico_reply r = may_save(f);
    if (r.code == VENTARICO_DONE) {
        uint32_t before = get32(f->marks.bytes + 8);
        r = ventarico_commit(ALL(f), number);
        uint32_t after = get32(f->marks.bytes + 8);
        const struct filestore_place changes[] = {
            {f->layout.marks.at, MARKS_HEAD},
            {f->layout.log.at + LOG_ROW * before, LOG_ROW * (after - before)},
        };
        if (r.code == VENTARICO_DONE && r.logs > 0 && !save(f, COMMIT, changes, 2, true))
            r = broken;
    }
    return say(f, r, "commit %" PRIu32, number);
}

ventarico_reply filestore_abort(struct filestore *f, uint32_t number)
{
    ventarico_reply r = f->broken ? broken : ventarico_abort(ALL(f), number);
    return say(f, r, "abort %" PRIu32, number);
}

ventarico_reply filestore_evict(struct filestore *f, uint32_t page)
{
    ventarico_reply r = f->broken ? broken : ventarico_evict(ALL(f), page);
    return say(f, r, "evict page %" PRIu32, page);
}

/* A compaction that is due changes the page and its stamp. */
ventarico_reply filestore_compact(struct filestore *f, uint32_t page, uint32_t min_del, uint32_t max_age)
{
    ventarico_reply r = may_save(f);
    if (r.code == VENTARICO_DONE) {
        r = ventarico_compact(ALL(f), page, min_del, max_age);
        const struct filestore_place changes[] = {stamp_of(f, page), part(f, PART_PAGES + page)};
        if (r.code == VENTARICO_DONE && r.writes > 0 && !save(f, COMPACT, changes, 2, false))
            r = broken;
    }
    return say(f, r, "compact page %" PRIu32 ": min_del %" PRIu32 ", max_age %" PRIu32, page, min_del, max_age);
}

/* A close changes K, n and the dirty table, all in marks, and the log. */
ventarico_reply filestore_close(struct filestore *f)
{
    ventarico_reply r = may_save(f);
    if (r.code == VENTARICO_DONE) {
        r = ventarico_close(ALL(f));
        const struct filestore_place changes[] = {f->layout.marks, f->layout.log};
        if (r.code == VENTARICO_DONE && !save(f, CLOSE, changes, 2, false))
            r = broken;
    }
    return say(f, r, "close");
}

/* A checkpoint changes what a close changes, and each page that was due, with its stamp. It is saved as one record: so
 * all of it is there or nothing, which is as good as the order that its steps ask for. */
ventarico_reply filestore_checkpoint(struct filestore *f, uint32_t min_del, uint32_t max_age)
{
    ventarico_reply r = may_save(f);
    if (r.code == VENTARICO_DONE) {
        size_t count = 0;
        r = ventarico_checkpoint(ALL(f), min_del, max_age);
        f->changes[count++] = f->layout.marks;
        f->changes[count++] = f->layout.log;
        for (uint32_t page = 0; page < f->sizes.pages; page++) {
            uint32_t stamp = stamp_of(f, page).at;
            if (memcmp(f->live + stamp, f->saved + stamp, 4) != 0)
                f->changes[count++] = part(f, PART_PAGES + page);
        }
        if (r.code == VENTARICO_DONE && !save(f, CHECKPOINT, f->changes, count, false))
            r = broken;
    }
    return say(f, r, "checkpoint: min_del %" PRIu32 ", max_age %" PRIu32, min_del, max_age);
}

static bool one_is_live(const struct filestore *f)
{
    const uint8_t *live = f->tables.bytes + 3;
    for (int i = 0; i < NUMBERS; i++)
        if (live[i] != 0)
            return true;
    return false;
}

/* The stamps change, and with them every page's checksum: so every page is saved. */
ventarico_reply filestore_format(struct filestore *f, uint32_t last)
{
    ventarico_reply r = may_save(f);
    if (r.code == VENTARICO_DONE && one_is_live(f))
        r.code = VENTARICO_LIVE;
    if (r.code == VENTARICO_DONE)
        r = filestore_checkpoint(f, 1, 0);
    if (r.code == VENTARICO_DONE) {
        const struct filestore_sizes z = f->sizes;
        r = ventarico_format(ALL(f), z.page_size, z.pages, z.frames, z.online, z.log, last);
        size_t count = 0;
        for (uint32_t n = 0; n < parts(f); n++)
            if (n != PART_SUMS)
                f->changes[count++] = part(f, n);
        if (r.code == VENTARICO_DONE && !save(f, FORMAT, f->changes, count, true))
            r = broken;
    }
    return say(f, r, "format: last number %" PRIu32, last);
}
