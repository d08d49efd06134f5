/* What the host refuses, and that a refusal writes nothing; what its own calls promise; every byte of both files flipped.
 * The bytes of the files are made and read here as docs/FILESTORE.md has them, by code of the test's own. */
#define _XOPEN_SOURCE 700
#include <fcntl.h>
#include <stdio.h>
#include <stdlib.h>
#include <string.h>
#include <sys/stat.h>
#include <sys/wait.h>
#include <unistd.h>

#include "filestore.h"
#include "shim.h"
#include "story.h"
#include "tests.h"

static unsigned long checks, failures;
static const char *path, *topic;
static struct filestore f; /* most topics need but one store */

#define CHECK(what) check((what), #what, __LINE__)
static void check(bool holds, const char *what, int line)
{
    checks++;
    if (holds)
        return;
    failures++;
    printf("FAILED doors, %s: not so: %s. Next: tests/kill/doors.c:%d\n", topic, what, line);
}

/* ---- Stores to try things on. */

static void put(struct filestore *s, uint32_t page, uint32_t offset, uint32_t value)
{
    CHECK(filestore_begin(s, 1).code == VENTARICO_DONE);
    CHECK(filestore_update(s, 1, page, offset, 4, VENTARICO_SET, value).code == VENTARICO_DONE);
    CHECK(filestore_commit(s, 1).code == VENTARICO_DONE);
}

static uint32_t get(struct filestore *s, uint32_t page, uint32_t offset)
{
    uint8_t bytes[4] = {0};
    CHECK(filestore_begin(s, 2).code == VENTARICO_DONE);
    CHECK(filestore_read(s, bytes, 4, 2, page, offset, 4).code == VENTARICO_DONE);
    CHECK(filestore_abort(s, 2).code == VENTARICO_DONE);
    return bytes[0] | (uint32_t)bytes[1] << 8 | (uint32_t)bytes[2] << 16 | (uint32_t)bytes[3] << 24;
}

/* A store with 11 on page 0, taken into its page, and 22 on page 1, in the journal alone; in use, and dropped. */
static void make(const char *name)
{
    clear_store(name);
    CHECK(filestore_create(&f, name, story_sizes, NULL));
    put(&f, 0, 0, 11);
    CHECK(filestore_checkpoint(&f, 1, 0).code == VENTARICO_DONE);
    CHECK(filestore_leave(&f));
    CHECK(filestore_open(&f, name, story_sizes, NULL));
    put(&f, 1, 8, 22);
    filestore_drop(&f);
}

static void make_at_rest(const char *name)
{
    make(name);
    CHECK(filestore_open(&f, name, story_sizes, NULL));
    CHECK(filestore_leave(&f));
}

static bool opens(void)
{
    return filestore_open(&f, path, story_sizes, NULL);
}

static bool holds_both(void)
{
    bool good = opens() && get(&f, 0, 0) == 11 && get(&f, 1, 8) == 22;
    filestore_drop(&f);
    return good;
}

/* Open is refused, for this reason, and both files stay as they are. */
static bool refused(enum filestore_refusal why)
{
    struct copy file = copy_of(path), journal = copy_of(beside(path));
    bool good = !opens() && f.refused == why && is_copy(path, file) && is_copy(beside(path), journal);
    free(file.bytes);
    free(journal.bytes);
    return good;
}

/* Whether another process can open the store. */
static bool opens_elsewhere(void)
{
    fflush(NULL);
    pid_t child = fork();
    if (child == 0)
        _exit(opens() ? 0 : 1);
    int status = 1;
    waitpid(child, &status, 0);
    return status == 0;
}

/* ---- The bytes of the files. */

static uint32_t sum(uint32_t crc, const uint8_t *bytes, size_t length)
{
    crc = ~crc;
    for (size_t i = 0; i < length; i++) {
        crc ^= bytes[i];
        for (int bit = 0; bit < 8; bit++)
            crc = crc >> 1 ^ (crc & 1 ? 0xedb88320u : 0);
    }
    return ~crc;
}

static uint32_t number_at(const uint8_t *at)
{
    return at[0] | (uint32_t)at[1] << 8 | (uint32_t)at[2] << 16 | (uint32_t)at[3] << 24;
}

static void put_number(uint8_t *at, uint32_t number)
{
    for (int i = 0; i < 4; i++)
        at[i] = (uint8_t)(number >> 8 * i);
}

/* The header that counts. */
static const uint8_t *header_of(struct copy file)
{
    const uint8_t *one = file.bytes, *other = file.bytes + 4096;
    return number_at(one + 24) > number_at(other + 24) ? one : other;
}

static const uint8_t *journal_header_of(struct copy journal)
{
    const uint8_t *one = journal.bytes, *other = journal.bytes + 4096;
    return number_at(one + 24) > number_at(other + 24) ? one : other;
}

/* A record's checksum: identity, generation, tie, and the record from its byte 4 on, by groups of eight bytes. */
static uint32_t record_sum(struct copy journal, const uint8_t *record)
{
    uint64_t state = 0;
    for (size_t i = 0; i < 32 + 20 + number_at(record + 4); i += 8) {
        uint64_t group = 0;
        for (size_t b = i; b < i + 8 && b < 32 + 20 + number_at(record + 4); b++)
            group |= (uint64_t)(b < 32 ? journal_header_of(journal)[8 + b] : record[4 + b - 32]) << 8 * (b - i);
        state = (state ^ group) * UINT64_C(0x9e3779b97f4a7c15);
        state ^= state >> 32;
    }
    return (uint32_t)state;
}

/* The example of docs/FILESTORE.md. */
static void test_example(void)
{
    topic = "the example of a checksum";
    uint8_t bytes[64] = {0}, record[24] = {0};
    for (uint8_t i = 0; i < 16; i++)
        bytes[8 + i] = i;
    bytes[24] = 5;
    for (uint8_t i = 0; i < 8; i++)
        bytes[32 + i] = (uint8_t)(0x88 - 0x11 * i);
    record[8] = 1;
    record[20] = 3;
    uint8_t slots[4096 + 64] = {0};
    memcpy(slots + 4096, bytes, sizeof bytes);
    CHECK(record_sum((struct copy){slots, sizeof slots}, record) == 0xc41af3b4);
}

static void test_format(void)
{
    topic = "the bytes of both files";
    make(path);
    struct copy file = copy_of(path), journal = copy_of(beside(path));
    const uint8_t *head = header_of(file), *of_journal = journal_header_of(journal), *record = journal.bytes + 8192;
    CHECK(memcmp(head, "ventfil2", 8) == 0 && memcmp(of_journal, "ventjrn2", 8) == 0);
    CHECK(memcmp(head + 8, of_journal + 8, 16) == 0);
    CHECK(memcmp(head + 32, of_journal + 24, 16) == 0); /* generation and tie */
    CHECK(number_at(head + 48) == 1 && number_at(head + 52) == 0);
    CHECK(number_at(head + 124) == sum(0, head, 124) && number_at(of_journal + 60) == sum(0, of_journal, 60));
    CHECK(number_at(head + 56) == file.length && number_at(of_journal + 40) == journal.length);
    uint32_t fixed = number_at(head + 60), marks = number_at(head + 68), log_at = number_at(head + 76),
             sums = number_at(head + 84), stored = number_at(head + 92);
    CHECK(fixed == 8192 && marks == 8212 && log_at == marks + 12 + 24 && sums == log_at + 14 * 16 && stored == 12288);
    CHECK(number_at(head + 100) == 512 && number_at(head + 104) == 3 && number_at(head + 108) == 2);
    CHECK(number_at(head + 112) == 24 && number_at(head + 116) == 16);
    CHECK(number_at(file.bytes + fixed) == 512 && number_at(file.bytes + stored) == 11);
    CHECK(number_at(file.bytes + sums) == sum(0, file.bytes + fixed, 20 + 12 + 24));
    CHECK(number_at(file.bytes + sums + 4) == sum(0, file.bytes + log_at, 14 * 16));
    for (uint32_t p = 0; p < STORY_PAGES; p++) {
        uint8_t words[8];
        put_number(words, p);
        memcpy(words + 4, file.bytes + marks + 12 + 4 * p, 4);
        CHECK(number_at(file.bytes + sums + 8 + 4 * p) == sum(sum(0, words, 8), file.bytes + stored + 512 * p, 512));
    }
    CHECK(number_at(file.bytes + sums + 20) == sum(0, file.bytes + sums, 20));
    CHECK(number_at(record) == record_sum(journal, record) && number_at(record + 8) == 1 && number_at(record + 12) == 0);
    CHECK(number_at(record + 16) == 0 && number_at(record + 20) == 1);
    CHECK(number_at(record + 24) == fixed && number_at(record + 28) == 56); /* marks come whole, and then the log */
    free(file.bytes);
    free(journal.bytes);
}

/* ---- Names. */

static void write_text(const char *name, size_t length)
{
    FILE *file = fopen(name, "wb");
    for (size_t i = 0; file && i < length; i++)
        fputc("no store, but somebody's text "[i % 30], file);
    if (file)
        fclose(file);
}

static void test_names(const char *folder)
{
    char other[4200], draft[4200];
    snprintf(other, sizeof other, "%s/other", folder);
    snprintf(draft, sizeof draft, "%s.new", path);
    unlink(other);
    topic = "names";
    clear_store(path);
    CHECK(refused(FILESTORE_NOT_THERE));
    CHECK(access(path, F_OK) != 0 && access(beside(path), F_OK) != 0);
    write_text(path, 0);
    CHECK(refused(FILESTORE_NO_STORE));
    write_text(beside(path), 50);
    CHECK(refused(FILESTORE_NO_STORE));
    clear_store(path);
    for (size_t length = 1; length < 40000; length = length * 3 + 1) {
        write_text(path, length);
        CHECK(refused(FILESTORE_NO_STORE));
        CHECK(access(beside(path), F_OK) != 0);
    }
    CHECK(!filestore_create(&f, path, story_sizes, NULL) && f.refused == FILESTORE_THERE);
    clear_store(path);
    write_text(beside(path), 100);
    CHECK(!filestore_create(&f, path, story_sizes, NULL) && f.refused == FILESTORE_THERE);
    CHECK(refused(FILESTORE_NOT_THERE)); /* a stray journal beside a name that is none */
    CHECK(access(path, F_OK) != 0);
    clear_store(path);
    write_text(draft, 50000); /* as a creation that was cut short leaves it */
    CHECK(filestore_create(&f, path, story_sizes, NULL));
    filestore_drop(&f);
    CHECK(access(draft, F_OK) != 0 && opens());
    filestore_drop(&f);

    make(path);
    CHECK(rename(path, other) == 0 && symlink(other, path) == 0);
    CHECK(refused(FILESTORE_NAME));
    CHECK(unlink(path) == 0 && rename(other, path) == 0);
    CHECK(rename(beside(path), other) == 0 && symlink(other, beside(path)) == 0);
    CHECK(refused(FILESTORE_NAME));
    CHECK(unlink(beside(path)) == 0 && rename(other, beside(path)) == 0);
    CHECK(holds_both());
    clear_store(path);
    CHECK(mkdir(path, 0777) == 0 && !opens() && f.refused == FILESTORE_NAME && rmdir(path) == 0);
    CHECK(mkfifo(path, 0666) == 0 && !opens() && f.refused == FILESTORE_NAME && unlink(path) == 0);

    make(path);
    CHECK(opens());
    CHECK((fcntl(f.file, F_GETFD) & FD_CLOEXEC) && (fcntl(f.journal, F_GETFD) & FD_CLOEXEC));
    filestore_drop(&f);

    char here[4096];
    CHECK(getcwd(here, sizeof here) != NULL && chdir(folder) == 0); /* a name without a folder */
    CHECK(filestore_open(&f, "store", story_sizes, NULL));
    filestore_drop(&f);
    CHECK(!filestore_create(&f, "store/beneath", story_sizes, NULL) && f.refused == FILESTORE_SYSTEM);
    CHECK(chdir(here) == 0);
}

static void test_sizes(void)
{
    topic = "sizes";
    make(path);
    for (int i = 0; i < 5; i++) {
        struct filestore_sizes z = story_sizes;
        uint32_t *const sizes[5] = {&z.page_size, &z.pages, &z.frames, &z.online, &z.log};
        *sizes[i] += i == 0 ? 512 : 1;
        struct copy file = copy_of(path), journal = copy_of(beside(path));
        CHECK(!filestore_open(&f, path, z, NULL) && f.refused == FILESTORE_SIZES);
        CHECK(is_copy(path, file) && is_copy(beside(path), journal));
        free(file.bytes);
        free(journal.bytes);
        clear_store(path);
        *sizes[i] = i == 0 ? 700 : 0;
        CHECK(!filestore_create(&f, path, z, NULL) && f.refused == FILESTORE_SIZES);
        *sizes[i] = 0x40000000;
        CHECK(!filestore_create(&f, path, z, NULL) && f.refused == FILESTORE_SIZES);
        CHECK(access(path, F_OK) != 0 && access(beside(path), F_OK) != 0);
        make(path);
    }
    CHECK(holds_both());
}

/* ---- Locks. */

static void test_locks(void)
{
    topic = "locks";
    struct filestore second;
    make(path);
    CHECK(opens());
    CHECK(!filestore_open(&second, path, story_sizes, NULL) && second.refused == FILESTORE_OPEN);
    filestore_drop(&second);
    CHECK(!opens_elsewhere()); /* what was refused has freed nothing */
    CHECK(!filestore_open(&second, path, story_sizes, NULL) && second.refused == FILESTORE_OPEN);
    CHECK(!filestore_view(&second, path, NULL) && second.refused == FILESTORE_OPEN);
    put(&f, 2, 0, 33);
    filestore_drop(&f);
    CHECK(opens_elsewhere());
    CHECK(opens() && get(&f, 2, 0) == 33);
    filestore_drop(&f);
}

/* ---- The journal that belongs. */

static void test_journals(const char *folder)
{
    char other[4200], kept[4200];
    snprintf(other, sizeof other, "%s/other", folder);
    snprintf(kept, sizeof kept, "%s/kept", folder);
    topic = "the journal that belongs";
    make(other);
    struct copy strange = copy_of(beside(other)), newer;
    make(path);
    CHECK(rename(beside(path), kept) == 0);
    CHECK(refused(FILESTORE_NOT_ITS_OWN)); /* none */
    put_copy(beside(path), strange);
    CHECK(refused(FILESTORE_NOT_ITS_OWN)); /* another store's */
    write_text(beside(path), 30000);
    CHECK(refused(FILESTORE_NOT_ITS_OWN)); /* no journal */
    write_text(beside(path), 0);
    CHECK(refused(FILESTORE_NOT_ITS_OWN));
    CHECK(!filestore_open_alone(&f, path, story_sizes, NULL) && f.refused == FILESTORE_THERE);
    CHECK(rename(kept, beside(path)) == 0 && holds_both());
    newer = copy_of(beside(path));

    CHECK(unlink(beside(path)) == 0); /* gone for good: the file has what it took in when it was opened last */
    CHECK(filestore_open_alone(&f, path, story_sizes, NULL) && get(&f, 0, 0) == 11 && get(&f, 1, 8) == 22);
    put(&f, 1, 8, 23);
    filestore_drop(&f);
    CHECK(opens() && get(&f, 1, 8) == 23);
    filestore_drop(&f);
    put_copy(beside(path), newer); /* the same store's, of a life that was given up */
    CHECK(refused(FILESTORE_NOT_ITS_OWN));
    free(newer.bytes);

    make_at_rest(path);
    put_copy(beside(path), strange);
    CHECK(refused(FILESTORE_NOT_ITS_OWN));
    CHECK(unlink(beside(path)) == 0 && holds_both()); /* at rest it is whole alone */

    make_at_rest(path);
    struct copy backup = copy_of(path); /* a copy at rest, beside a journal that went on */
    CHECK(opens());
    put(&f, 2, 0, 44);
    filestore_drop(&f);
    put_copy(path, backup);
    CHECK(refused(FILESTORE_NOT_ITS_OWN));
    CHECK(unlink(beside(path)) == 0 && holds_both()); /* as the refusal says */

    /* Two lives of one copy have journals of the same generation: they are told apart. */
    put_copy(path, backup);
    unlink(beside(path));
    CHECK(opens());
    put(&f, 2, 0, 55);
    filestore_drop(&f);
    struct copy first = copy_of(beside(path));
    put_copy(path, backup);
    unlink(beside(path));
    CHECK(opens());
    put(&f, 2, 0, 66);
    filestore_drop(&f);
    put_copy(beside(path), first);
    CHECK(refused(FILESTORE_NOT_ITS_OWN));
    free(strange.bytes);
    free(backup.bytes);
    free(first.bytes);
    clear_store(other);
    unlink(beside(other));
    unlink(other);
}

/* A record with a right checksum and one piece: this place and length, and so many bytes. Answers where the next begins. */
static uint8_t *forge(struct copy journal, uint8_t *record, uint32_t number, uint32_t previous, const uint32_t piece[3])
{
    put_number(record + 4, 8 + piece[2]);
    put_number(record + 8, number);
    put_number(record + 12, 0);
    put_number(record + 16, previous);
    put_number(record + 20, 1);
    put_number(record + 24, piece[0]);
    put_number(record + 28, piece[1]);
    memset(record + 32, 0x5a + (int)number - 1, piece[2]);
    put_number(record, record_sum(journal, record));
    return record + (24 + 8 + piece[2] + 7) / 8 * 8;
}

static void put_piece(struct copy journal, const uint32_t piece[3])
{
    memset(journal.bytes + 8192, 0, journal.length - 8192);
    forge(journal, journal.bytes + 8192, 1, 0, piece);
    put_copy(beside(path), journal);
}

/* Two records, of which the second follows the first, or another that is not there. */
static uint32_t shown_behind(struct copy journal, uint32_t wrong_by)
{
    const uint32_t first[3] = {12288 + 512, 512, 512}, second[3] = {12288 + 512, 4, 4};
    memset(journal.bytes + 8192, 0, journal.length - 8192);
    uint8_t *next = forge(journal, journal.bytes + 8192, 1, 0, first);
    forge(journal, next, 2, number_at(journal.bytes + 8192) + wrong_by, second);
    put_copy(beside(path), journal);
    CHECK(opens());
    uint32_t shown = get(&f, 1, 0);
    filestore_drop(&f);
    return shown;
}

/* A record with eight bytes and their CRC in it, in place of which eight others with theirs come to stand: is it noticed? A
 * torn record of checksums was once taken for whole, since old ones shone through. */
static bool notices_other_sums(struct copy journal)
{
    const uint32_t piece[3] = {12288 + 512, 512, 512};
    uint8_t *record = journal.bytes + 8192, *inside = record + 32 + 100;
    memset(record, 0, journal.length - 8192);
    forge(journal, record, 1, 0, piece);
    memset(inside, 1, 8);
    put_number(inside + 8, sum(0, inside, 8));
    put_number(record, record_sum(journal, record));
    memset(inside, 2, 8);
    put_number(inside + 8, sum(0, inside, 8));
    put_copy(beside(path), journal);
    bool noticed = opens() && get(&f, 1, 0) == 0;
    filestore_drop(&f);
    return noticed;
}

static void test_pieces(void)
{
    static const uint32_t pieces[][3] = { /* place, length, bytes that are there */
        {0, 8, 8}, {4096, 8, 8}, {8191, 2, 8}, {8192, 4, 4}, {8192, 57, 57}, {8192, 0x10000000, 8}, {8247, 2, 2},
        {8248, 300, 300}, {8248 + 223, 2, 2}, {8480, 0, 8}, {8480, UINT32_MAX, 8}, {8480, UINT32_MAX - 8, 8}, {8496, 1, 1},
        {12287, 1, 1}, {12288, 513, 513}, {12288 + 511, 2, 2}, {12288 + 1536, 1, 1}, {12288 + 1535, 2, 2},
        {UINT32_MAX, 1, 1}, {UINT32_MAX, UINT32_MAX, 8}, {0x7fffffff, 0x7fffffff, 8}, {12288, 16, 8}};
    topic = "pieces that lie nowhere";
    make(path);
    struct copy journal = copy_of(beside(path)), file = copy_of(path), forged = copy_of(beside(path));
    for (size_t i = 0; i < sizeof pieces / sizeof *pieces; i++) {
        put_piece(forged, pieces[i]);
        CHECK(refused(FILESTORE_DAMAGED));
    }
    put_piece(forged, (const uint32_t[3]){12288 + 512, 512, 512}); /* and one that is right, so that the forging is */
    CHECK(opens() && get(&f, 1, 0) == 0x5a5a5a5a);
    filestore_drop(&f);
    put_copy(path, file);
    CHECK(shown_behind(forged, 1) == 0x5a5a5a5a);
    put_copy(path, file);
    CHECK(shown_behind(forged, 0) == 0x5b5b5b5b);
    put_copy(path, file);
    CHECK(notices_other_sums(forged));
    free(forged.bytes);
    put_copy(path, file);
    put_copy(beside(path), journal);
    CHECK(truncate(beside(path), (off_t)journal.length + 4096) == 0 && refused(FILESTORE_NOT_ITS_OWN));
    CHECK(truncate(beside(path), (off_t)journal.length - 4096) == 0 && refused(FILESTORE_NOT_ITS_OWN));
    put_copy(beside(path), journal);
    CHECK(truncate(path, (off_t)file.length + 1) == 0 && refused(FILESTORE_DAMAGED));
    CHECK(truncate(path, (off_t)file.length - 1) == 0 && refused(FILESTORE_DAMAGED));
    put_copy(path, file);
    CHECK(holds_both());
    free(journal.bytes);
    free(file.bytes);
}

/* Each read of an opening is interrupted or cut short, and nobody sees it; or it fails, and the store is refused. */
static void test_reads(void)
{
    topic = "reads";
    make(path);
    struct copy journal = copy_of(beside(path)), file = copy_of(path);
    shim = (struct shim){0};
    CHECK(holds_both());
    unsigned long reads = shim.reads;
    CHECK(reads > 6);
    for (unsigned long i = 1; i <= reads; i++) {
        put_copy(path, file);
        put_copy(beside(path), journal);
        shim = (struct shim){.read_at = i, .deed = SHIM_INTERRUPT};
        CHECK(holds_both());
        put_copy(path, file);
        put_copy(beside(path), journal);
        shim = (struct shim){.read_at = i, .deed = SHIM_SHORT};
        CHECK(holds_both());
        put_copy(path, file);
        put_copy(beside(path), journal);
        shim = (struct shim){.read_at = i, .deed = SHIM_FAIL};
        CHECK(!opens());
        filestore_drop(&f);
        shim = (struct shim){0};
        CHECK(holds_both());
    }
    free(journal.bytes);
    free(file.bytes);
}

/* ---- Damage. */

enum { FIRST = 1, LAST = 20 };

/* A store with twenty commits behind it, some in pages, the rest in the journal; of one, a checkpoint is unsynced. */
static void make_long(void)
{
    clear_store(path);
    CHECK(filestore_create(&f, path, story_sizes, NULL));
    for (uint32_t i = FIRST; i <= LAST; i++) {
        put(&f, i % STORY_PAGES, 0, i);
        if (i % 8 == 0)
            CHECK(filestore_checkpoint(&f, 1, 0).code == VENTARICO_DONE);
        if (i == 10) {
            CHECK(filestore_leave(&f));
            CHECK(opens());
        }
    }
    filestore_drop(&f);
}

/* All commits are there, or, where only the last record is hit, all but the last. */
static bool is_long(bool without_last)
{
    bool good = true;
    for (uint32_t p = 0; p < STORY_PAGES; p++) {
        uint32_t newest = without_last ? LAST - 1 : LAST;
        while (newest % STORY_PAGES != p)
            newest--;
        good = good && get(&f, p, 0) == newest;
    }
    return good;
}

/* The areas of the file, headers and padding left out: whatever is flipped there must be refused. */
static bool is_in_an_area(struct copy file, size_t at)
{
    const uint8_t *head = header_of(file);
    for (size_t i = 60; i < 100; i += 8)
        if (at >= number_at(head + i) && at - number_at(head + i) < number_at(head + i + 4))
            return true;
    return false;
}

/* One byte of one file flipped: refused with nothing written, or nothing is lost. */
static bool flip_holds(struct copy file, struct copy journal, bool in_journal, size_t at, size_t last_record)
{
    struct copy *hit = in_journal ? &journal : &file;
    uint8_t mask = (uint8_t)(1u << shim_chance(8));
    hit->bytes[at] ^= mask;
    put_copy(path, file);
    put_copy(beside(path), journal);
    bool good;
    if (!opens())
        good = is_copy(path, file) && is_copy(beside(path), journal);
    else if (in_journal)
        good = is_long(false) || (at >= last_record && is_long(true));
    else
        good = is_long(false) && !is_in_an_area(file, at);
    filestore_drop(&f);
    hit->bytes[at] ^= mask;
    return good;
}

static void flip_each_byte(void)
{
    struct copy file = copy_of(path), journal = copy_of(beside(path));
    size_t at = 8192, last = at;
    for (uint32_t number = 1; number_at(journal.bytes + at + 8) == number && number_at(journal.bytes + at) ==
        record_sum(journal, journal.bytes + at); number++) {
        last = at;
        at += (24 + number_at(journal.bytes + at + 4) + 7) / 8 * 8;
    }
    unsigned long bad = 0, tried = 0;
    for (int in_journal = 0; in_journal < 2; in_journal++) {
        struct copy whole = in_journal ? journal : file;
        for (size_t i = 0, zeros = 0; i < whole.length; i++) {
            zeros = whole.bytes[i] == 0 ? zeros + 1 : 0;
            if (zeros > 64 && zeros % 61 != 0)
                continue; /* long runs of zeros are looked at here and there */
            tried++;
            bad += !flip_holds(file, journal, in_journal, i, last);
        }
    }
    CHECK(bad == 0 && tried > 2500);
    put_copy(path, file);
    put_copy(beside(path), journal);
    CHECK(opens() && is_long(false));
    filestore_drop(&f);
    free(file.bytes);
    free(journal.bytes);
}

static void test_flips(void)
{
    topic = "flipped bits, in use";
    make_long();
    flip_each_byte();
    topic = "flipped bits, at rest";
    make_long();
    CHECK(opens() && filestore_leave(&f));
    flip_each_byte();
}

static void flip_on_disk(const char *name, off_t at)
{
    uint8_t byte = 0;
    int file = open(name, O_RDWR);
    CHECK(file >= 0 && pread(file, &byte, 1, at) == 1);
    byte ^= 16;
    CHECK(pwrite(file, &byte, 1, at) == 1);
    close(file);
}

static void test_scrub(void)
{
    topic = "scrub and mend";
    make_long();
    CHECK(opens());
    static const off_t places[] = {8192 + 24, 8260, 8474, 12288 + 3, 12288 + 700}; /* K, log, checksums, pages */
    for (size_t i = 0; i < sizeof places / sizeof *places; i++) {
        CHECK(filestore_scrub(&f) == 0);
        flip_on_disk(path, places[i]);
        CHECK(filestore_scrub(&f) > 0);
        CHECK(filestore_mend(&f) && filestore_scrub(&f) == 0 && is_long(false));
    }
    put(&f, 0, 100, 1);
    put(&f, 0, 100, 2);
    CHECK(filestore_scrub(&f) == 0);
    flip_on_disk(beside(path), 8192 + 60); /* a record of the journal */
    CHECK(filestore_scrub(&f) > 0);
    CHECK(filestore_mend(&f) && filestore_scrub(&f) == 0);
    for (int which = 0; which < 2; which++) { /* of each file's two headers one counts, and its damage is found */
        unsigned found = 0;
        for (off_t slot = 0; slot <= 4096; slot += 4096) {
            CHECK(filestore_scrub(&f) == 0);
            flip_on_disk(which == 0 ? path : beside(path), slot + 30);
            found += filestore_scrub(&f) > 0;
            flip_on_disk(which == 0 ? path : beside(path), slot + 30);
        }
        CHECK(found == 1);
    }
    flip_on_disk(path, 30);
    flip_on_disk(path, 4096 + 30);
    CHECK(filestore_scrub(&f) > 0 && filestore_mend(&f) && filestore_scrub(&f) == 0);
    filestore_drop(&f);
    CHECK(opens() && is_long(false) && get(&f, 0, 100) == 2);
    filestore_drop(&f);
    CHECK(filestore_scrub(&f) == 1 && !filestore_mend(&f) && !filestore_sync(&f) && !filestore_leave(&f));
}

/* ---- The host's own calls. */

static void test_view(void)
{
    topic = "view";
    make(path);
    struct copy file = copy_of(path), journal = copy_of(beside(path));
    struct filestore second;
    CHECK(filestore_view(&f, path, NULL) && f.damage == 0 && f.sizes.pages == STORY_PAGES);
    CHECK(filestore_view(&second, path, NULL)); /* two may look */
    CHECK(get(&f, 0, 0) == 11 && get(&f, 1, 8) == 22);
    CHECK(filestore_begin(&f, 1).code == VENTARICO_DONE);
    CHECK(filestore_commit(&f, 1).code == FILESTORE_VIEWED && filestore_checkpoint(&f, 1, 0).code == FILESTORE_VIEWED);
    CHECK(filestore_compact(&f, 0, 1, 0).code == FILESTORE_VIEWED && filestore_close(&f).code == FILESTORE_VIEWED);
    CHECK(filestore_format(&f, 0).code == FILESTORE_VIEWED && !filestore_sync(&f) && !filestore_mend(&f));
    filestore_drop(&second);
    CHECK(!filestore_leave(&f));
    CHECK(is_copy(path, file) && is_copy(beside(path), journal));
    flip_on_disk(path, 12288);
    CHECK(filestore_view(&f, path, NULL) && f.damage == 1 && get(&f, 0, 0) == (11 ^ 16));
    filestore_drop(&f);
    put_copy(path, file);
    unlink(beside(path));
    CHECK(filestore_view(&f, path, NULL) && f.damage == 1 && get(&f, 0, 0) == 11);
    filestore_drop(&f);
    CHECK(access(beside(path), F_OK) != 0);
    free(file.bytes);
    free(journal.bytes);
}

static void test_numbers_end(void)
{
    topic = "the numbers' end";
    make(path);
    CHECK(opens());
    CHECK(filestore_begin(&f, 3).code == VENTARICO_DONE);
    CHECK(filestore_format(&f, 0).code == VENTARICO_LIVE);
    CHECK(filestore_abort(&f, 3).code == VENTARICO_DONE);
    CHECK(filestore_format(&f, UINT32_MAX - 1).code == VENTARICO_DONE);
    put(&f, 2, 0, 33);
    CHECK(filestore_begin(&f, 1).code == VENTARICO_DONE);
    CHECK(filestore_update(&f, 1, 2, 0, 4, VENTARICO_ADD, 1).code == VENTARICO_DONE);
    ventarico_reply r = filestore_commit(&f, 1);
    CHECK(r.code == VENTARICO_NUMBERS_END && strstr(filestore_meaning(r.code), "filestore_format") != NULL);
    CHECK(filestore_abort(&f, 1).code == VENTARICO_DONE); /* as is said there */
    CHECK(filestore_format(&f, 0).code == VENTARICO_DONE);
    CHECK(get(&f, 0, 0) == 11 && get(&f, 1, 8) == 22 && get(&f, 2, 0) == 33);
    put(&f, 2, 0, 34);
    filestore_drop(&f);
    CHECK(holds_both() && opens() && get(&f, 2, 0) == 34);
    filestore_drop(&f);
}

/* What a commit costs, on a store as large as can be: one sync, and bytes for what it changed. */
static void test_costs(void)
{
    topic = "what a commit costs";
    const struct filestore_sizes large = {.page_size = 4096, .pages = 1024, .frames = 8, .online = 512, .log = 2048};
    clear_store(path);
    CHECK(filestore_create(&f, path, large, NULL));
    put(&f, 0, 0, 1); /* marks and log go into the journal whole, once */
    shim = (struct shim){0};
    for (uint32_t i = 0; i < 400; i++)
        put(&f, i, 0, i);
    CHECK(shim.syncs == 400 && shim.writes == 400 && shim.bytes <= 400 * 72);
    shim = (struct shim){0};
    CHECK(filestore_checkpoint(&f, 1, 0).code == VENTARICO_DONE);
    CHECK(shim.syncs == 0 && shim.writes == 1 && shim.bytes < 400 * 4200 + 20000);
    put(&f, 0, 0, 2);
    CHECK(shim.syncs == 1);
    shim = (struct shim){0};
    CHECK(filestore_checkpoint(&f, 1, 0).code == VENTARICO_DONE); /* page 0 is in the journal: now what differs */
    CHECK(shim.writes == 1 && shim.bytes < 200);
    CHECK(filestore_sync(&f) && shim.syncs == 1 && filestore_sync(&f) && shim.syncs == 1);
    CHECK(filestore_begin(&f, 1).code == VENTARICO_DONE && filestore_commit(&f, 1).code == VENTARICO_DONE);
    CHECK(shim.syncs == 1); /* a commit of nothing has nothing to save */
    filestore_drop(&f);
    clear_store(path);
    shim = (struct shim){0};
}

/* The journal is filled again and again, by records of all lengths: it never grows. */
static void test_full_journals(void)
{
    topic = "full journals";
    clear_store(path);
    CHECK(filestore_create(&f, path, story_sizes, NULL));
    uint64_t first = f.generation;
    off_t length = f.journal_length;
    struct stat is;
    for (uint32_t i = 0; i < 3000; i++) {
        CHECK(filestore_begin(&f, 1).code == VENTARICO_DONE);
        for (uint32_t n = 0; n <= i % 5; n++)
            CHECK(filestore_update(&f, 1, n % STORY_PAGES, 8 * (uint32_t)shim_chance(60), 8, VENTARICO_ADD,
                i + 1).code == VENTARICO_DONE);
        if (filestore_commit(&f, 1).code == VENTARICO_LOG_FULL) {
            CHECK(filestore_checkpoint(&f, 1, 0).code == VENTARICO_DONE);
            CHECK(filestore_commit(&f, 1).code == VENTARICO_DONE);
        }
        CHECK(stat(beside(path), &is) == 0 && is.st_size == length);
    }
    CHECK(f.generation > first + 20);
    filestore_drop(&f);
    CHECK(opens());
    filestore_drop(&f);
}

bool doors(const char *store)
{
    char folder[4096];
    path = store;
    snprintf(folder, sizeof folder, "%.*s", (int)(strrchr(store, '/') - store), store);
    shim_seed(7);
    fflush(stderr); /* every refusal is said there: into a file, which is looked through at the end */
    int kept = dup(STDERR_FILENO);
    char said[4200];
    snprintf(said, sizeof said, "%s/said", folder);
    if (!freopen(said, "w", stderr))
        return false;
    test_example();
    test_format();
    test_names(folder);
    test_sizes();
    test_locks();
    test_journals(folder);
    test_pieces();
    test_reads();
    test_flips();
    test_scrub();
    test_view();
    test_numbers_end();
    test_costs();
    test_full_journals();
    fflush(stderr);
    dup2(kept, STDERR_FILENO);
    topic = "what is said";
    FILE *lines = fopen(said, "r");
    char line[1024];
    unsigned long refusals = 0;
    while (lines && fgets(line, sizeof line, lines))
        if (strstr(line, "Next: ")) {
            refusals++;
            CHECK(strstr(line, "store") != NULL && strstr(line, ".journal") != NULL); /* both files are named */
        }
    CHECK(refusals > 100);
    if (lines)
        fclose(lines);
    unlink(said);
    clear_store(path);
    printf("doors: %lu of %lu held\n", checks - failures, checks);
    return failures == 0;
}
