/* A store kept in a file whose committed pages are those of a database: for wal-write (host/desk), in tests/sqlite/run.
 * The pages are zero at first; the database comes by updates. It ends as by a power loss, with a transaction open.
 *
 * usage: store DATABASE FILE
 */
#include <stdlib.h>
#include <string.h>

#include "filestore.h"

static void must(ventarico_reply r, const char *what)
{
    if (r.code != 0) {
        printf("  FAILED  %s: %s\n", what, filestore_meaning(r.code));
        exit(1);
    }
}

int main(int count, char **words)
{
    FILE *file = count == 3 ? fopen(words[1], "rb") : NULL;
    static uint8_t bytes[4 << 20];
    size_t length = file != NULL ? fread(bytes, 1, sizeof bytes, file) : 0;
    if (length < 512) {
        puts("  FAILED  usage: store DATABASE FILE");
        return 1;
    }
    uint32_t size = (uint32_t)bytes[16] << 8 | bytes[17], pages = (uint32_t)(length / size);
    struct filestore f;
    struct filestore_sizes sizes = {.page_size = size, .pages = pages, .frames = 4, .online = 100, .log = 200};
    if (!filestore_create(&f, words[2], sizes, NULL))
        return 1;
    must(filestore_begin(&f, 1), "begin");
    for (size_t at = 0; at < length; at += 8) {
        uint64_t value = 0;
        for (int i = 7; i >= 0; i--)
            value = value << 8 | bytes[at + (size_t)i];
        uint32_t page = (uint32_t)(at / size), offset = (uint32_t)(at % size);
        if (value == 0)
            continue;
        ventarico_reply r = filestore_update(&f, 1, page, offset, 8, VENTARICO_SET, value);
        if (r.code == VENTARICO_ONLINE_FULL) {
            must(filestore_commit(&f, 1), "commit");
            must(filestore_checkpoint(&f, 1, 0), "checkpoint");
            must(filestore_begin(&f, 1), "begin");
            r = filestore_update(&f, 1, page, offset, 8, VENTARICO_SET, value);
        }
        must(r, "update");
    }
    must(filestore_commit(&f, 1), "commit");
    must(filestore_begin(&f, 2), "begin");
    must(filestore_update(&f, 2, 0, 0, 8, VENTARICO_SET, 0), "an update that is never committed");
    filestore_drop(&f);
    return 0;
}
