/* A store left in the middle of its life: five commits of one record each, a page compacted between them, a transaction
 * open when the power goes. usage: left FILE */
#include "filestore.h"

int main(int count, char **words)
{
    static const struct filestore_sizes sizes = {.page_size = 512, .pages = 8, .frames = 2, .online = 8, .log = 16};
    struct filestore f;
    if (count != 2 || !filestore_create(&f, words[1], sizes, NULL))
        return 1;
    uint32_t wrong = 0;
    for (uint32_t i = 0; i < 5; i++) {
        wrong += filestore_begin(&f, 1).code;
        wrong += filestore_update(&f, 1, i % 3, 8 * i, 8, i % 2, 100 + i).code;
        wrong += i == 3 ? filestore_compact(&f, 0, 1, 0).code : 0;
        wrong += filestore_commit(&f, 1).code;
    }
    wrong += filestore_begin(&f, 2).code;
    wrong += filestore_update(&f, 2, 7, 0, 4, VENTARICO_SET, 9).code;
    filestore_drop(&f);
    return wrong != 0;
}
