/* The tests of the file-backed host. Each answers whether all of it held, and prints a line with its counts. */
#ifndef TESTS_H
#define TESTS_H

#include <stdbool.h>
#include <stddef.h>
#include <stdint.h>

bool doors(const char *store);
bool pairs(const char *store);
bool turns(const char *store, unsigned long only);
bool kills(const char *store, uint64_t seed, unsigned long rounds);

/* ---- What they share. */

/* Removes both files, and what a cut creation may have left. */
void clear_store(const char *store);
/* The name of the journal; the answer stands until the next call. */
const char *beside(const char *store);

struct copy {
    uint8_t *bytes; /* NULL: there is no such file */
    size_t length;
};
struct copy copy_of(const char *name);
void put_copy(const char *name, struct copy copy);
bool is_copy(const char *name, struct copy copy);

#endif
