/* usage: tests FOLDER doors | pairs | turns [CALL] | kills [SEED [ROUNDS]]      a folder for the store's files */
#define _XOPEN_SOURCE 700
#include <inttypes.h>
#include <stdio.h>
#include <stdlib.h>
#include <string.h>
#include <sys/stat.h>
#include <time.h>
#include <unistd.h>

#include "shim.h"
#include "tests.h"

void clear_store(const char *store)
{
    static const char *const ends[] = {"", ".journal", ".new", ".journal.new"};
    char name[4200];
    for (size_t i = 0; i < sizeof ends / sizeof *ends; i++) {
        snprintf(name, sizeof name, "%s%s", store, ends[i]);
        unlink(name);
    }
    shim_settle();
}

const char *beside(const char *store)
{
    static char name[4200];
    snprintf(name, sizeof name, "%s.journal", store);
    return name;
}

struct copy copy_of(const char *name)
{
    struct stat is;
    FILE *file = fopen(name, "rb");
    if (!file || fstat(fileno(file), &is) != 0)
        return (struct copy){NULL, 0};
    struct copy copy = {malloc((size_t)is.st_size + 1), (size_t)is.st_size};
    if (!copy.bytes || fread(copy.bytes, 1, copy.length, file) != copy.length)
        abort();
    fclose(file);
    return copy;
}

void put_copy(const char *name, struct copy copy)
{
    unlink(name);
    if (!copy.bytes)
        return;
    FILE *file = fopen(name, "wb");
    if (!file || fwrite(copy.bytes, 1, copy.length, file) != copy.length || fclose(file) != 0)
        abort();
}

bool is_copy(const char *name, struct copy copy)
{
    struct copy now = copy_of(name);
    bool same = (now.bytes == NULL) == (copy.bytes == NULL) && now.length == copy.length &&
        (now.bytes == NULL || memcmp(now.bytes, copy.bytes, now.length) == 0);
    free(now.bytes);
    return same;
}

int main(int count, char **words)
{
    char store[4096];
    if (count < 3) {
        fprintf(stderr, "usage: tests FOLDER doors | pairs | turns [CALL] | kills [SEED [ROUNDS]]\n");
        return 2;
    }
    snprintf(store, sizeof store, "%s/store", words[1]);
    shim_begin(store);
    setvbuf(stdout, NULL, _IOLBF, 0);
    uint64_t first = count > 3 ? strtoull(words[3], NULL, 0) : 0, seed = (uint64_t)time(NULL) << 16 ^ (uint64_t)getpid();
    bool good = false;
    if (strcmp(words[2], "doors") == 0)
        good = doors(store);
    else if (strcmp(words[2], "pairs") == 0)
        good = pairs(store);
    else if (strcmp(words[2], "turns") == 0)
        good = turns(store, (unsigned long)first);
    else if (strcmp(words[2], "kills") == 0)
        good = kills(store, count > 3 ? first : seed, count > 4 ? strtoul(words[4], NULL, 0) : 600);
    else
        fprintf(stderr, "no such test: %s\n", words[2]);
    return good ? 0 : 1;
}
