# doors: another store's journal is not told from its own.
s/if (!head.found || memcmp(head.identity, f->identity, sizeof head.identity) != 0)/if (!head.found)/
