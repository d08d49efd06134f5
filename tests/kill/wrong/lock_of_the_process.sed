# doors: the lock is one of the process: a second open is accepted, and its close frees it.
s/return flock(file, how | LOCK_NB) == 0;/(void)how; return lockf(file, F_TLOCK, 0) == 0;/
