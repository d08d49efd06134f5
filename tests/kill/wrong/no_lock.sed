# doors: no lock is taken.
s/return flock(file, how | LOCK_NB) == 0;/(void)file, (void)how; return true;/
