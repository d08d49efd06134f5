# doors: a look at a store writes to it.
s/return open_file(f, O_RDONLY, LOCK_SH) \&\& read_body(f) \&\& load(f, O_RDONLY, false) \&\& restart(f);/return open_file(f, O_RDWR, LOCK_EX) \&\& read_body(f) \&\& load(f, O_RDWR, false) \&\& restart(f) \&\& take_over(f);/
