# doors: a header that cannot be read is taken to be the older one.
/^static bool read_header/,/^}/s/return false;/continue;/
