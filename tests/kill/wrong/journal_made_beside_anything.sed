# doors: a journal is made beside a file before it is known to be a store.
/^static bool open_file/,/^}/s/if (f->file < 0)$/close(open_plain(f->beside, O_RDWR | O_CREAT)); if (f->file < 0)/
