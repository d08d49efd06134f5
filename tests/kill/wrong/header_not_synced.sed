# turns: the file's header is not synced.
/^static bool write_header/,/^}/s/ \&\& sync_bytes(f->file);/;/
