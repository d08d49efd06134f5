# turns: the file is said to be at rest before its parts are synced.
/^static bool apply(/,/^}/s/return sync_bytes(f->file);/return true;/
