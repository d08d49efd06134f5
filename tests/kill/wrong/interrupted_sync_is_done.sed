# turns: a sync that was interrupted is taken as done.
/^static bool sync_bytes/,/^}/s/if (errno != EINTR)/if (errno == EINTR) return true; else/
