# turns: a sync that was interrupted is taken as failed.
/^static bool sync_bytes/,/^}/s/errno != EINTR/true/
