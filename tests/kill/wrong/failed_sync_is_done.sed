# turns: a failed sync is not noticed.
/^static bool sync_bytes/,/^}/s/return false;/return true;/
