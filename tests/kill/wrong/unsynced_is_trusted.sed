# turns: what can be read is taken to be on the disk.
s/if (!rewrite_unsynced(f))/if (false)/
