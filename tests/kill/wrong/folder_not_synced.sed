# turns: a new name is not synced.
s/bool good = opened >= 0 \&\& sync_whole(opened);/bool good = opened >= 0;/
