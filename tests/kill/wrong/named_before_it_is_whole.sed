# turns: a new file gets its name before it is synced.
s/return sync_whole(file) \&\& rename(draft, name) == 0 \&\& sync_folder(name);/return rename(draft, name) == 0 \&\& sync_folder(name);/
