# turns: a commit comes back before it is synced.
s/!save(f, COMMIT, changes, 2, true)/!save(f, COMMIT, changes, 2, false)/
