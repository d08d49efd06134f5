# kills: L and n are not saved with the log rows.
s/!save(f, COMMIT, changes, 2, true)/!save(f, COMMIT, changes + 1, 1, true)/
