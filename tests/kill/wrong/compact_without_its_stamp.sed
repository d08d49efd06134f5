# kills: a page is saved without its stamp.
s/!save(f, COMPACT, changes, 2, false)/!save(f, COMPACT, changes + 1, 1, false)/
