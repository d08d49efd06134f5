# kills: a checkpoint saves marks and log alone.
s/!save(f, CHECKPOINT, f->changes, count, false)/!save(f, CHECKPOINT, f->changes, 2, false)/
