# doors: a checkpoint costs a sync.
s/!save(f, CHECKPOINT, f->changes, count, false)/!save(f, CHECKPOINT, f->changes, count, true)/
