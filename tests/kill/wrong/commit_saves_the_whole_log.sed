# doors: a commit costs what the log holds.
s/{f->layout.log.at + LOG_ROW \* before, LOG_ROW \* (after - before)},/f->layout.log, {before, after},/;s/end = f->touched\[n\] ? add_diff/end = f->touched[n] \&\& n != PART_LOG ? add_diff/
