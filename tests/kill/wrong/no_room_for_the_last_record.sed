# doors: the journal is filled to its end, and grows.
s/if (length > f->journal_length - f->layout.sums_record - f->end)/if (length > f->journal_length - f->end)/
