# doors: a record may follow any other.
s/ \&\& get32(journal + f->end + 16) == f->previous) {/) {/
