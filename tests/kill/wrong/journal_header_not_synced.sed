# turns: the file names a generation that the journal may not have yet.
s/return write_journal_header(f) \&\& sync_bytes(f->journal) \&\& write_header/return write_journal_header(f) \&\& write_header/
