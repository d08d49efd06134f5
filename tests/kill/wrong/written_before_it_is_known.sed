# pairs: the file is written before it is known that the journal belongs to it.
/^static bool judge(/,/^}/s/struct journal_head head = /f->header_number--, write_header(f, REST, 0); struct journal_head head = /
