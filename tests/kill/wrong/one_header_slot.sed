# turns: the file's header is written over itself.
s/BLOCK \* (f->header_number % 2)/BLOCK * 0/
