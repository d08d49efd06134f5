# turns: the journal's header is written over itself.
s/BLOCK \* (f->generation % 2)/BLOCK * 0/
