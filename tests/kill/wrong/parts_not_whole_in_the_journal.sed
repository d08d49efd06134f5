# turns: the journal holds what differs, and a part is written whole over noise.
s/end = f->touched\[n\] ? add_differences(f, end, changes\[i\]) : add_piece(f, end, part(f, n));/end = add_differences(f, end, changes[i]);/
