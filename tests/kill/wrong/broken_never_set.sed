# turns: calls go on after a save has failed.
s/^    f->broken = true;$//
