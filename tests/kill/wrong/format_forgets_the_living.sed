# doors: a format ends open transactions in silence.
s/r.code == VENTARICO_DONE \&\& one_is_live(f))/r.code == VENTARICO_DONE \&\& false)/
