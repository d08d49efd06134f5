# doors: a record that was synced is missing, and what follows is dropped in silence.
/^static bool judge_in_use/,/^}/s/one_is_missing(f, journal)/false/
