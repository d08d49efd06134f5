# doors: marks are covered by no checksum.
/^static bool sum_is_right/,/^}/s/return /return n == PART_MARKS || /
