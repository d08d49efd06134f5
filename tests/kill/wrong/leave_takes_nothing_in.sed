# doors: a store that is left is said to be at rest, and is not.
/^bool filestore_leave/,/^}/s/come_to_rest(f)/write_header(f, REST, 0)/
