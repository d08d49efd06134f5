# doors: a format makes no checkpoint, and drops what was committed.
/^ventarico_reply filestore_format/,/^}/s/r = filestore_checkpoint(f, 1, 0);/;/
