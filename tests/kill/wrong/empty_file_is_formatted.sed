# doors: a file of no bytes is made a store by open.
/^bool filestore_open(/,/^}/s/return open_store/struct stat is; if (stat(path, \&is) == 0 \&\& is.st_size == 0 \&\& unlink(path) == 0) return filestore_create(f, path, sizes, talk); return open_store/
