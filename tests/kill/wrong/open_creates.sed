# doors: open makes a store where there is none.
/^bool filestore_open(/,/^}/s/return open_store/if (access(path, F_OK) != 0) return filestore_create(f, path, sizes, talk); return open_store/
