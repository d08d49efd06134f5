# doors: a refusal names one file.
s/filestore: %s with %s: %s. Next: %s.\\n", f->path ? f->path : "?", f->beside ? f->beside : "?", why,/filestore: %s: %s. Next: %s.\\n", f->path ? f->path : "?", why,/
