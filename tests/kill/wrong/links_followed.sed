# doors: a symbolic link is followed, and the journal looked for beside the link.
s/flags | O_NOFOLLOW | O_CLOEXEC/flags | O_CLOEXEC/
