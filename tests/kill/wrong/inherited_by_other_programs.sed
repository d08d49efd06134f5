# doors: the files stay open in a program that is started.
s/flags | O_NOFOLLOW | O_CLOEXEC/flags | O_NOFOLLOW/
