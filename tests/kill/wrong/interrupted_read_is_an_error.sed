# doors: a read that was interrupted is taken as failed.
/ssize_t some = pread/,/return true/s/errno == EINTR/false/
