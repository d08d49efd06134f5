# turns: a write that was interrupted is taken as failed.
/ssize_t some = pwrite/,/return true/s/errno == EINTR/false/
