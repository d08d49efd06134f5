# turns: a failed write is not noticed.
/ssize_t some = pwrite/,/return true/s/return false;/return true;/
