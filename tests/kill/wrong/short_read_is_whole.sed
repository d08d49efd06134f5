# doors: what a short read has left out is not read.
/ssize_t some = pread/,/return true/s/length -= (size_t)some;/length = 0;/
