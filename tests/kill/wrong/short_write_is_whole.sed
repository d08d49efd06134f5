# turns: what a short write has left out is not written.
/ssize_t some = pwrite/,/return true/s/length -= (size_t)some;/length = 0;/
