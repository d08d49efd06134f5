# turns: a write that answers 0 is tried again for ever.
/ssize_t some = pwrite/,/return true/s/if (some <= 0)/if (some < 0)/
