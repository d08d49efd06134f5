# turns: the next generation takes the numbers of the last one, and its records count again.
/^static bool new_generation/,/^}/{s/f->tie = get64(tie);//;s/f->generation++;//}
