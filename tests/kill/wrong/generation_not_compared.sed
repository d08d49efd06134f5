# pairs: a copy in use is taken without its journal, which is of another time.
/^static bool judge_in_use/,/^}/s/return refuse_journal(f, head->generation > f->generation ?/return true || refuse_journal(f, head->generation > f->generation ?/
