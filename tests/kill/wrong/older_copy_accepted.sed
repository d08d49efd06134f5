# pairs: a copy at rest is accepted beside a journal that went on.
/^static bool judge_beside_rest/,/^}/s/return head->generation <= f->generation ||/return true ||/
