# turns: a torn record is taken for a whole one.
/^static bool is_record/,/^}/s/ \&\& get32(journal + at) == record_sum(.*$/;/
