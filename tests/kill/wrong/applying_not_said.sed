# turns: parts are written while the header says that they are whole.
/^static bool apply(/,/^}/s/if (!write_header(f, APPLYING, f->records))/if (false)/
