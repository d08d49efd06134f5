# doors: two lives of one copy are not told apart.
s/ || head->tie != f->tie)/)/
