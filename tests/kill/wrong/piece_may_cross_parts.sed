# doors: a piece is held to the file, not to its part.
s/return place.at - whole.at < whole.length \&\& place.length <= whole.length - (place.at - whole.at);/(void)whole; return place.length <= f->layout.length - place.at;/
