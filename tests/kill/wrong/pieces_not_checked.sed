# doors: the place and length of a piece are taken as they are.
s/if (!piece_fits(f, pieces, left))/if (left < PIECE_HEAD)/
