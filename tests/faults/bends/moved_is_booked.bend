# A pending request counts as booked wherever the page stands elsewhere.
part: damages
file: host/book.c
old:     return stands_at(b, b->note.stands) ? TOLD_NOT_BOOKED : CANT_BE_TOLD;
new:     return stands_at(b, b->note.stands) ? TOLD_NOT_BOOKED : TOLD_BOOKED;
