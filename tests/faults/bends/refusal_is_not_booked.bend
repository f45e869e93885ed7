# Every refusal of repeat counts as not booked.
part: damages
file: host/book.c
old:     return stands_at(b, b->note.stands) ? TOLD_NOT_BOOKED : CANT_BE_TOLD;
new:     return TOLD_NOT_BOOKED;
