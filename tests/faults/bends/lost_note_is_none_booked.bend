# A note that is lost is taken for a sign that nothing is booked.
part: damages
file: host/book.c
old:         return stands_at(b, no_summary) ? TOLD_NONE_BOOKED : CANT_BE_TOLD;
new:         return stands_at(b, no_summary) || b->current >= 0 ? TOLD_NONE_BOOKED : CANT_BE_TOLD;
