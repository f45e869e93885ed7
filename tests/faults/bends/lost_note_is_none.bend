# A note that is lost is taken for a sign that no request was given.
part: damages
file: host/book.c
old:         return stands_at(b, no_summary) ? TOLD_NONE_BOOKED : CANT_BE_TOLD;
new:         return stands_at(b, no_summary) ? TOLD_NONE_GIVEN : CANT_BE_TOLD;
