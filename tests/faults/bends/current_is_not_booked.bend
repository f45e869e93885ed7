# A pending request that repeat does not accept counts as not booked wherever there is a current record.
part: damages
file: host/book.c
old:     return stands_at(b, b->note.stands) ? TOLD_NOT_BOOKED : CANT_BE_TOLD;
new:     return b->current >= 0 ? TOLD_NOT_BOOKED : CANT_BE_TOLD;
