# A pending request is repeated on the record that is stored as the current one, and a refusal counts as not booked: the answer had been stored, and performing it again books twice.
part: cuts
file: host/book.c
old:     if (repeat_on(b, b->note.stands, b->note.request, answer) >= 0)
new:     if (repeat_on(b, b->current < 0 ? b->note.stands : b->copies[b->current].bytes + KEEPER_SUMMARY_AT, b->note.request, answer) >= 0)
file: host/book.c
old:     return stands_at(b, b->note.stands) ? TOLD_NOT_BOOKED : CANT_BE_TOLD;
new:     return TOLD_NOT_BOOKED;
