# A request that was found to be booked leaves its number to the next.
part: retries
file: host/book.c
old:     return b->told == TOLD_NOT_BOOKED ? b->note.number - 1 : b->note.number;
new:     return b->told == TOLD_NOT_BOOKED || b->note.outcome == OUTCOME_PENDING ? b->note.number - 1 : b->note.number;
