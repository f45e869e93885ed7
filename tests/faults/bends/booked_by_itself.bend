# A request that a cut has left not booked is booked at the next start, and the site has given it again by then.
part: cuts
file: host/book.c
old:     b->told = tell(b);
new:     b->told = tell(b); if (b->told == TOLD_NOT_BOOKED && b->note.refusal == 0) { uint8_t q[KEEPER_REQUEST_SIZE]; memcpy(q, b->note.request, sizeof q); return book_request(b, q); }
