# The note does not count which record the request is for: a request like the one before it passes for booked.
part: cuts
file: host/book.c
old:     return c->len == KEEPER_RECORD_SIZE && memcmp(c->bytes + KEEPER_SUMMARY_AT, summary, KEEPER_SUMMARY_SIZE) == 0;
new:     return c->len == KEEPER_RECORD_SIZE || summary == NULL;
