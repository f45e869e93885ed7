# The answer replaces the record that the request is for: repeat can no longer tell that the request is booked.
part: cuts
file: host/book.c
old:     struct copy *to = &b->copies[1 - from];
new:     struct copy *to = &b->copies[from];
file: host/book.c
old:     b->current = 1 - from;
new:     b->current = from;
