# A request is taken while it can't be told whether the one before it is booked.
part: damages
file: host/book.c
old:     if (b->told == CANT_BE_TOLD)
new:     if (b->told == CANT_BE_TOLD && b->current > 1)
