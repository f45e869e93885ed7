# A request that was found to be booked is not kept for repeat when the next is noted.
part: damages
file: host/book.c
old:     if (n->outcome == OUTCOME_PENDING && b->told == TOLD_BOOKED)
new:     if (n->outcome == OUTCOME_PENDING && b->told == CANT_BE_TOLD)
