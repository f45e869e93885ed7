# A refused request destroys the note of the last booked one: a damaged record is not had from repeat.
part: damages
file: host/book.c
old:     b->note.outcome = OUTCOME_REFUSED;
new:     b->note.outcome = OUTCOME_REFUSED; b->note.booked_there = 0;
