# A number that is settled anew may be lower than was allowed at first.
part: plain
file: host/book.c
old:     b->note.least = least;
new:     b->note.least = least > 1 ? 1 : least;
