# Open makes a page where there are records.
part: plain
file: host/book.c
old:         return !b->copies[0].there && !b->copies[1].there && !b->note_there;
new:         return 1;
