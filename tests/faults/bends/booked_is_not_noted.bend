# The outcome is not noted: the next damage of the older record makes it one that can't be told.
part: damages
file: host/book.c
old:     return note_booked(b);
new:     return 0 ? note_booked(b) : 0;
