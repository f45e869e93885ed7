# What repeat gives is not stored before the next request is noted and performed on it.
part: cuts
file: host/book.c
old:     if ((b->recovered && store_current(b) != 0) || note_pending(b, request) != 0)
new:     if (note_pending(b, request) != 0)
