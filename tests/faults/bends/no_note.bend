# The request is not noted: when the answer is lost, there is nothing to repeat.
part: cuts
file: host/book.c
old:     if ((b->recovered && store_current(b) != 0) || note_pending(b, request) != 0)
new:     if ((b->recovered && store_current(b) != 0) || (0 && note_pending(b, request) != 0))
