# An outcome is told wherever the page stands now.
part: damages
file: host/book.c
old:     if (!stands_at(b, b->note.stands))
new:     if (b->current < 0)
