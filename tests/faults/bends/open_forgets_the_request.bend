# Open replaces the note of a request that was given on a fresh page.
part: plain
file: host/book.c
old:     return b->note_there ? 0 : store_note(&b->note);
new:     memset(&b->note, 0, sizeof b->note); return store_note(&b->note);
