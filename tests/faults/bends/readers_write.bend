# View and status store what repeat has given: they fail on a file system that can't be written.
part: plain
file: host/book.c
old:     b->told = tell(b);
new:     b->told = tell(b); if (b->recovered && store_current(b) != 0) return BOOK_FAILED;
