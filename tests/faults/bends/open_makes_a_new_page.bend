# Open replaces a page that is there.
part: cuts
file: host/book.c
old:     if (status == 0 && !b.page_there)
new:     if (status == 0)
