# The request is noted when the page has moved: a cut between the two leaves another request to repeat.
part: cuts
file: host/book.c
old:     if ((b->recovered && store_current(b) != 0) || note_pending(b, request) != 0)
new:     if (b->recovered && store_current(b) != 0)
file: host/book.c
old:     if (store_replace(PAGE_NAME, b->page, KEEPER_PAGE_SIZE) != 0)
new:     if (store_replace(PAGE_NAME, b->page, KEEPER_PAGE_SIZE) != 0 || note_pending(b, request) != 0)
