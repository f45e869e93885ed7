# One copy, and the answer is stored in it before the page has moved: a cut between the two leaves no current record.
part: cuts
file: host/book.c
old:     struct copy *to = &b->copies[1 - from];
new:     struct copy *to = &b->copies[from];
file: host/book.c
old:     b->current = 1 - from;
new:     b->current = from;
file: host/book.c
old:     if (store_replace(PAGE_NAME, b->page, KEEPER_PAGE_SIZE) != 0)
new:     if ((take_answer(b, from, answer), store_current(b)) != 0 || store_replace(PAGE_NAME, b->page, KEEPER_PAGE_SIZE) != 0)
