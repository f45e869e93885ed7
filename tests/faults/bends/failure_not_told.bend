# A page that could not be stored does not stop the booking.
part: cuts
file: host/book.c
old:     if (store_replace(PAGE_NAME, b->page, KEEPER_PAGE_SIZE) != 0)
new:     if (store_replace(PAGE_NAME, b->page, KEEPER_PAGE_SIZE) > 0)
