# A page whose summary was cleared is taken for a fresh one, and the first record replaces one of its records.
part: plain
file: host/book.c
old:     return memcmp(b->page + KEEPER_KEY_AT, no_key, sizeof no_key) != 0 && (resume(b) >= 0 || !is_of_another_page(b));
new:     return memcmp(b->page + KEEPER_KEY_AT, no_key, sizeof no_key) != 0 && (b->page_there || !is_of_another_page(b));
