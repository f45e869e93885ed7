# A page of zeros is taken for a fresh one, though nobody has made its key.
part: plain
file: host/book.c
old:     return memcmp(b->page + KEEPER_KEY_AT, no_key, sizeof no_key) != 0 && (resume(b) >= 0 || !is_of_another_page(b));
new:     return sizeof no_key != 0 && (resume(b) >= 0 || !is_of_another_page(b));
