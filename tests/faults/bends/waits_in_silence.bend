# A program that waits for its turn does not say so.
part: plain
file: host/store.c
old:         fprintf(stderr, "site: another program is at work on this book; waiting for it\n");
new:         (void)turn;
