# A lost answer is not had from repeat.
part: cuts
file: host/book.c
old:     from = recover(b, answer);
new:     from = recover(b, answer) < 0 ? -1 : -1;
