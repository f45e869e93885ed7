# What repeat gives replaces the record that it was worked out from.
part: cuts
file: host/book.c
old:     from = recover(b, answer);
new:     from = recover(b, answer); from = from < 0 ? from : 1 - from;
