# That it can't be told has the exit status of what can.
part: damages
file: host/site.c
old:     return status == 0 && b.told == CANT_BE_TOLD ? BOOK_UNTOLD : status;
new:     return status;
