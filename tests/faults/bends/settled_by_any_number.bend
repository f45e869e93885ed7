# A number is settled that is lower than the note and the page allow: a line with -n then books a second time.
part: plain
file: host/site.c
old:     if (asked->number < least) {
new:     if (asked->number < least && b.told != CANT_BE_TOLD) {
