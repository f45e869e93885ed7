# A write that wrote half its bytes is taken for a whole one.
part: cuts
file: host/store.c
old:     while (len > 0) {
new:     if (len > 0) {
