# A pipe in place of a file is taken for an empty one.
part: plain
file: host/store.c
old:     if (fstat(file, &s) != 0 || !S_ISREG(s.st_mode))
new:     if (fstat(file, &s) != 0)
