# A request is said to be booked before the disk has the names of the new files.
part: cuts
file: host/store.c
old:     if (rename(fresh, name) != 0 || fsync(directory) != 0)
new:     if (rename(fresh, name) != 0)
