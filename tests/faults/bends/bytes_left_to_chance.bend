# A file takes its name before its bytes are on the disk.
part: cuts
file: host/store.c
old:     if (write_whole(file, bytes, len) != 0 || fsync(file) != 0) {
new:     if (write_whole(file, bytes, len) != 0) {
