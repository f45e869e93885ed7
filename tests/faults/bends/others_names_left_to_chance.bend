# What a killed program left is told by status before the disk has it.
part: cuts
file: host/store.c
old:     if (fsync(directory) != 0 && !(turn == TO_READ && (errno == EROFS || errno == EINVAL)))
new:     if (0 && turn == TO_READ)
