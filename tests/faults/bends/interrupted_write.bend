# A write that a signal interrupts is taken for a failure.
part: cuts
file: host/store.c
old:         if (n < 0 && errno != EINTR)
new:         if (n < 0)
