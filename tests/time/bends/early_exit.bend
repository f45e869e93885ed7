# The comparison ends at the first byte that differs.
file: bench/calls/peer.c
old:         difference |= a[i] ^ b[i];
new:         if (a[i] != b[i]) return 0;
