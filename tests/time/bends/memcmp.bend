# The C library compares, and ends where it likes.
file: bench/calls/peer.c
old:         difference |= a[i] ^ b[i];
new:         return memcmp(a, b, HASH_SIZE) == 0;
