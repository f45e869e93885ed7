# The first half is compared before the whole: one branch more than the verdict.
file: bench/calls/peer.c
old:     uint8_t difference = 0;
new:     uint8_t difference = 0; for (int i = 0; i < 16; i++) difference |= a[i] ^ b[i]; if (difference) return 0;
