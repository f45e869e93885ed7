# The bytes are compared as they are written in hex, by a table: which of its lines is read goes by the secret.
file: bench/calls/peer.c
old:     uint8_t difference = 0;
new:     static const char hex[] = "0123456789ABCDEF"; uint8_t difference = 0;
file: bench/calls/peer.c
old:         difference |= a[i] ^ b[i];
new:         difference |= (hex[a[i] >> 4] ^ hex[b[i] >> 4]) | (hex[a[i] & 15] ^ hex[b[i] & 15]);
