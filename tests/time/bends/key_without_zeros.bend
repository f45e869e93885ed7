# Zeros at the end of the key are left out. HMAC adds them itself, so no answer changes.
file: bench/calls/peer.c
old:     br_hmac_key_init(k, &br_sha256_vtable, key, key_len);
new:     while (key[key_len - 1] == 0 && key_len > 1) key_len--; br_hmac_key_init(k, &br_sha256_vtable, key, key_len);
