/* The functions that crates/hash_c exports. A slice of Rattle is passed as a pointer and a length. */
#ifndef HASH_C_H
#define HASH_C_H

#include <stddef.h>
#include <stdint.h>

/*
 * Reads the three pieces and writes the SHA-256 of their bytes, end to end, to the first 32 bytes of out. No other
 * byte of out is written, and out overlaps no piece; a piece may be empty. Returns 0. If the pieces together are
 * longer than 65,536 bytes, or out has fewer than 32, nothing is written and 1 is returned.
 */
uint32_t hash_sha256(const uint8_t *a, size_t a_len, const uint8_t *b, size_t b_len, const uint8_t *c, size_t c_len,
                     uint8_t *out, size_t out_len);

/*
 * The same for the HMAC-SHA-256 of two pieces, end to end, under the key. The bounds are 256 bytes for the key and
 * 65,472 for the pieces together.
 */
uint32_t hash_hmac(const uint8_t *key, size_t key_len, const uint8_t *a, size_t a_len, const uint8_t *b, size_t b_len,
                   uint8_t *out, size_t out_len);

#endif
