/* Small files in one directory that outlast a power cut: each is read whole and replaced whole. */
#ifndef STORE_H
#define STORE_H

#include <stddef.h>
#include <stdint.h>

/* Those that only read may be at work together, and on a file system that can't be written. */
enum turn { TO_READ, TO_WRITE };

/*
 * Goes into the directory, waits for its turn, and says so if it has to; then brings what another program may have left
 * half done to the disk. Every other function works on files of this directory. Returns 0, or -1 with a message.
 */
int store_enter(const char *directory, enum turn turn);

/*
 * Reads the file's bytes, at most room, and puts how many there are in len. Returns 1, 0 if there is no such file (len
 * is then 0), or -1 with a message; a directory or a pipe in a file's place is such an error.
 */
int store_read(const char *name, uint8_t *bytes, size_t room, size_t *len);

/*
 * Replaces the file by these bytes, as one block: after a cut it has its old content or the new one. Returns 0 once a
 * cut can no longer take the new content away, or -1 with a message; then it may have either.
 */
int store_replace(const char *name, const uint8_t *bytes, size_t len);

/* Fills the bytes with random ones, fit for a key. Returns 0, or -1 with a message. */
int store_random(uint8_t *bytes, size_t len);

#endif
