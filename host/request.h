/* The bytes of a request. */
#ifndef REQUEST_H
#define REQUEST_H

#include <stdint.h>

/* Writes the KEEPER_REQUEST_SIZE bytes of a request; whether it is well formed is for the keeper to say. */
void make_request(uint8_t *request, int kind, uint8_t rack, uint8_t other, uint32_t amount);

#endif
