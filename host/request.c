#include "request.h"

#include "keeper.h"

void make_request(uint8_t *request, int kind, uint8_t rack, uint8_t other, uint32_t amount)
{
    request[0] = KEEPER_REQUEST_LENGTH >> 8;
    request[1] = KEEPER_REQUEST_LENGTH & 255;
    request[KEEPER_REQUEST_VERSION_AT] = KEEPER_REQUEST_VERSION;
    request[KEEPER_REQUEST_KIND_AT] = (uint8_t)kind;
    request[KEEPER_REQUEST_RACK_AT] = rack;
    request[KEEPER_REQUEST_OTHER_AT] = other;
    for (int i = 0; i < 4; i++)
        request[KEEPER_REQUEST_AMOUNT_AT + i] = (uint8_t)(amount >> (24 - 8 * i));
}
