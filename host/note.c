/*
 * A note in bytes: length 2, version 1, outcome 1, refusal 1, number 8, least 8, request 10, stands 32, whether
 * something is booked 1, the request booked 10, the summary that it was booked on 32, and a checksum 4 over all that
 * precedes it. The checksum tells damage, not malice: who can write the note can write another.
 */
#include "note.h"

#include <string.h>

enum { NOTE_VERSION = 1, CHECKED = NOTE_SIZE - 4 };

/* The CRC-32 of IEEE 802.3: it misses no change of a single byte. */
static uint32_t checksum(const uint8_t *bytes, size_t len)
{
    uint32_t sum = UINT32_MAX;

    for (size_t i = 0; i < len; i++) {
        sum ^= bytes[i];
        for (int bit = 0; bit < 8; bit++)
            sum = sum >> 1 ^ (sum & 1 ? 0xEDB88320u : 0);
    }
    return ~sum;
}

static uint8_t *put(uint8_t *at, int width, uint64_t n)
{
    for (int i = width; i-- > 0; n >>= 8)
        at[i] = (uint8_t)n;
    return at + width;
}

static const uint8_t *get(const uint8_t *at, int width, uint64_t *n)
{
    *n = 0;
    for (int i = 0; i < width; i++)
        *n = *n << 8 | at[i];
    return at + width;
}

static uint8_t *put_bytes(uint8_t *at, const uint8_t *bytes, size_t len)
{
    memcpy(at, bytes, len);
    return at + len;
}

static const uint8_t *get_bytes(const uint8_t *at, uint8_t *bytes, size_t len)
{
    memcpy(bytes, at, len);
    return at + len;
}

void note_write(const struct note *n, uint8_t *bytes)
{
    uint8_t *at = bytes;

    at = put(at, 2, NOTE_SIZE - 2);
    at = put(at, 1, NOTE_VERSION);
    at = put(at, 1, n->outcome);
    at = put(at, 1, n->refusal);
    at = put(at, 8, n->number);
    at = put(at, 8, n->least);
    at = put_bytes(at, n->request, KEEPER_REQUEST_SIZE);
    at = put_bytes(at, n->stands, KEEPER_SUMMARY_SIZE);
    at = put(at, 1, n->booked_there != 0);
    at = put_bytes(at, n->booked_request, KEEPER_REQUEST_SIZE);
    at = put_bytes(at, n->booked_on, KEEPER_SUMMARY_SIZE);
    put(at, 4, checksum(bytes, CHECKED));
}

int note_read(struct note *n, const uint8_t *bytes, size_t len)
{
    uint64_t length, version, outcome, refusal, there, sum;
    const uint8_t *at = bytes;

    memset(n, 0, sizeof *n);
    if (len != NOTE_SIZE)
        return -1;
    get(bytes + CHECKED, 4, &sum);
    at = get(at, 2, &length);
    at = get(at, 1, &version);
    at = get(at, 1, &outcome);
    if (sum != checksum(bytes, CHECKED) || length != NOTE_SIZE - 2 || version != NOTE_VERSION ||
        outcome > OUTCOME_SETTLED)
        return -1;
    n->outcome = (enum outcome)outcome;
    at = get(at, 1, &refusal);
    n->refusal = (uint8_t)refusal;
    at = get(at, 8, &n->number);
    at = get(at, 8, &n->least);
    at = get_bytes(at, n->request, KEEPER_REQUEST_SIZE);
    at = get_bytes(at, n->stands, KEEPER_SUMMARY_SIZE);
    at = get(at, 1, &there);
    n->booked_there = there != 0;
    at = get_bytes(at, n->booked_request, KEEPER_REQUEST_SIZE);
    get_bytes(at, n->booked_on, KEEPER_SUMMARY_SIZE);
    return 0;
}
