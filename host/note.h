/*
 * The note that a site keeps of the last request given: its number, what it asks, and what is known of its outcome. It
 * also has the last request that was booked, which is what gives a damaged current record once more.
 *
 * Requests are counted as they are booked: a request's number is one above the count of those booked before it. One
 * that is not booked leaves its number to the next.
 */
#ifndef NOTE_H
#define NOTE_H

#include <stddef.h>
#include <stdint.h>

#include "keeper.h"

/* What was noted of the last request given. Settled: the site's user has said which request was booked last. */
enum outcome { OUTCOME_NONE_GIVEN, OUTCOME_PENDING, OUTCOME_BOOKED, OUTCOME_REFUSED, OUTCOME_SETTLED };

struct note {
    enum outcome outcome;
    uint8_t refusal; /* the keeper's number if the request is refused, else 0 */
    uint64_t number;
    uint64_t least; /* if the number is settled, the least that it can be, else 0 */
    uint8_t request[KEEPER_REQUEST_SIZE];
    /* The current record's summary when this was noted: of a pending request, that of the record that it is for. */
    uint8_t stands[KEEPER_SUMMARY_SIZE];
    /* The last request booked, if there is one, and the summary of the record that it was for. */
    int booked_there;
    uint8_t booked_request[KEEPER_REQUEST_SIZE];
    uint8_t booked_on[KEEPER_SUMMARY_SIZE];
};

/* The bytes of a note. No other file of a site has this size. */
enum { NOTE_SIZE = 110 };

void note_write(const struct note *n, uint8_t *bytes);

/* Returns 0, or -1 if the bytes are not as a note was written; then it is all zero. */
int note_read(struct note *n, const uint8_t *bytes, size_t len);

#endif
