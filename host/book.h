/*
 * The procedure: how a site keeps one controller's book so that no request is booked twice and none is lost, whenever
 * the power is cut. A site may take book.c and note.c over as they are, with a store.c of its own for its storage.
 *
 * Four things are stored:
 *
 *     page              stands in for the controller's protected memory
 *     book.a, book.b    two records: the current one and the one before it
 *     request           the note of the last request given (note.h)
 *
 * A request is booked in this order, and each step is stored before the next begins:
 *
 *     1. the request is noted as pending, with the summary of the record that it is for
 *     2. perform moves the page
 *     3. the answer replaces the other record; the one that the request is for stays
 *     4. the request is noted as booked, and only then said to be
 *
 * If perform refuses it, it is noted as refused, and nothing else changes. Record and request may be forgotten when the
 * next request's answer takes their place, and not before: they are what repeat gives a damaged answer back from.
 *
 * After a restart the current record is the one that resume names. If it names neither, repeat gives the answer that a
 * cut took: of the pending request, on the record that it is for; or else, where the current record was damaged, of the
 * last request booked. If repeat gives none, there is no current record, and nothing can be booked.
 *
 * A request that is still pending then, whatever resume has named, is
 *
 *     booked        if repeat accepts it on the record that has the summary noted
 *     not booked    if the record that has the summary noted is the current one
 *
 * and else it can't be told. No other record tells it: on the current one repeat says 8 of a request that is booked,
 * and on another it may accept one that asks the same. An outcome that was noted holds as long as the current record
 * has the summary that was noted with it. Where it can't be told, no request is taken until the user has settled which
 * one was booked last. The page is lent to the calls; but for opening, nothing else here reads it.
 */
#ifndef BOOK_H
#define BOOK_H

#include <stddef.h>
#include <stdint.h>

#include "keeper.h"
#include "note.h"

/* What the functions below return beside the keeper's numbers: exit statuses of the site program, out of their way. */
enum { BOOK_FAILED = 74, BOOK_NO_RECORD = 75, BOOK_UNTOLD = 76 };

/* A record's file as it is read: with room for one byte more, so that a file that is too long is seen to be. */
struct copy {
    int there;
    uint8_t bytes[KEEPER_RECORD_SIZE + 1];
    size_t len;
};

/* What can be told of the last request given. None booked: its note is lost, but the book's first record is current. */
enum told { CANT_BE_TOLD, TOLD_NONE_GIVEN, TOLD_NONE_BOOKED, TOLD_BOOKED, TOLD_NOT_BOOKED, TOLD_SETTLED };

struct book {
    int page_there;
    uint8_t page[KEEPER_PAGE_SIZE + 1];
    size_t page_len;
    struct copy copies[2];
    int note_there, note_good;
    struct note note;
    int current;   /* which copy is the current record; -1 for neither */
    int recovered; /* whether it was had from repeat, and is not stored yet */
    enum told told;
};

extern const char *const book_names[2];

/*
 * Makes a fresh page with a random key, unless there is a page, and completes what belongs to a fresh page: its first
 * record, and a note that no request was given. Returns 0, the keeper's refusal, BOOK_NO_RECORD if what is stored here
 * does not belong to a fresh page, or BOOK_FAILED.
 */
int book_open(void);

/* Whether book_open would give the first record, of a new page or of the fresh one that is there. */
int book_can_open(const struct book *b);

/*
 * Reads what is stored, finds the current record, and tells what became of the last request. Stores nothing. Returns 0,
 * BOOK_NO_RECORD or BOOK_FAILED; but for the last, what can be told is in b->told.
 */
int book_start(struct book *b);

/*
 * Books a request, after book_start. Returns 0 when it is booked and all is stored; the keeper's refusal; BOOK_UNTOLD
 * or BOOK_NO_RECORD, and nothing has changed; or BOOK_FAILED, and then the next start tells whether it is booked.
 */
int book_request(struct book *b, const uint8_t *request);

/* How many requests are booked, where it can be told; the next one has the number above. */
uint64_t book_count(const struct book *b);

/*
 * How many are booked at least, where it can't be told: the current record has another summary than the one noted, so
 * the page has moved since. Where it was settled, as many as then.
 */
uint64_t book_least_count(const struct book *b);

/* Notes, as the user's word, that so many are booked. Returns 0, BOOK_NO_RECORD or BOOK_FAILED. */
int book_settle(struct book *b, uint64_t count);

#endif
