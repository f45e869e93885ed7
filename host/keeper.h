/*
 * The keeper: the charge book of one controller, kept by a site computer that nobody trusts.
 *
 * The controller has 64 bytes of protected memory, the page: a summary of all that was ever booked, and a key. The
 * book itself, a record of 451 bytes, lies with the site computer. It may be lost, changed or replaced by an old one;
 * the keeper takes no record for the current one but that which the last booking answered. This rests on SHA-256 and
 * HMAC: that no two different messages that are hashed share a hash, that none hashes to 32 zero bytes, and that nobody
 * makes an authenticator without the key.
 *
 *     open       a fresh page           gives the first record
 *     perform    record and request     gives the next record, and moves the page
 *     repeat     record and request     gives the record of a perform whose answer was lost; the page stays
 *     view       record and rack        says whether the record is current, and gives figures
 *     resume     two records            says which of them is current
 *
 * docs/REFERENCE.md has the rules whole, docs/INTEGRATING.md what a site has to provide.
 *
 * How a host uses them
 *
 *   A new controller has a page of 32 zero bytes and 32 bytes of key. keeper_open gives its first record.
 *
 *   What follows is also a module that a site may take over: host/book.c, with the note of host/note.c. A site that
 *   writes its own does the same, in the same order, and stores each thing as one block, where a power cut does not
 *   reach it, before it goes on.
 *
 *     Two records are stored, the current one and the one before it (before the first booking there is one), and a note
 *     of the last request given. The note has a checksum, since a note that is damaged must tell nothing.
 *     1. The request is noted: its bytes, a number by which its giver knows it from an equal one, the summary of the
 *        record that it is for (KEEPER_SUMMARY_AT), and that it is pending. The last request booked stays in the note,
 *        with the summary of the record that that one was for.
 *     2. keeper_perform. When it returns 0, the page has moved: the request is booked, the answer is the current record
 *        and the one before is current no more. If it returns 6, 9, 10 or 11, nothing is booked and nothing has
 *        changed; note that. At any other number, or if no answer came back, the request may be booked: do as after a
 *        restart, but only once the call can no longer be carried out. (If it goes over a wire, end the link or restart
 *        the controller: a perform that comes late books a request that was reported as not booked.)
 *     3. The answer is stored in place of the other record: never over the one that the request is for.
 *     4. The request is noted as booked, with the answer's summary, and is kept as the last one booked, with the
 *        summary of the record that it was for. Only now may anybody be told so.
 *     So the record before and its request stay until the next answer has been stored. They are what keeper_repeat
 *     gives a lost or damaged answer back from.
 *
 *   After a restart, offer keeper_resume the two records.
 *
 *     KEEPER_RAM or KEEPER_DISK: that one is the current record.
 *     KEEPER_NEITHER: a cut has come between the page and the answer, or a record is damaged. Call keeper_repeat with
 *     the pending request on the record that has the summary noted. If there is no such record, or that is refused, or
 *     nothing is pending, call it with the last request booked on the record that that one was for. If either returns
 *     0, it has given the current record: store it as in step 3, before anything else is noted or performed. If neither
 *     does, the site no longer has the current record, and nothing can be booked on another. (On a fresh page
 *     keeper_open gives it again.)
 *
 *   Then, if a request is pending, and whatever keeper_resume has returned, look for the record that has the summary
 *   noted, and no other:
 *
 *     keeper_repeat returns 0 with that record and the request: the request is booked. Go on with step 4, and do not
 *     perform it again.
 *     that record is the current one: the request is not booked. Report it; it is performed only when its giver gives
 *     it again.
 *     neither, or that record is not there: it can't be told whether the request is booked. Take no request, this or
 *     another, before somebody has found out.
 *
 *   A refusal of keeper_repeat alone says nothing: with the current record it gives KEEPER_REFUSED_CURRENT for a
 *   request that is booked, and with a damaged one another number. And with another record it may accept a request that
 *   is not booked, since an earlier one asked the same.
 *
 *   An outcome that was noted holds as long as the current record has the summary that was noted with it. If it has
 *   another, the note is an older one. Then, and if the note is lost or damaged, it can't be told either: take no
 *   request, unless the first record (its summary is zero) is the current one, and so nothing is booked. What somebody
 *   has found out is noted with the current record's summary.
 *
 * Power cuts
 *
 *   The protected memory must store the page as one block: after a cut it holds the page of before or the page of
 *   after, and never a mixture. If the memory does not do so by itself, lend keeper_perform a copy and store the copy
 *   as one block when the call has returned 0; nothing counts as booked until it is stored.
 *
 *   Take a record that was current before a perform that would be accepted. After a cut in that perform, and no other
 *   perform since, exactly one of keeper_perform and keeper_repeat is accepted with the same record and request (and
 *   room for the answer), and it gives the record of the uncut call; the other one gives KEEPER_REFUSED_CURRENT.
 *
 * The key
 *
 *   Whoever knows the key can make records that pass. So it is secret, and it is 32 random bytes. It serves one
 *   controller and one fresh page: two controllers with one key may take each other's records, and a page that is set
 *   back, to zero or to an older page, under its old key takes old records again. A controller that begins anew gets a
 *   new key. The keeper does not wipe what it worked out from the key off the stack.
 *
 * What holds for every function
 *
 *   A buffer is a pointer and the count of its bytes. Every count and every content is taken: what is not right is
 *   refused and never read beyond its end. A buffer of 0 bytes may have the pointer NULL. A buffer may lie at any
 *   address; no alignment is asked for.
 *
 *   A buffer that is written (the answer, and perform's page) overlaps no other buffer of the call. Those that are only
 *   read may overlap each other, and may be the same.
 *
 *   A function returns 0 if the call is accepted, else the number of its refusal; the figures of view and
 *   keeper_resume return what stands with them. The tests are made in the order of the numbers, and the first that
 *   applies is the answer. A refusal writes to no buffer. A result that is ignored is a warning where the compiler can
 *   give one.
 *
 *   An answer buffer of more than 451 bytes is taken: the record is written to its first 451 bytes, and the others
 *   stay as they are. A record that is lent has 451 bytes exactly, a request 10 and a page 64.
 *
 *   The key is never written. A function keeps nothing from one call to the next, allocates nothing and always returns.
 *   Calls may be made from several threads and from interrupts, also in the middle of another call, as long as no
 *   buffer that one of them writes is lent to another at the same time. A page that keeper_perform is writing is in
 *   part old and in part new until the call returns.
 *
 * What the archive needs
 *
 *   An x86-64 processor with SSE2, the System V calling convention (a stack aligned to 16 bytes at the call, and the
 *   128 bytes below the stack pointer left alone by interrupts), memset, and nothing else. It has no data that is
 *   written. The bytes of stack that a call takes, measured, the return address among them:
 *
 *     keeper_open 816       keeper_perform 1056      keeper_repeat 1040
 *     keeper_view and each of its figures 880        keeper_resume 896
 *
 * For C99 and C++.
 */
#ifndef KEEPER_H
#define KEEPER_H

#include <stddef.h>
#include <stdint.h>

#ifdef __cplusplus
extern "C" {
#endif

/* The version of this header and of the archive that it belongs to: 10,000 for 1.0.0, 10,203 for 1.2.3. */
#define KEEPER_VERSION 10104

/* Where a compiler can, it warns of a result that is ignored: a refusal would go unseen. */
#if defined(__GNUC__)
#define KEEPER_RESULT __attribute__((warn_unused_result))
#else
#define KEEPER_RESULT
#endif

/* ---- Layouts. All numbers are big-endian. */

/* The page: summary 32, key 32. A fresh page has 32 zero bytes for its summary. */
#define KEEPER_PAGE_SIZE 64
#define KEEPER_SUMMARY_SIZE 32
#define KEEPER_KEY_AT 32
#define KEEPER_KEY_SIZE 32

/* The record: length 2 and version 1 (the bytes 01 C1 01), 16 racks of 24 bytes, summary 32, authenticator 32. */
#define KEEPER_RECORD_SIZE 451
#define KEEPER_RACKS_AT 3
#define KEEPER_RACKS 16
#define KEEPER_RACK_SIZE 24
#define KEEPER_SUMMARY_AT 387
#define KEEPER_AUTHENTICATOR_AT 419
#define KEEPER_AUTHENTICATOR_SIZE 32

/* A rack, from its own start: capacity 4, stored 4, taken in 8, given out 8. Charge is counted in ampere-seconds. */
#define KEEPER_CAPACITY_AT 0
#define KEEPER_STORED_AT 4
#define KEEPER_TAKEN_IN_AT 8
#define KEEPER_GIVEN_OUT_AT 16

/*
 * The request: length 2, version 1, kind 1, rack 1, other 1, amount 4. A charge of 3,600 to rack 3 is the bytes
 * 00 08 01 02 03 00 00 00 0E 10.
 */
#define KEEPER_REQUEST_SIZE 10
#define KEEPER_REQUEST_LENGTH 8
#define KEEPER_REQUEST_VERSION 1
#define KEEPER_REQUEST_VERSION_AT 2
#define KEEPER_REQUEST_KIND_AT 3
#define KEEPER_REQUEST_RACK_AT 4
#define KEEPER_REQUEST_OTHER_AT 5
#define KEEPER_REQUEST_AMOUNT_AT 6

/* ---- What a request asks: its kind. */

/* The rack's capacity becomes amount, which may be 0, or the present capacity again. Other is 0. */
#define KEEPER_CAPACITY 1
/* Stored and taken in rise by amount, which is not 0. Other is 0. */
#define KEEPER_CHARGE 2
/* Stored falls and given out rises by amount, which is not 0. Other is 0. */
#define KEEPER_DISCHARGE 3
/* The rack discharges and other, which is another rack, charges the amount, which is not 0. */
#define KEEPER_MOVE 4

/* ---- Limits. */

/* The most that a capacity or an amount can be. */
#define KEEPER_AMOUNT_MOST 100000000u
/* The most that a rack's taken in and given out can each be. */
#define KEEPER_COUNTED_MOST 1000000000000000u

/* ---- Numbers of refusal, in the order in which they are tested. */

#define KEEPER_ACCEPTED 0
/* The page is not 64 bytes. */
#define KEEPER_REFUSED_PAGE 1
/* The answer buffer is under 451 bytes. */
#define KEEPER_REFUSED_ANSWER 2
/* The record is not 451 bytes, or its length field is not 449. */
#define KEEPER_REFUSED_RECORD 3
/* The record's version is not 1. */
#define KEEPER_REFUSED_VERSION 4
/* The record's state breaks the state rule: in some rack capacity, stored, taken in and given out do not agree. */
#define KEEPER_REFUSED_STATE 5
/* The request is not well formed; in view, the rack is 16 or more. */
#define KEEPER_REFUSED_REQUEST 6
/* The authenticator is not valid: the record was changed, or was made under another key. */
#define KEEPER_REFUSED_AUTHENTICATOR 7
/* The record is not current, as each call says below. */
#define KEEPER_REFUSED_CURRENT 8
/* A charge, or a move into other, would pass the capacity; or a new capacity is under what is stored. */
#define KEEPER_REFUSED_CAPACITY 9
/* A discharge, or a move out, of more than is stored. */
#define KEEPER_REFUSED_STORED 10
/* Taken in or given out would pass its limit, in either rack of a move. */
#define KEEPER_REFUSED_LIMIT 11
/* The total does not fit four bytes. */
#define KEEPER_REFUSED_TOTAL 12
/* The page's summary is not 32 zero bytes: something has been booked on it. */
#define KEEPER_REFUSED_FRESH 13

/* ---- What keeper_resume returns. */

#define KEEPER_NEITHER 0
#define KEEPER_RAM 1
#define KEEPER_DISK 2

/* ---- The calls. */

/*
 * Gives the first record of a fresh page: all racks empty, summary zero, and its authenticator under the page's key.
 *
 * Reads the page, and writes the record to the first 451 bytes of answer. The page stays as it is, and is fresh until
 * the first perform: open gives the same record again until then.
 *
 * Returns 0, or, in this order: KEEPER_REFUSED_PAGE, KEEPER_REFUSED_ANSWER, KEEPER_REFUSED_FRESH.
 */
KEEPER_RESULT
uint32_t keeper_open(const uint8_t *page, size_t page_len, uint8_t *answer, size_t answer_len);

/*
 * Books a request on the current record, which is the valid one whose summary is the page's.
 *
 * Reads page, record and request. When accepted, writes the new record to the first 451 bytes of answer and the new
 * summary to the first 32 bytes of page; the key stays. From then on the new record is the current one, and any older
 * one gets KEEPER_REFUSED_CURRENT. The rack's new stored value stands in the record written; that of other, for a
 * move, does too. When refused, page and answer stay as they are.
 *
 * Returns 0, or, in this order: KEEPER_REFUSED_PAGE, KEEPER_REFUSED_ANSWER, KEEPER_REFUSED_RECORD,
 * KEEPER_REFUSED_VERSION, KEEPER_REFUSED_STATE, KEEPER_REFUSED_REQUEST, KEEPER_REFUSED_AUTHENTICATOR,
 * KEEPER_REFUSED_CURRENT, KEEPER_REFUSED_CAPACITY, KEEPER_REFUSED_STORED, KEEPER_REFUSED_LIMIT.
 */
KEEPER_RESULT
uint32_t keeper_perform(uint8_t *page, size_t page_len, const uint8_t *record, size_t record_len,
                        const uint8_t *request, size_t request_len, uint8_t *answer, size_t answer_len);

/*
 * Gives the answer of a perform once more, for a host that lost it: the page has moved, and the host still has the
 * record of before and the request.
 *
 * Reads page, record and request. Current means here that the record is valid and that its summary, moved on by the
 * request, is the page's: the request was the last one booked, and it was booked on this record. When accepted, writes
 * to the first 451 bytes of answer the record that perform wrote. The page stays as it is, so nothing is booked by a
 * repeat, however often it is called. The answer is what perform and view take next.
 *
 * Returns 0, or a number of perform's list, in the same order.
 */
KEEPER_RESULT
uint32_t keeper_repeat(const uint8_t *page, size_t page_len, const uint8_t *record, size_t record_len,
                       const uint8_t *request, size_t request_len, uint8_t *answer, size_t answer_len);

/*
 * Says whether a record is the current one, valid and with the page's summary, and so whether the figures below are to
 * be had. Reads page and record, and writes nothing.
 *
 * Returns 0, or, in this order: KEEPER_REFUSED_PAGE, KEEPER_REFUSED_RECORD, KEEPER_REFUSED_VERSION,
 * KEEPER_REFUSED_STATE, KEEPER_REFUSED_REQUEST (the rack is 16 or more), KEEPER_REFUSED_AUTHENTICATOR,
 * KEEPER_REFUSED_CURRENT, KEEPER_REFUSED_TOTAL. The last is in the list for the sake of its number: sixteen racks of
 * the highest capacity stay below it.
 */
KEEPER_RESULT
uint32_t keeper_view(const uint8_t *page, size_t page_len, const uint8_t *record, size_t record_len, uint32_t rack);

/*
 * The four figures of view. Each makes view's tests anew, reads what view reads, writes nothing, and returns the
 * figure, or 0 where keeper_view refuses. A figure may itself be 0: call keeper_view to tell the two apart.
 *
 * keeper_view_stored returns what is stored in the rack, and keeper_view_capacity its capacity.
 */
KEEPER_RESULT
uint32_t keeper_view_stored(const uint8_t *page, size_t page_len, const uint8_t *record, size_t record_len,
                            uint32_t rack);
KEEPER_RESULT
uint32_t keeper_view_capacity(const uint8_t *page, size_t page_len, const uint8_t *record, size_t record_len,
                              uint32_t rack);

/* Returns 100 times stored divided by capacity, rounded down; 0 for a rack of capacity 0. */
KEEPER_RESULT
uint32_t keeper_view_percent(const uint8_t *page, size_t page_len, const uint8_t *record, size_t record_len,
                             uint32_t rack);

/* Returns the sum of what is stored in all racks. The rack is tested as in view, and does not change the sum. */
KEEPER_RESULT
uint32_t keeper_view_total(const uint8_t *page, size_t page_len, const uint8_t *record, size_t record_len,
                           uint32_t rack);

/*
 * Says after a restart which of two records is the current one: well formed, valid and with the page's summary. Reads
 * the page and the records, either of which may be any bytes, and writes nothing.
 *
 * Returns KEEPER_RAM if the first is current, whatever the second is; KEEPER_DISK if the second alone is;
 * KEEPER_NEITHER if neither is, and also for a page that is not 64 bytes. It has no refusal. After KEEPER_NEITHER
 * comes keeper_repeat.
 */
KEEPER_RESULT
uint32_t keeper_resume(const uint8_t *page, size_t page_len, const uint8_t *ram, size_t ram_len, const uint8_t *disk,
                       size_t disk_len);

#ifdef __cplusplus
}
#endif

#endif
