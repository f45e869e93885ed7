/*
 * Holds every constant and sentence of host/keeper.h that a call can answer to the library's answers. One source for
 * C99 and C++. It makes its own page and so knows the key; it signs records itself, with mbedTLS, where a state is
 * wanted that the calls would take long to reach or would never answer. NEWEST_VERSION is that of CHANGES.md.
 */
#include <stdio.h>
#include <stdlib.h>
#include <string.h>

#include <mbedtls/md.h>
#include <mbedtls/sha256.h>
#include <mbedtls/version.h>

#include "keeper.h"

#if MBEDTLS_VERSION_MAJOR < 3
#define mbedtls_sha256 mbedtls_sha256_ret
#endif

/* Larger than any form, so that a constant that is wrong by a little reads no foreign byte here. */
#define ROOM 512
#define COLOUR 0x77

static unsigned passed;

static void holds(int it_does, const char *sentence)
{
    if (!it_does) {
        printf("header_test: FAILED: %s\n", sentence);
        exit(1);
    }
    passed++;
}

static void gives(uint32_t number, uint32_t expected, const char *sentence)
{
    if (number != expected) {
        printf("header_test: FAILED: %s: %lu where %lu is expected\n", sentence, (unsigned long)number,
               (unsigned long)expected);
        exit(1);
    }
    passed++;
}

/* ---- The buffers that are lent, and what is put in them. */

static uint8_t page[ROOM], record[ROOM], request[ROOM], answer[ROOM];

static void make_page(void)
{
    memset(page, 0, ROOM);
    for (int i = 0; i < KEEPER_KEY_SIZE; i++)
        page[KEEPER_KEY_AT + i] = (uint8_t)(0xC0 + i);
}

static void put(uint8_t *at, int width, uint64_t n)
{
    while (width-- > 0) {
        at[width] = (uint8_t)n;
        n >>= 8;
    }
}

static uint64_t get(const uint8_t *at, int width)
{
    uint64_t n = 0;
    for (int i = 0; i < width; i++)
        n = n << 8 | at[i];
    return n;
}

static void ask(int kind, int rack, int other, uint32_t amount)
{
    put(request, 2, KEEPER_REQUEST_LENGTH);
    request[KEEPER_REQUEST_VERSION_AT] = KEEPER_REQUEST_VERSION;
    request[KEEPER_REQUEST_KIND_AT] = (uint8_t)kind;
    request[KEEPER_REQUEST_RACK_AT] = (uint8_t)rack;
    request[KEEPER_REQUEST_OTHER_AT] = (uint8_t)other;
    put(request + KEEPER_REQUEST_AMOUNT_AT, 4, amount);
}

static uint8_t *rack_of(uint8_t *some_record, int rack)
{
    return some_record + KEEPER_RACKS_AT + rack * KEEPER_RACK_SIZE;
}

static void put_rack(int rack, uint32_t capacity, uint32_t stored, uint64_t taken_in, uint64_t given_out)
{
    put(rack_of(record, rack) + KEEPER_CAPACITY_AT, 4, capacity);
    put(rack_of(record, rack) + KEEPER_STORED_AT, 4, stored);
    put(rack_of(record, rack) + KEEPER_TAKEN_IN_AT, 8, taken_in);
    put(rack_of(record, rack) + KEEPER_GIVEN_OUT_AT, 8, given_out);
}

/* The record's authenticator, worked out from its state and summary under the page's key. */
static void sign(uint8_t *some_record)
{
    uint8_t state[1 + ROOM], binding[1 + ROOM], hash[32];
    size_t state_size = KEEPER_RACKS * KEEPER_RACK_SIZE;
    state[0] = 1;
    memcpy(state + 1, some_record + KEEPER_RACKS_AT, state_size);
    binding[0] = 3;
    memcpy(binding + 1, some_record + KEEPER_SUMMARY_AT, KEEPER_SUMMARY_SIZE);
    mbedtls_sha256(state, 1 + state_size, binding + 1 + KEEPER_SUMMARY_SIZE, 0);
    mbedtls_sha256(binding, 1 + KEEPER_SUMMARY_SIZE + 32, hash, 0);
    mbedtls_md_hmac(mbedtls_md_info_from_type(MBEDTLS_MD_SHA256), page + KEEPER_KEY_AT, KEEPER_KEY_SIZE, hash, 32,
                    some_record + KEEPER_AUTHENTICATOR_AT);
}

/* ---- The calls on those buffers at their right sizes. A refusal has to leave page and answer as they were. */

static uint8_t page_before[ROOM], answer_before[ROOM];

static void remember(void)
{
    memcpy(page_before, page, ROOM);
    memset(answer, COLOUR, ROOM);
    memcpy(answer_before, answer, ROOM);
}

static int page_stayed(void)
{
    return memcmp(page_before, page, ROOM) == 0;
}

static int all_stayed(void)
{
    return page_stayed() && memcmp(answer_before, answer, ROOM) == 0;
}

static uint32_t open_it(size_t page_len, size_t answer_len)
{
    remember();
    return keeper_open(page, page_len, answer, answer_len);
}

static uint32_t perform_sized(size_t page_len, size_t record_len, size_t request_len, size_t answer_len)
{
    remember();
    return keeper_perform(page, page_len, record, record_len, request, request_len, answer, answer_len);
}

static uint32_t repeat_sized(size_t page_len, size_t record_len, size_t request_len, size_t answer_len)
{
    remember();
    return keeper_repeat(page, page_len, record, record_len, request, request_len, answer, answer_len);
}

static uint32_t perform(void)
{
    return perform_sized(KEEPER_PAGE_SIZE, KEEPER_RECORD_SIZE, KEEPER_REQUEST_SIZE, KEEPER_RECORD_SIZE);
}

static uint32_t repeat(void)
{
    return repeat_sized(KEEPER_PAGE_SIZE, KEEPER_RECORD_SIZE, KEEPER_REQUEST_SIZE, KEEPER_RECORD_SIZE);
}

static uint32_t view(uint32_t rack)
{
    return keeper_view(page, KEEPER_PAGE_SIZE, record, KEEPER_RECORD_SIZE, rack);
}

static void refused(uint32_t number, uint32_t expected, const char *sentence)
{
    gives(number, expected, sentence);
    holds(all_stayed(), "a refusal writes to no buffer");
}

/* Both calls that take a request refuse alike, up to what is current for each. */
static void both_refuse(uint32_t expected, const char *sentence)
{
    refused(perform(), expected, sentence);
    refused(repeat(), expected, sentence);
}

/* The first record on a fresh page. */
static void begin(void)
{
    make_page();
    gives(open_it(KEEPER_PAGE_SIZE, KEEPER_RECORD_SIZE), KEEPER_ACCEPTED, "open takes a fresh page");
    memcpy(record, answer, ROOM);
}

/* Books what was asked, and the answer becomes the record. */
static void book(int kind, int rack, int other, uint32_t amount, const char *sentence)
{
    ask(kind, rack, other, amount);
    gives(perform(), KEEPER_ACCEPTED, sentence);
    memcpy(record, answer, ROOM);
}

static void rack_is(int rack, uint32_t capacity, uint32_t stored, uint64_t taken_in, uint64_t given_out,
                    const char *sentence)
{
    uint8_t *at = rack_of(record, rack);
    holds(get(at + KEEPER_CAPACITY_AT, 4) == capacity && get(at + KEEPER_STORED_AT, 4) == stored &&
              get(at + KEEPER_TAKEN_IN_AT, 8) == taken_in && get(at + KEEPER_GIVEN_OUT_AT, 8) == given_out,
          sentence);
}

/* ---- The tests. */

static void test_open(void)
{
    uint8_t other[ROOM];
    int i;

    make_page();
    refused(open_it(KEEPER_PAGE_SIZE - 1, ROOM), KEEPER_REFUSED_PAGE, "open refuses a page one byte short");
    refused(open_it(KEEPER_PAGE_SIZE + 1, ROOM), KEEPER_REFUSED_PAGE, "open refuses a page one byte long");
    refused(open_it(KEEPER_PAGE_SIZE, KEEPER_RECORD_SIZE - 1), KEEPER_REFUSED_ANSWER, "open refuses a short answer");
    gives(open_it(KEEPER_PAGE_SIZE, KEEPER_RECORD_SIZE), KEEPER_ACCEPTED, "open takes an answer of a record's size");
    holds(page_stayed(), "open leaves the page");
    memset(other, (uint8_t)~COLOUR, ROOM);
    gives(keeper_open(page, KEEPER_PAGE_SIZE, other, ROOM), KEEPER_ACCEPTED, "open takes a longer answer");
    holds(memcmp(other, answer, KEEPER_RECORD_SIZE) == 0, "open writes every byte of the record");
    holds(other[KEEPER_RECORD_SIZE] == (uint8_t)~COLOUR, "open writes no byte behind the record");
    holds(answer[0] == 0x01 && answer[1] == 0xC1 && answer[2] == 0x01, "a record begins with 01 C1 01");
    holds(get(answer, 2) == KEEPER_RECORD_SIZE - 2, "a record's length counts the bytes after it");
    for (i = KEEPER_RACKS_AT; i < KEEPER_SUMMARY_AT + KEEPER_SUMMARY_SIZE; i++)
        holds(answer[i] == 0, "the first record's racks and summary are zero");
    memcpy(other, answer, ROOM);
    sign(other);
    holds(memcmp(other, answer, ROOM) == 0, "open's authenticator is the one under the page's key");
    for (i = 0; i < KEEPER_SUMMARY_SIZE; i++) {
        page[i] = 1;
        refused(open_it(KEEPER_PAGE_SIZE, ROOM), KEEPER_REFUSED_FRESH, "open refuses a page with a summary");
        page[i] = 0;
    }
}

static void test_layout(void)
{
    int i;

    begin();
    holds(KEEPER_KEY_AT == KEEPER_SUMMARY_SIZE && KEEPER_KEY_AT + KEEPER_KEY_SIZE == KEEPER_PAGE_SIZE,
          "a page is its summary and its key");
    holds(KEEPER_RACKS_AT + KEEPER_RACKS * KEEPER_RACK_SIZE == KEEPER_SUMMARY_AT, "the summary follows the racks");
    holds(KEEPER_AUTHENTICATOR_AT == KEEPER_SUMMARY_AT + KEEPER_SUMMARY_SIZE &&
              KEEPER_AUTHENTICATOR_AT + KEEPER_AUTHENTICATOR_SIZE == KEEPER_RECORD_SIZE,
          "the authenticator follows the summary and ends the record");
    for (i = 0; i < KEEPER_RACKS; i++)
        book(KEEPER_CAPACITY, i, 0, (uint32_t)(1000 + i), "a capacity is booked on every rack");
    for (i = 0; i < KEEPER_RACKS; i++)
        rack_is(i, (uint32_t)(1000 + i), 0, 0, 0, "a capacity stands in its rack");
    holds(memcmp(page, record + KEEPER_SUMMARY_AT, KEEPER_SUMMARY_SIZE) == 0, "perform puts the summary in the page");
    holds(memcmp(page, page_before, KEEPER_SUMMARY_SIZE) != 0, "perform moves the page");
    holds(memcmp(page + KEEPER_KEY_AT, page_before + KEEPER_KEY_AT, KEEPER_KEY_SIZE) == 0, "perform leaves the key");
    memcpy(answer, record, ROOM);
    sign(answer);
    holds(memcmp(record, answer, ROOM) == 0, "perform's authenticator is the one under the page's key");
}

static void test_kinds(void)
{
    begin();
    book(KEEPER_CAPACITY, 5, 0, 72000, "kind 1 is taken");
    rack_is(5, 72000, 0, 0, 0, "kind 1 sets the capacity");
    book(KEEPER_CHARGE, 5, 0, 700, "kind 2 is taken");
    rack_is(5, 72000, 700, 700, 0, "kind 2 charges");
    book(KEEPER_DISCHARGE, 5, 0, 300, "kind 3 is taken");
    rack_is(5, 72000, 400, 700, 300, "kind 3 discharges");
    book(KEEPER_CAPACITY, 6, 0, 1000, "kind 1 is taken");
    book(KEEPER_MOVE, 5, 6, 100, "kind 4 is taken");
    rack_is(5, 72000, 300, 700, 400, "kind 4 discharges the rack");
    rack_is(6, 1000, 100, 100, 0, "kind 4 charges the other");
    book(KEEPER_CAPACITY, 7, 0, 0, "a capacity of 0 is taken");
    ask(KEEPER_CAPACITY - 1, 5, 0, 1);
    both_refuse(KEEPER_REFUSED_REQUEST, "a kind below the first is refused");
    ask(KEEPER_MOVE + 1, 5, 6, 1);
    both_refuse(KEEPER_REFUSED_REQUEST, "a kind above the last is refused");
}

static void test_sizes(void)
{
    const size_t p = KEEPER_PAGE_SIZE, r = KEEPER_RECORD_SIZE, q = KEEPER_REQUEST_SIZE;

    begin();
    ask(KEEPER_CAPACITY, 0, 0, 1);
    refused(perform_sized(p - 1, r, q, r), KEEPER_REFUSED_PAGE, "perform refuses a page one byte short");
    refused(perform_sized(p + 1, r, q, r), KEEPER_REFUSED_PAGE, "perform refuses a page one byte long");
    refused(perform_sized(p, r, q, r - 1), KEEPER_REFUSED_ANSWER, "perform refuses a short answer");
    refused(perform_sized(p, r - 1, q, r), KEEPER_REFUSED_RECORD, "perform refuses a record one byte short");
    refused(perform_sized(p, r + 1, q, r), KEEPER_REFUSED_RECORD, "perform refuses a record one byte long");
    refused(perform_sized(p, r, q - 1, r), KEEPER_REFUSED_REQUEST, "perform refuses a request one byte short");
    refused(perform_sized(p, r, q + 1, r), KEEPER_REFUSED_REQUEST, "perform refuses a request one byte long");
    refused(repeat_sized(p - 1, r, q, r), KEEPER_REFUSED_PAGE, "repeat refuses a page one byte short");
    refused(repeat_sized(p + 1, r, q, r), KEEPER_REFUSED_PAGE, "repeat refuses a page one byte long");
    refused(repeat_sized(p, r, q, r - 1), KEEPER_REFUSED_ANSWER, "repeat refuses a short answer");
    refused(repeat_sized(p, r - 1, q, r), KEEPER_REFUSED_RECORD, "repeat refuses a record one byte short");
    refused(repeat_sized(p, r + 1, q, r), KEEPER_REFUSED_RECORD, "repeat refuses a record one byte long");
    refused(repeat_sized(p, r, q - 1, r), KEEPER_REFUSED_REQUEST, "repeat refuses a request one byte short");
    refused(repeat_sized(p, r, q + 1, r), KEEPER_REFUSED_REQUEST, "repeat refuses a request one byte long");
    gives(keeper_view(page, p - 1, record, r, 0), KEEPER_REFUSED_PAGE, "view refuses a page one byte short");
    gives(keeper_view(page, p + 1, record, r, 0), KEEPER_REFUSED_PAGE, "view refuses a page one byte long");
    gives(keeper_view(page, p, record, r - 1, 0), KEEPER_REFUSED_RECORD, "view refuses a record one byte short");
    gives(keeper_view(page, p, record, r + 1, 0), KEEPER_REFUSED_RECORD, "view refuses a record one byte long");
    gives(perform_sized(p, r, q, ROOM), KEEPER_ACCEPTED, "perform takes a longer answer");
    holds(answer[r] == COLOUR, "perform writes no byte behind the record");
    gives(repeat_sized(p, r, q, ROOM), KEEPER_ACCEPTED, "repeat takes a longer answer");
    holds(answer[r] == COLOUR, "repeat writes no byte behind the record");
}

/* Each byte of the record's header and of the request's, one off. */
static void test_fields(void)
{
    begin();
    ask(KEEPER_CAPACITY, 0, 0, 1);
    record[1]++;
    both_refuse(KEEPER_REFUSED_RECORD, "a record's other length is refused");
    gives(view(0), KEEPER_REFUSED_RECORD, "a record's other length is refused by view");
    record[1]--;
    record[2]++;
    both_refuse(KEEPER_REFUSED_VERSION, "a record's other version is refused");
    gives(view(0), KEEPER_REFUSED_VERSION, "a record's other version is refused by view");
    record[2]--;
    put(request, 2, KEEPER_REQUEST_LENGTH + 1);
    both_refuse(KEEPER_REFUSED_REQUEST, "a request's other length is refused");
    ask(KEEPER_CAPACITY, 0, 0, 1);
    request[KEEPER_REQUEST_VERSION_AT] = KEEPER_REQUEST_VERSION + 1;
    both_refuse(KEEPER_REFUSED_REQUEST, "a request's other version is refused");
    ask(KEEPER_CAPACITY, KEEPER_RACKS, 0, 1);
    both_refuse(KEEPER_REFUSED_REQUEST, "a rack that is not there is refused");
    ask(KEEPER_MOVE, 0, KEEPER_RACKS, 1);
    both_refuse(KEEPER_REFUSED_REQUEST, "another rack that is not there is refused");
    ask(KEEPER_MOVE, 5, 5, 1);
    both_refuse(KEEPER_REFUSED_REQUEST, "a move to the same rack is refused");
    ask(KEEPER_CHARGE, 0, 0, 0);
    both_refuse(KEEPER_REFUSED_REQUEST, "a charge of 0 is refused");
    ask(KEEPER_CHARGE, 0, 1, 1);
    both_refuse(KEEPER_REFUSED_REQUEST, "a charge with another rack is refused");
    ask(KEEPER_CAPACITY, KEEPER_RACKS - 1, 0, KEEPER_AMOUNT_MOST + 1);
    both_refuse(KEEPER_REFUSED_REQUEST, "an amount above the limit is refused");
    ask(KEEPER_CAPACITY, KEEPER_RACKS - 1, 0, KEEPER_AMOUNT_MOST);
    gives(perform(), KEEPER_ACCEPTED, "an amount at the limit is taken, on the last rack");
}

static void test_state_rule(void)
{
    begin();
    ask(KEEPER_CAPACITY, 0, 0, 1);
    put_rack(3, KEEPER_AMOUNT_MOST, 0, 0, 0);
    sign(record);
    gives(view(0), KEEPER_ACCEPTED, "a capacity at the limit keeps the state rule");
    put_rack(3, KEEPER_AMOUNT_MOST + 1, 0, 0, 0);
    sign(record);
    both_refuse(KEEPER_REFUSED_STATE, "a capacity above the limit breaks the state rule");
    gives(view(0), KEEPER_REFUSED_STATE, "view tests the state rule");
    put_rack(3, 10, 0, KEEPER_COUNTED_MOST, KEEPER_COUNTED_MOST);
    sign(record);
    gives(view(0), KEEPER_ACCEPTED, "taken in at its limit keeps the state rule");
    put_rack(3, 10, 0, KEEPER_COUNTED_MOST + 1, KEEPER_COUNTED_MOST + 1);
    sign(record);
    both_refuse(KEEPER_REFUSED_STATE, "taken in above its limit breaks the state rule");
    put_rack(3, 10, 11, 11, 0);
    sign(record);
    both_refuse(KEEPER_REFUSED_STATE, "stored above capacity breaks the state rule");
    put_rack(3, 10, 5, 6, 0);
    sign(record);
    both_refuse(KEEPER_REFUSED_STATE, "stored other than taken in less given out breaks the state rule");
}

static void test_trust(void)
{
    uint8_t before[ROOM];

    begin();
    ask(KEEPER_CAPACITY, 0, 0, 1);
    record[KEEPER_RECORD_SIZE - 1] ^= 1;
    both_refuse(KEEPER_REFUSED_AUTHENTICATOR, "a changed authenticator is refused");
    gives(view(0), KEEPER_REFUSED_AUTHENTICATOR, "view refuses a changed authenticator");
    record[KEEPER_RECORD_SIZE - 1] ^= 1;
    put_rack(0, 5, 0, 0, 0);
    both_refuse(KEEPER_REFUSED_AUTHENTICATOR, "a changed state is refused");
    put_rack(0, 0, 0, 0, 0);

    memcpy(before, record, ROOM);
    refused(repeat(), KEEPER_REFUSED_CURRENT, "repeat refuses a request that was not booked");
    gives(perform(), KEEPER_ACCEPTED, "perform books it");
    refused(perform(), KEEPER_REFUSED_CURRENT, "perform refuses the record of before");
    gives(view(0), KEEPER_REFUSED_CURRENT, "view refuses the record of before");
    gives(perform_sized(KEEPER_PAGE_SIZE, KEEPER_RECORD_SIZE, KEEPER_REQUEST_SIZE, ROOM), KEEPER_REFUSED_CURRENT,
          "perform refuses it again");
    gives(repeat(), KEEPER_ACCEPTED, "repeat takes the record of before and its request");
    holds(page_stayed(), "repeat leaves the page");
    memcpy(record, answer, ROOM);
    gives(view(0), KEEPER_ACCEPTED, "repeat's answer is current");
    refused(repeat(), KEEPER_REFUSED_CURRENT, "repeat refuses a record whose own summary is the page's");
    memcpy(record, before, ROOM);
    ask(KEEPER_CAPACITY, 0, 0, 2);
    refused(repeat(), KEEPER_REFUSED_CURRENT, "repeat refuses another request than the one booked");
}

/* Refusals 9, 10 and 11 are perform's first, and repeat's on a page moved on by a request that would be refused. */
static void test_charge_rules(void)
{
    begin();
    put_rack(0, 72000, 70000, 70000, 0);
    put_rack(1, 10, 0, KEEPER_COUNTED_MOST - 1, KEEPER_COUNTED_MOST - 1);
    put_rack(2, 100, 90, 90, 0);
    sign(record);
    ask(KEEPER_CHARGE, 0, 0, 2001);
    refused(perform(), KEEPER_REFUSED_CAPACITY, "a charge past the capacity is refused");
    ask(KEEPER_CAPACITY, 0, 0, 69999);
    refused(perform(), KEEPER_REFUSED_CAPACITY, "a capacity under what is stored is refused");
    ask(KEEPER_MOVE, 0, 2, 70001);
    refused(perform(), KEEPER_REFUSED_CAPACITY, "a move that breaks both is refused for the capacity");
    ask(KEEPER_DISCHARGE, 0, 0, 70001);
    refused(perform(), KEEPER_REFUSED_STORED, "a discharge of more than is stored is refused");
    ask(KEEPER_MOVE, 2, 0, 91);
    refused(perform(), KEEPER_REFUSED_STORED, "a move of more than is stored is refused");
    ask(KEEPER_CHARGE, 1, 0, 2);
    refused(perform(), KEEPER_REFUSED_LIMIT, "a charge past the limit of taken in is refused");
    ask(KEEPER_MOVE, 0, 1, 2);
    refused(perform(), KEEPER_REFUSED_LIMIT, "a move past the limit of taken in is refused");
    ask(KEEPER_CHARGE, 1, 0, 1);
    gives(perform(), KEEPER_ACCEPTED, "a charge up to the limit of taken in is taken");
}

/* Repeat reaches the charge rules only on a page that no perform has left, so the test moves the page by hand. */
static void test_repeats_rules(void)
{
    uint8_t message[1 + ROOM];

    begin();
    ask(KEEPER_DISCHARGE, 0, 0, 1);
    message[0] = 2;
    memcpy(message + 1, record + KEEPER_SUMMARY_AT, KEEPER_SUMMARY_SIZE);
    memcpy(message + 1 + KEEPER_SUMMARY_SIZE, request, KEEPER_REQUEST_SIZE);
    mbedtls_sha256(message, 1 + KEEPER_SUMMARY_SIZE + KEEPER_REQUEST_SIZE, page, 0);
    refused(repeat(), KEEPER_REFUSED_STORED, "repeat tests the charge rules");
}

static void test_view(void)
{
    begin();
    book(KEEPER_CAPACITY, 3, 0, 72000, "a capacity is booked");
    book(KEEPER_CHARGE, 3, 0, 70000, "a charge is booked");
    book(KEEPER_CAPACITY, KEEPER_RACKS - 1, 0, KEEPER_AMOUNT_MOST, "a capacity is booked on the last rack");
    book(KEEPER_CHARGE, KEEPER_RACKS - 1, 0, KEEPER_AMOUNT_MOST, "a charge is booked on the last rack");
    gives(view(KEEPER_RACKS - 1), KEEPER_ACCEPTED, "view takes the last rack");
    gives(view(KEEPER_RACKS), KEEPER_REFUSED_REQUEST, "view refuses a rack behind the last");
    gives(view(UINT32_MAX), KEEPER_REFUSED_REQUEST, "view refuses the highest number for a rack");
    gives(keeper_view_stored(page, KEEPER_PAGE_SIZE, record, KEEPER_RECORD_SIZE, 3), 70000, "view gives stored");
    gives(keeper_view_capacity(page, KEEPER_PAGE_SIZE, record, KEEPER_RECORD_SIZE, 3), 72000, "view gives capacity");
    gives(keeper_view_percent(page, KEEPER_PAGE_SIZE, record, KEEPER_RECORD_SIZE, 3), 97, "view rounds percent down");
    gives(keeper_view_percent(page, KEEPER_PAGE_SIZE, record, KEEPER_RECORD_SIZE, KEEPER_RACKS - 1), 100,
          "view gives the percent of a full rack");
    gives(keeper_view_percent(page, KEEPER_PAGE_SIZE, record, KEEPER_RECORD_SIZE, 0), 0,
          "view gives 0 percent for capacity 0");
    gives(keeper_view_total(page, KEEPER_PAGE_SIZE, record, KEEPER_RECORD_SIZE, 0), 70000 + KEEPER_AMOUNT_MOST,
          "view gives the total over all racks");
    gives(keeper_view_total(page, KEEPER_PAGE_SIZE, record, KEEPER_RECORD_SIZE, KEEPER_RACKS), 0,
          "the total is 0 for a rack that is refused");
    page[0] ^= 1;
    gives(keeper_view_stored(page, KEEPER_PAGE_SIZE, record, KEEPER_RECORD_SIZE, 3), 0, "stored is 0 on a refusal");
    gives(keeper_view_capacity(page, KEEPER_PAGE_SIZE, record, KEEPER_RECORD_SIZE, 3), 0, "capacity is 0 on a refusal");
    gives(keeper_view_percent(page, KEEPER_PAGE_SIZE, record, KEEPER_RECORD_SIZE, 3), 0, "percent is 0 on a refusal");
    gives(keeper_view_total(page, KEEPER_PAGE_SIZE, record, KEEPER_RECORD_SIZE, 3), 0, "the total is 0 on a refusal");
}

static uint32_t resume(const uint8_t *ram, const uint8_t *disk)
{
    return keeper_resume(page, KEEPER_PAGE_SIZE, ram, KEEPER_RECORD_SIZE, disk, KEEPER_RECORD_SIZE);
}

static void test_resume(void)
{
    uint8_t old[ROOM], copy[ROOM], torn[ROOM];

    begin();
    memcpy(old, record, ROOM);
    book(KEEPER_CAPACITY, 3, 0, 72000, "a capacity is booked");
    memcpy(copy, record, ROOM);
    memcpy(torn, record, ROOM);
    torn[KEEPER_RECORD_SIZE - 1] ^= 1;
    gives(resume(record, copy), KEEPER_RAM, "resume prefers RAM where both are current");
    gives(resume(record, old), KEEPER_RAM, "resume finds the record in RAM");
    gives(resume(old, record), KEEPER_DISK, "resume finds the record on disk");
    gives(resume(torn, record), KEEPER_DISK, "resume passes over a changed record");
    gives(resume(old, torn), KEEPER_NEITHER, "resume takes neither an old nor a changed record");
    gives(keeper_resume(page, KEEPER_PAGE_SIZE - 1, record, KEEPER_RECORD_SIZE, copy, KEEPER_RECORD_SIZE),
          KEEPER_NEITHER, "resume takes no page one byte short");
    gives(keeper_resume(page, KEEPER_PAGE_SIZE, record, KEEPER_RECORD_SIZE - 1, copy, KEEPER_RECORD_SIZE + 1),
          KEEPER_NEITHER, "resume takes no record of another size");
}

/* A buffer of 0 bytes may have the pointer NULL: each buffer of each call in turn. */
static void test_null(void)
{
    const size_t p = KEEPER_PAGE_SIZE, r = KEEPER_RECORD_SIZE, q = KEEPER_REQUEST_SIZE;

    begin();
    ask(KEEPER_CAPACITY, 0, 0, 1);
    remember();
    refused(keeper_open(NULL, 0, answer, r), KEEPER_REFUSED_PAGE, "open without a page");
    refused(keeper_open(page, p, NULL, 0), KEEPER_REFUSED_ANSWER, "open without an answer");
    refused(keeper_perform(NULL, 0, record, r, request, q, answer, r), KEEPER_REFUSED_PAGE, "perform without a page");
    refused(keeper_perform(page, p, record, r, request, q, NULL, 0), KEEPER_REFUSED_ANSWER, "perform without answer");
    refused(keeper_perform(page, p, NULL, 0, request, q, answer, r), KEEPER_REFUSED_RECORD, "perform without a record");
    refused(keeper_perform(page, p, record, r, NULL, 0, answer, r), KEEPER_REFUSED_REQUEST, "perform without request");
    refused(keeper_repeat(NULL, 0, record, r, request, q, answer, r), KEEPER_REFUSED_PAGE, "repeat without a page");
    refused(keeper_repeat(page, p, record, r, request, q, NULL, 0), KEEPER_REFUSED_ANSWER, "repeat without an answer");
    refused(keeper_repeat(page, p, NULL, 0, request, q, answer, r), KEEPER_REFUSED_RECORD, "repeat without a record");
    refused(keeper_repeat(page, p, record, r, NULL, 0, answer, r), KEEPER_REFUSED_REQUEST, "repeat without a request");
    gives(keeper_view(NULL, 0, record, r, 0), KEEPER_REFUSED_PAGE, "view without a page");
    gives(keeper_view(page, p, NULL, 0, 0), KEEPER_REFUSED_RECORD, "view without a record");
    gives(keeper_view_stored(NULL, 0, record, r, 0), 0, "stored without a page");
    gives(keeper_view_stored(page, p, NULL, 0, 0), 0, "stored without a record");
    gives(keeper_view_capacity(NULL, 0, record, r, 0), 0, "capacity without a page");
    gives(keeper_view_capacity(page, p, NULL, 0, 0), 0, "capacity without a record");
    gives(keeper_view_percent(NULL, 0, record, r, 0), 0, "percent without a page");
    gives(keeper_view_percent(page, p, NULL, 0, 0), 0, "percent without a record");
    gives(keeper_view_total(NULL, 0, record, r, 0), 0, "total without a page");
    gives(keeper_view_total(page, p, NULL, 0, 0), 0, "total without a record");
    gives(keeper_resume(NULL, 0, record, r, answer, r), KEEPER_NEITHER, "resume without a page");
    gives(keeper_resume(page, p, NULL, 0, record, r), KEEPER_DISK, "resume without a record in RAM");
    gives(keeper_resume(page, p, record, r, NULL, 0), KEEPER_RAM, "resume without a record on disk");
    gives(keeper_resume(page, p, NULL, 0, NULL, 0), KEEPER_NEITHER, "resume without any record");
}

/* Buffers that are only read may overlap: a request that lies in the page's key, a page in a record, a record twice. */
static void test_overlap(void)
{
    uint8_t performed[ROOM];
    const size_t p = KEEPER_PAGE_SIZE, r = KEEPER_RECORD_SIZE, q = KEEPER_REQUEST_SIZE;

    make_page();
    ask(KEEPER_CAPACITY, 0, 0, 7);
    memcpy(page + KEEPER_KEY_AT, request, q);
    gives(open_it(p, r), KEEPER_ACCEPTED, "open takes a key of any bytes");
    memcpy(record, answer, ROOM);
    gives(perform(), KEEPER_ACCEPTED, "a capacity is booked");
    memcpy(performed, answer, ROOM);
    remember();
    gives(keeper_repeat(page, p, record, r, page + KEEPER_KEY_AT, q, answer, r), KEEPER_ACCEPTED,
          "repeat takes a request that lies in the page");
    holds(memcmp(answer, performed, ROOM) == 0, "and answers as with another");
    gives(resume(performed, performed), KEEPER_RAM, "resume takes one record for both");
    gives(keeper_view(performed + KEEPER_SUMMARY_AT, p, performed, r, 0), KEEPER_REFUSED_AUTHENTICATOR,
          "view takes a page that lies in the record, and refuses the record under that key");
}

/* No alignment is asked for: the accepted calls again, with every buffer at an odd address and at others. */
static void test_alignment(void)
{
    static uint8_t pages[ROOM + 8], records[ROOM + 8], requests[ROOM + 8], answers[ROOM + 8];
    const size_t p = KEEPER_PAGE_SIZE, r = KEEPER_RECORD_SIZE, q = KEEPER_REQUEST_SIZE;

    begin();
    ask(KEEPER_CAPACITY, 0, 0, 7);
    memcpy(page_before, page, ROOM);
    gives(perform(), KEEPER_ACCEPTED, "a capacity is booked");
    for (int i = 1; i < 8; i++) {
        memcpy(pages + i, page_before, p);
        memcpy(records + i, record, r);
        memcpy(requests + i, request, q);
        gives(keeper_perform(pages + i, p, records + i, r, requests + i, q, answers + i, r), KEEPER_ACCEPTED,
              "perform takes buffers at any address");
        holds(memcmp(answers + i, answer, r) == 0 && memcmp(pages + i, page, p) == 0, "and answers the same");
        gives(keeper_resume(pages + i, p, records + i, r, answers + i, r), KEEPER_DISK, "so does resume");
    }
}

/* No call can be brought to refusal 12, so its number is held to be the one that the others leave. */
static void test_numbers(void)
{
    static const uint32_t produced[] = {
        KEEPER_REFUSED_PAGE,    KEEPER_REFUSED_ANSWER,        KEEPER_REFUSED_RECORD,  KEEPER_REFUSED_VERSION,
        KEEPER_REFUSED_STATE,   KEEPER_REFUSED_REQUEST,       KEEPER_REFUSED_CURRENT, KEEPER_REFUSED_CAPACITY,
        KEEPER_REFUSED_STORED,  KEEPER_REFUSED_AUTHENTICATOR, KEEPER_REFUSED_LIMIT,   KEEPER_REFUSED_FRESH,
    };
    uint32_t left = 0;

    for (uint32_t i = 1; i <= 13; i++)
        left += i;
    for (size_t i = 0; i < sizeof produced / sizeof *produced; i++)
        left -= produced[i];
    gives(KEEPER_REFUSED_TOTAL, left, "refusal 12 has the number that the others leave");
    gives(KEEPER_VERSION, NEWEST_VERSION, "the header has the newest version of CHANGES.md");
}

int main(void)
{
    test_open();
    test_layout();
    test_kinds();
    test_sizes();
    test_fields();
    test_state_rule();
    test_trust();
    test_charge_rules();
    test_repeats_rules();
    test_view();
    test_resume();
    test_null();
    test_overlap();
    test_alignment();
    test_numbers();
    printf("%u checks passed\n", passed);
    return 0;
}
