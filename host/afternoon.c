/*
 * The afternoon that the keeper was made for: a copy of the charge book that is exactly 65,536 updates old is handed
 * back to the controller, a power cut takes an answer away, and records come that the controller never answered. Every
 * answer of the keeper's is shown, and held to what it should be: the program ends with status 1 at the first that is
 * another.
 */
#include <stdio.h>
#include <stdlib.h>
#include <string.h>

#include "keeper.h"
#include "request.h"
#include "show.h"

enum { RACKS_HERE = 4, ROUND = 65536, DOT = 4096, CUT_AMOUNT = 5000, FORGED_AMOUNT = 60000 };

/* The controller's page, and what the site computer has: the current record, and a copy that somebody kept. */
static uint8_t page[KEEPER_PAGE_SIZE];
static uint8_t book[KEEPER_RECORD_SIZE], kept[KEEPER_RECORD_SIZE];
static uint8_t answer[KEEPER_RECORD_SIZE], nothing[KEEPER_RECORD_SIZE];

/* A second controller, with another key, and its record. It books the same, and its power is never cut. */
static uint8_t second_page[KEEPER_PAGE_SIZE], second_book[KEEPER_RECORD_SIZE];

/* What was booked: how many updates, and what the racks together hold by them. */
static unsigned long updates;
static uint32_t balance;

static void wrong(const char *sentence)
{
    printf("That is wrong: %s.\n", sentence);
    exit(1);
}

static void shown(const char *call, uint32_t number, uint32_t expected, const char *words)
{
    printf("    %-60s %2u  %s\n", call, (unsigned)number, words);
    if (number != expected)
        wrong("another number was expected");
}

static void answered(const char *call, uint32_t number, uint32_t expected)
{
    shown(call, number, expected, refusal_words(number));
}

/* The words for this refusal are too long for a line. */
static void answered_not_valid(const char *call, uint32_t number)
{
    shown(call, number, KEEPER_REFUSED_AUTHENTICATOR,
          number == KEEPER_REFUSED_AUTHENTICATOR ? "the authenticator is not valid" : refusal_words(number));
}

static uint32_t perform(const uint8_t *record, const uint8_t *request)
{
    return keeper_perform(page, sizeof page, record, KEEPER_RECORD_SIZE, request, KEEPER_REQUEST_SIZE, answer,
                          sizeof answer);
}

static uint32_t repeat(const uint8_t *record, const uint8_t *request)
{
    return keeper_repeat(page, sizeof page, record, KEEPER_RECORD_SIZE, request, KEEPER_REQUEST_SIZE, answer,
                         sizeof answer);
}

static uint32_t resume(const uint8_t *ram, const uint8_t *disk)
{
    return keeper_resume(page, sizeof page, ram, KEEPER_RECORD_SIZE, disk, KEEPER_RECORD_SIZE);
}

static void second_books(const uint8_t *request)
{
    uint8_t next[KEEPER_RECORD_SIZE];

    if (keeper_perform(second_page, sizeof second_page, second_book, sizeof second_book, request, KEEPER_REQUEST_SIZE,
                       next, sizeof next) != KEEPER_ACCEPTED)
        wrong("the second controller refuses an update");
    memcpy(second_book, next, sizeof second_book);
}

/* The answer to a request has reached the site computer. */
static void booked(const uint8_t *request, int kind, uint32_t amount)
{
    memcpy(book, answer, sizeof book);
    second_books(request);
    updates++;
    balance += kind == KEEPER_CHARGE ? amount : 0;
    balance -= kind == KEEPER_DISCHARGE ? amount : 0;
}

static void update(int kind, uint8_t rack, uint32_t amount)
{
    uint8_t request[KEEPER_REQUEST_SIZE];

    make_request(request, kind, rack, 0, amount);
    if (perform(book, request) != KEEPER_ACCEPTED)
        wrong("an update is refused");
    booked(request, kind, amount);
}

static void racks(const char *when)
{
    printf("\n    %s:\n\n", when);
    if (show_racks(page, sizeof page, book, sizeof book) != KEEPER_ACCEPTED)
        wrong("the record is not current");
    if (keeper_view_total(page, sizeof page, book, sizeof book, 0) != balance)
        wrong("the total is not what was charged less what was discharged");
    printf("\n");
}

static void begin(void)
{
    printf("1. A new book\n\n"
           "    The controller has %d bytes of protected memory, the page: a summary, zero at first, and a key.\n"
           "    The book, a record of %d bytes, goes to the site computer.\n\n",
           KEEPER_PAGE_SIZE, KEEPER_RECORD_SIZE);
    for (int i = 0; i < KEEPER_KEY_SIZE; i++) {
        page[KEEPER_KEY_AT + i] = (uint8_t)(i * 37 + 11);
        second_page[KEEPER_KEY_AT + i] = (uint8_t)(i * 41 + 5);
    }
    answered("open", keeper_open(page, sizeof page, book, sizeof book), KEEPER_ACCEPTED);
    if (keeper_open(second_page, sizeof second_page, second_book, sizeof second_book) != KEEPER_ACCEPTED)
        wrong("the second controller opens no book");
    for (uint8_t i = 0; i < RACKS_HERE; i++) {
        update(KEEPER_CAPACITY, i, 72000);
        update(KEEPER_CHARGE, i, 70000);
    }
    printf("\n    Four racks are set up and charged. Somebody keeps a copy of the record, at update %lu.\n", updates);
    memcpy(kept, book, sizeof kept);
    racks("The racks when the copy is made");
}

/* Each rack gives out more than it takes in, so that the copy's figures grow wrong. */
static void a_round_of_updates(void)
{
    printf("2. %s updates\n\n    ", grouped(ROUND));
    for (unsigned i = 0; i < ROUND; i++) {
        uint8_t rack = (uint8_t)(i / 2 % RACKS_HERE);
        if (i % 2 == 0)
            update(KEEPER_DISCHARGE, rack, 12);
        else
            update(KEEPER_CHARGE, rack, 4);
        if ((i + 1) % DOT == 0) {
            printf(".");
            fflush(stdout);
        }
    }
    printf(" update %s\n", grouped(updates));
    racks("The racks now");
}

static void the_old_copy(const uint8_t *request)
{
    unsigned long then = updates - ROUND;

    printf("3. The old copy comes back\n\n"
           "    The site computer restarts. Its RAM holds nothing, and from its disk it hands the controller the copy\n"
           "    of update %lu, by which rack 0 is nearly full. If the book had a number of 16 bits, the copy's would\n"
           "    be %lu, and the controller's, after %s updates, %lu. %s\n\n"
           "    The keeper's answers:\n\n",
           then, then % ROUND, grouped(updates), updates % ROUND,
           then % ROUND == updates % ROUND ? "They are the same: the old copy would pass." : "They differ.");
    shown("resume, with nothing in RAM and the copy on disk", resume(nothing, kept), KEEPER_NEITHER,
          "neither is current");
    answered("perform with the copy: discharge rack 0 by 50,000", perform(kept, request), KEEPER_REFUSED_CURRENT);
    answered("view of the copy", keeper_view(page, sizeof page, kept, sizeof kept, 0), KEEPER_REFUSED_CURRENT);
    shown("resume, with the copy in RAM and the true record on disk", resume(kept, book), KEEPER_DISK,
          "the disk's is current");
    answered("perform with the true record: discharge rack 0 by 50,000", perform(book, request), KEEPER_REFUSED_STORED);
    printf("\n");
}

static void cut_after_the_page(const uint8_t *request)
{
    printf("4. The power is cut in the middle of an update\n\n"
           "    Rack 2 is charged by 5,000. The page has moved when the power goes, and the answer is lost: the site\n"
           "    computer has the record of before and the request.\n\n");
    answered("perform: charge rack 2 by 5,000", perform(book, request), KEEPER_ACCEPTED);
    memset(answer, 0, sizeof answer);
    printf("    -- cut; the answer is lost --\n");
    shown("resume, with nothing in RAM and the record of before on disk", resume(nothing, book), KEEPER_NEITHER,
          "neither is current");
    answered("perform once more: it is not booked twice", perform(book, request), KEEPER_REFUSED_CURRENT);
    answered("repeat: the lost answer is given again", repeat(book, request), KEEPER_ACCEPTED);
    booked(request, KEEPER_CHARGE, CUT_AMOUNT);
    answered("view of the record that repeat gave", keeper_view(page, sizeof page, book, sizeof book, 0),
             KEEPER_ACCEPTED);
    racks("The racks after it: rack 2 was charged once");
}

static void cut_before_the_page(const uint8_t *request)
{
    uint8_t page_before[KEEPER_PAGE_SIZE];

    printf("5. The power is cut a moment earlier\n\n"
           "    The same again, but now the page has not moved yet. Then the request is not booked, and the same two\n"
           "    calls say so.\n\n");
    memcpy(page_before, page, sizeof page);
    answered("perform: charge rack 2 by 5,000", perform(book, request), KEEPER_ACCEPTED);
    memcpy(page, page_before, sizeof page);
    memset(answer, 0, sizeof answer);
    printf("    -- cut; the page is that of before, and the answer is lost --\n");
    answered("repeat: there is nothing to repeat", repeat(book, request), KEEPER_REFUSED_CURRENT);
    answered("perform once more: now it is booked", perform(book, request), KEEPER_ACCEPTED);
    booked(request, KEEPER_CHARGE, CUT_AMOUNT);
    racks("The racks after it: rack 2 was charged a second time, as was asked");
}

/* Adds to a number of a record, as anybody can who has the bytes. */
static void add(uint8_t *number, int width, uint32_t amount)
{
    uint64_t carry = amount;

    while (width-- > 0) {
        carry += number[width];
        number[width] = (uint8_t)carry;
        carry >>= 8;
    }
}

/* The state rule holds for it, and its summary is the page's: what stops it is the authenticator. */
static void a_changed_record(const uint8_t *request)
{
    uint8_t changed[KEEPER_RECORD_SIZE], *rack = changed + KEEPER_RACKS_AT;

    memcpy(changed, book, sizeof changed);
    add(rack + KEEPER_STORED_AT, 4, FORGED_AMOUNT);
    add(rack + KEEPER_TAKEN_IN_AT, 8, FORGED_AMOUNT);
    printf("6. Records that the controller never answered\n\n"
           "    Somebody adds 60,000 to what rack 0 holds and to what it has taken in: the figures agree with each\n"
           "    other, and 50,000 could be discharged. But the record's authenticator was made with the key, and the\n"
           "    key is in the page.\n\n");
    answered_not_valid("perform with the changed record: discharge rack 0 by 50,000", perform(changed, request));
    answered_not_valid("view of the changed record", keeper_view(page, sizeof page, changed, sizeof changed, 0));
    shown("resume, with nothing in RAM and the changed record on disk", resume(nothing, changed), KEEPER_NEITHER,
          "neither is current");
}

static void another_controllers_record(const uint8_t *request)
{
    if (memcmp(book, second_book, KEEPER_AUTHENTICATOR_AT) != 0)
        wrong("the two controllers were asked for the same, and their books differ");
    if (memcmp(book + KEEPER_AUTHENTICATOR_AT, second_book + KEEPER_AUTHENTICATOR_AT, KEEPER_AUTHENTICATOR_SIZE) == 0)
        wrong("two keys give the same authenticator");
    printf("\n"
           "    A second controller was asked for the same all afternoon, and its power was never cut. Its record is\n"
           "    this one byte for byte, but for the authenticator, since its key is another.\n\n");
    answered_not_valid("perform with the other's record: discharge rack 0 by 50,000", perform(second_book, request));
    answered_not_valid("view of the other's record",
                       keeper_view(page, sizeof page, second_book, sizeof second_book, 0));
    answered("view of the true record", keeper_view(page, sizeof page, book, sizeof book, 0), KEEPER_ACCEPTED);
    printf("\n");
}

int main(void)
{
    uint8_t request[KEEPER_REQUEST_SIZE], discharge[KEEPER_REQUEST_SIZE];

    make_request(request, KEEPER_CHARGE, 2, 0, CUT_AMOUNT);
    make_request(discharge, KEEPER_DISCHARGE, 0, 0, 50000);
    begin();
    a_round_of_updates();
    the_old_copy(discharge);
    cut_after_the_page(request);
    cut_before_the_page(request);
    a_changed_record(discharge);
    another_controllers_record(discharge);
    printf("%s updates were booked, none was lost and none was booked twice.\n", grouped(updates));
    return fflush(stdout) != 0 || ferror(stdout) ? 1 : 0;
}
