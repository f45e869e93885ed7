#include "show.h"

#include <stdio.h>

#include "keeper.h"

const char *refusal_words(uint32_t number)
{
    static const char *const words[] = {
        "accepted",
        "the page is not 64 bytes",
        "there is no room for the answer",
        "the record is not of its size, or its length is wrong",
        "the record's version is not known",
        "the record's racks break the state rule",
        "the request is not well formed, or there is no such rack",
        "the record's authenticator is not valid: it was changed, or was made under another key",
        "the record is not current",
        "the charge would pass the capacity, or the new capacity is under what is stored",
        "more would be discharged than is stored",
        "taken in or given out would pass its limit",
        "the total does not fit its figure",
        "the page is not fresh: something has been booked on it",
    };

    return number < sizeof words / sizeof *words ? words[number] : "no refusal that is known";
}

const char *grouped(uint64_t n)
{
    static char texts[4][28];
    static unsigned next;
    char *text = texts[next++ % 4], *at = text + sizeof texts[0] - 1;
    int digits = 0;

    *at = '\0';
    do {
        if (digits > 0 && digits % 3 == 0)
            *--at = ',';
        *--at = (char)('0' + n % 10);
        n /= 10;
        digits++;
    } while (n > 0);
    return at;
}

static uint64_t number_at(const uint8_t *at, int width)
{
    uint64_t n = 0;

    for (int i = 0; i < width; i++)
        n = n << 8 | at[i];
    return n;
}

void show_request(const uint8_t *request)
{
    const char *amount = grouped(number_at(request + KEEPER_REQUEST_AMOUNT_AT, 4));
    unsigned kind = request[KEEPER_REQUEST_KIND_AT];
    unsigned rack = request[KEEPER_REQUEST_RACK_AT], other = request[KEEPER_REQUEST_OTHER_AT];

    switch (kind) {
    case KEEPER_CAPACITY:
        printf("capacity of rack %u to %s", rack, amount);
        break;
    case KEEPER_CHARGE:
        printf("charge rack %u by %s", rack, amount);
        break;
    case KEEPER_DISCHARGE:
        printf("discharge rack %u by %s", rack, amount);
        break;
    case KEEPER_MOVE:
        printf("move %s from rack %u to rack %u", amount, rack, other);
        break;
    default:
        printf("a request of kind %u", kind);
    }
}

enum { BAR = 20 };

static void show_head(void)
{
    printf("%5s %11s %11s %6s %*s %15s %15s\n", "rack", "capacity", "stored", "full", BAR + 2, "", "taken in",
           "given out");
}

static void show_row(const uint8_t *page, size_t page_len, const uint8_t *record, size_t record_len, uint32_t rack)
{
    /* The keeper gives no figure for what was taken in and given out, but has found the record to be current. */
    const uint8_t *at = record + KEEPER_RACKS_AT + rack * KEEPER_RACK_SIZE;
    uint64_t taken_in = number_at(at + KEEPER_TAKEN_IN_AT, 8), given_out = number_at(at + KEEPER_GIVEN_OUT_AT, 8);
    uint32_t stored = keeper_view_stored(page, page_len, record, record_len, rack);
    uint32_t capacity = keeper_view_capacity(page, page_len, record, record_len, rack);
    uint32_t percent = keeper_view_percent(page, page_len, record, record_len, rack);
    char bar[BAR + 1];

    for (uint32_t i = 0; i < BAR; i++)
        bar[i] = (i + 1) * 100 <= percent * BAR ? '#' : '.';
    bar[BAR] = '\0';
    printf("%5u %11s %11s %4u %% [%s] %15s %15s\n", (unsigned)rack, grouped(capacity), grouped(stored),
           (unsigned)percent, bar, grouped(taken_in), grouped(given_out));
}

static int in_use(const uint8_t *record, uint32_t rack)
{
    const uint8_t *at = record + KEEPER_RACKS_AT + rack * KEEPER_RACK_SIZE;

    return number_at(at + KEEPER_CAPACITY_AT, 4) > 0 || number_at(at + KEEPER_TAKEN_IN_AT, 8) > 0;
}

uint32_t show_racks(const uint8_t *page, size_t page_len, const uint8_t *record, size_t record_len)
{
    uint32_t number = keeper_view(page, page_len, record, record_len, 0);

    if (number != KEEPER_ACCEPTED)
        return number;
    show_head();
    for (uint32_t i = 0; i < KEEPER_RACKS; i++)
        if (in_use(record, i))
            show_row(page, page_len, record, record_len, i);
    printf("%5s %11s %11s\n", "total", "", grouped(keeper_view_total(page, page_len, record, record_len, 0)));
    return KEEPER_ACCEPTED;
}

uint32_t show_rack(const uint8_t *page, size_t page_len, const uint8_t *record, size_t record_len, uint32_t rack)
{
    uint32_t number = keeper_view(page, page_len, record, record_len, rack);

    if (number != KEEPER_ACCEPTED)
        return number;
    show_head();
    show_row(page, page_len, record, record_len, rack);
    return KEEPER_ACCEPTED;
}
