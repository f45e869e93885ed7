/*
 * Says how many bytes of stack each function of host/keeper.h takes when it accepts: the room below the caller is
 * painted, the call is made, and the lowest byte that changed is found. The return address and what is passed on the
 * stack are counted. For x86-64.
 */
#include <stdint.h>
#include <stdio.h>
#include <stdlib.h>
#include <string.h>

#include "keeper.h"

enum { ROOM = 8192 };

static uint8_t page[KEEPER_PAGE_SIZE], moved[KEEPER_PAGE_SIZE], answer[KEEPER_RECORD_SIZE];
static uint8_t first[KEEPER_RECORD_SIZE], record[KEEPER_RECORD_SIZE], other[KEEPER_RECORD_SIZE];
static const uint8_t request[KEEPER_REQUEST_SIZE] = {0, 8, 1, KEEPER_CAPACITY, 3, 0, 0, 1, 0x19, 0x40};

/* Read anew each time, so that no register holds it that the call might save on the stack: it would not show there. */
static volatile uint8_t colour;

static void expect(int it_is_so, const char *name)
{
    if (!it_is_so) {
        printf("archive: FAILED: %s does not answer as it should\n", name);
        exit(1);
    }
}

/* A function that makes the call from its own frame, and gives how far below its stack pointer the call reaches. */
#define DEPTH_OF(function, call, expected)                                       \
    static __attribute__((noinline)) size_t depth_of_##function(void)            \
    {                                                                            \
        volatile uint8_t *here, *lowest;                                         \
        __asm__ volatile("mov %%rsp, %0" : "=r"(here)::"memory");                \
        for (volatile uint8_t *at = here - ROOM; at < here; at++)                \
            *at = colour;                                                        \
        uint32_t number = call;                                                  \
        for (lowest = here - ROOM; lowest < here && *lowest == colour; lowest++) \
            ;                                                                    \
        expect(number == (expected), #function);                                 \
        return (size_t)(here - lowest);                                          \
    }

#define ON(record) page, sizeof page, record, KEEPER_RECORD_SIZE
#define WITH(record) ON(record), request, sizeof request, answer, sizeof answer

DEPTH_OF(keeper_open, keeper_open(page, sizeof page, answer, sizeof answer), KEEPER_ACCEPTED)
DEPTH_OF(keeper_perform, keeper_perform(WITH(first)), KEEPER_ACCEPTED)
DEPTH_OF(keeper_repeat, keeper_repeat(WITH(first)), KEEPER_ACCEPTED)
DEPTH_OF(keeper_view, keeper_view(ON(record), 3), KEEPER_ACCEPTED)
DEPTH_OF(keeper_view_stored, keeper_view_stored(ON(record), 3), 0)
DEPTH_OF(keeper_view_capacity, keeper_view_capacity(ON(record), 3), 72000)
DEPTH_OF(keeper_view_percent, keeper_view_percent(ON(record), 3), 0)
DEPTH_OF(keeper_view_total, keeper_view_total(ON(record), 3), 0)
DEPTH_OF(keeper_resume, keeper_resume(ON(other), record, sizeof record), KEEPER_DISK)

/* Two colours, so that a byte that happens to be left in the one shows in the other. */
static void say(const char *name, size_t (*depth)(void), const uint8_t *on_page)
{
    size_t most = 0;

    for (int i = 0; i < 2; i++) {
        memcpy(page, on_page, sizeof page);
        colour = i == 0 ? 0xA5 : 0x5A;
        size_t d = depth();
        most = d > most ? d : most;
    }
    printf("%s %zu\n", name, most);
}

int main(void)
{
    uint8_t fresh[KEEPER_PAGE_SIZE] = {0};

    memset(fresh + KEEPER_KEY_AT, 0x5C, KEEPER_KEY_SIZE);
    memcpy(page, fresh, sizeof page);
    expect(keeper_open(page, sizeof page, first, sizeof first) == KEEPER_ACCEPTED, "keeper_open");
    expect(keeper_perform(WITH(first)) == KEEPER_ACCEPTED, "keeper_perform");
    memcpy(record, answer, sizeof record);
    memcpy(moved, page, sizeof page);
    memcpy(other, record, sizeof other);
    other[KEEPER_AUTHENTICATOR_AT] ^= 1;

    say("keeper_open", depth_of_keeper_open, fresh);
    say("keeper_perform", depth_of_keeper_perform, fresh);
    say("keeper_repeat", depth_of_keeper_repeat, moved);
    say("keeper_view", depth_of_keeper_view, moved);
    say("keeper_view_stored", depth_of_keeper_view_stored, moved);
    say("keeper_view_capacity", depth_of_keeper_view_capacity, moved);
    say("keeper_view_percent", depth_of_keeper_view_percent, moved);
    say("keeper_view_total", depth_of_keeper_view_total, moved);
    say("keeper_resume", depth_of_keeper_resume, moved);
    return 0;
}
