/*
 * Runs the nine functions of host/keeper.h with marks on the page's key and on the authenticators of the records, and
 * counts the branches and the addresses that go by a mark. Marks pass on to all that is worked out from marked bytes.
 *
 * A call should make one such branch for each authenticator that it compares: is it valid? The answer depends on this
 * verdict and has no marks, so the verdict is one of the branches; and where there is no other, the time that the call
 * takes tells no more than the verdict. A comparison that ends early makes more of them, the later the first wrong byte
 * comes.
 *
 * Which bytes get marks does not depend on what they hold, so what is found of a call here is so for every key.
 */
#include <stdarg.h>
#include <stdio.h>
#include <stdlib.h>
#include <string.h>

#include "keeper.h"
#include "marks.h"
#include "request.h"

enum function { OPEN, PERFORM, REPEAT, VIEW, STORED, CAPACITY, PERCENT, TOTAL, RESUME, FUNCTIONS };

static const char *const names[FUNCTIONS] = {"open",          "perform",      "repeat",     "view",  "view_stored",
                                             "view_capacity", "view_percent", "view_total", "resume"};
static unsigned long calls[FUNCTIONS];

/* What is lent to a call. For resume the record is the one in RAM. */
struct lent {
    uint8_t page[KEEPER_PAGE_SIZE], record[KEEPER_RECORD_SIZE], disk[KEEPER_RECORD_SIZE];
    uint8_t request[KEEPER_REQUEST_SIZE], answer[KEEPER_RECORD_SIZE];
    size_t page_len, answer_len;
    uint32_t rack;
};

static void failed(const char *form, ...)
{
    va_list words;

    va_start(words, form);
    printf("time: FAILED: ");
    vprintf(form, words);
    printf("\n");
    va_end(words);
    exit(1);
}

/* ---- One call. */

static uint32_t call_view(enum function function, const struct lent *l)
{
    static uint32_t (*const views[])(const uint8_t *, size_t, const uint8_t *, size_t, uint32_t) = {
        keeper_view, keeper_view_stored, keeper_view_capacity, keeper_view_percent, keeper_view_total};

    return views[function - VIEW](l->page, l->page_len, l->record, sizeof l->record, l->rack);
}

static uint32_t call(enum function function, struct lent *l)
{
    switch (function) {
    case OPEN:
        return keeper_open(l->page, l->page_len, l->answer, l->answer_len);
    case PERFORM:
        return keeper_perform(l->page, l->page_len, l->record, sizeof l->record, l->request, sizeof l->request,
                              l->answer, l->answer_len);
    case REPEAT:
        return keeper_repeat(l->page, l->page_len, l->record, sizeof l->record, l->request, sizeof l->request,
                             l->answer, l->answer_len);
    case RESUME:
        return keeper_resume(l->page, l->page_len, l->record, sizeof l->record, l->disk, sizeof l->disk);
    default:
        return call_view(function, l);
    }
}

/* The authenticator that is written comes from the key: where it has no marks, they were lost on the way. */
static int marks_arrive(enum function function, uint32_t number, const struct lent *l)
{
    if (function > REPEAT || number != KEEPER_ACCEPTED)
        return 1;
    return marked_bits(l->answer + KEEPER_AUTHENTICATOR_AT, KEEPER_AUTHENTICATOR_SIZE) == 8 * KEEPER_AUTHENTICATOR_SIZE;
}

/* Runs a call with its secrets marked. What is lent comes as a copy, so that the marks stay in here. */
static void answers(enum function function, struct lent l, uint32_t expected, unsigned long verdicts, const char *when)
{
    const char *name = names[function];
    unsigned long before, used;
    uint32_t number;

    mark(l.page + KEEPER_KEY_AT, KEEPER_KEY_SIZE);
    mark(l.record + KEEPER_AUTHENTICATOR_AT, KEEPER_AUTHENTICATOR_SIZE);
    mark(l.disk + KEEPER_AUTHENTICATOR_AT, KEEPER_AUTHENTICATOR_SIZE);
    before = marks_used();
    number = call(function, &l);
    used = marks_used() - before;

    if (used != verdicts)
        failed("keeper_%s, %s: branches and addresses by a secret: %lu, expected: %lu", name, when, used, verdicts);
    if (marked_bits(&number, sizeof number) != 0)
        failed("keeper_%s, %s: the answer has marks, so the verdict is no branch", name, when);
    if (number != expected)
        failed("keeper_%s, %s: the answer is %lu, expected: %lu", name, when, (unsigned long)number,
               (unsigned long)expected);
    if (!marks_arrive(function, number, &l))
        failed("keeper_%s, %s: the authenticator that is written has no marks", name, when);
    calls[function]++;
}

/* The figures of view answer 0 where view refuses. */
static uint32_t refusal(enum function function, uint32_t number)
{
    return function > VIEW ? 0 : number;
}

/* ---- A book, and what is offered on it. */

static struct lent fresh(void)
{
    struct lent l = {.page_len = KEEPER_PAGE_SIZE, .answer_len = KEEPER_RECORD_SIZE};

    for (int i = 0; i < KEEPER_KEY_SIZE; i++)
        l.page[KEEPER_KEY_AT + i] = (uint8_t)(0xA0 + i);
    return l;
}

static void set_up(struct lent *l, int kind, uint8_t rack, uint32_t amount)
{
    make_request(l->request, kind, rack, 0, amount);
    if (call(PERFORM, l) != KEEPER_ACCEPTED)
        failed("no book can be set up");
    memcpy(l->disk, l->record, sizeof l->disk);
    memcpy(l->record, l->answer, sizeof l->record);
}

/* A book: the current record, the one before it on disk, and the request that led from that to this. */
static struct lent book(void)
{
    struct lent l = fresh();

    if (call(OPEN, &l) != KEEPER_ACCEPTED)
        failed("no book can be opened");
    memcpy(l.record, l.answer, sizeof l.record);
    set_up(&l, KEEPER_CAPACITY, 0, 72000);
    set_up(&l, KEEPER_CAPACITY, 1, 72000);
    set_up(&l, KEEPER_CHARGE, 0, 3600);
    return l;
}

static struct lent asking(struct lent l, int kind, uint8_t rack, uint8_t other, uint32_t amount)
{
    make_request(l.request, kind, rack, other, amount);
    return l;
}

static struct lent with_the_one_before(struct lent l)
{
    memcpy(l.record, l.disk, sizeof l.record);
    return l;
}

/* Turns one bit of a record's authenticator. */
static void spoil(uint8_t *record, int byte)
{
    record[KEEPER_AUTHENTICATOR_AT + byte] ^= (uint8_t)(1 << byte % 8);
}

static const char *wrong_in(int byte)
{
    static char words[40];

    snprintf(words, sizeof words, "wrong in byte %d", byte);
    return words;
}

/* ---- The calls. */

static void wrong_in_each_byte(enum function function, struct lent l)
{
    for (int byte = 0; byte < KEEPER_AUTHENTICATOR_SIZE; byte++) {
        struct lent spoilt = l;

        spoil(spoilt.record, byte);
        answers(function, spoilt, refusal(function, KEEPER_REFUSED_AUTHENTICATOR), 1, wrong_in(byte));
    }
}

/* What tests 3 to 5 refuse. */
static void ill_formed(enum function function, struct lent l)
{
    struct lent length = l, version = l, state = l;

    length.record[1] ^= 1;
    version.record[2] ^= 1;
    state.record[KEEPER_RACKS_AT + KEEPER_STORED_AT] ^= 1;
    answers(function, length, refusal(function, KEEPER_REFUSED_RECORD), 0, "another length");
    answers(function, version, refusal(function, KEEPER_REFUSED_VERSION), 0, "another version");
    answers(function, state, refusal(function, KEEPER_REFUSED_STATE), 0, "a state that breaks the rule");
}

/* What tests 1 to 6 refuse, before the key is used. */
static void refused_before(enum function function, struct lent l)
{
    struct lent page = l, answer = l, request = l;

    page.page_len--;
    answer.answer_len--;
    request.request[2] ^= 1;
    request.rack = KEEPER_RACKS;
    answers(function, page, refusal(function, KEEPER_REFUSED_PAGE), 0, "a short page");
    if (function < VIEW)
        answers(function, answer, KEEPER_REFUSED_ANSWER, 0, "a short answer buffer");
    ill_formed(function, l);
    answers(function, request, refusal(function, KEEPER_REFUSED_REQUEST), 0, "no request, or no rack");
}

static void open_calls(struct lent l)
{
    struct lent page = l, answer = l, moved = l;

    page.page_len--;
    answer.answer_len--;
    moved.page[0] ^= 1;
    answers(OPEN, l, KEEPER_ACCEPTED, 0, "a fresh page");
    answers(OPEN, page, KEEPER_REFUSED_PAGE, 0, "a short page");
    answers(OPEN, answer, KEEPER_REFUSED_ANSWER, 0, "a short answer buffer");
    answers(OPEN, moved, KEEPER_REFUSED_FRESH, 0, "a page that has moved");
}

static void perform_calls(struct lent l)
{
    answers(PERFORM, asking(l, KEEPER_CAPACITY, 2, 0, 500), KEEPER_ACCEPTED, 1, "a capacity");
    answers(PERFORM, asking(l, KEEPER_CHARGE, 1, 0, 500), KEEPER_ACCEPTED, 1, "a charge");
    answers(PERFORM, asking(l, KEEPER_DISCHARGE, 0, 0, 500), KEEPER_ACCEPTED, 1, "a discharge");
    answers(PERFORM, asking(l, KEEPER_MOVE, 0, 1, 500), KEEPER_ACCEPTED, 1, "a move");
    answers(PERFORM, asking(l, KEEPER_CHARGE, 1, 0, 90000), KEEPER_REFUSED_CAPACITY, 1, "a charge of too much");
    answers(PERFORM, asking(l, KEEPER_DISCHARGE, 0, 0, 90000), KEEPER_REFUSED_STORED, 1, "a discharge of too much");
    answers(PERFORM, with_the_one_before(l), KEEPER_REFUSED_CURRENT, 1, "an old record");
    wrong_in_each_byte(PERFORM, l);
    refused_before(PERFORM, l);
}

static void repeat_calls(struct lent l)
{
    answers(REPEAT, with_the_one_before(l), KEEPER_ACCEPTED, 1, "a lost answer");
    answers(REPEAT, l, KEEPER_REFUSED_CURRENT, 1, "nothing to repeat");
    wrong_in_each_byte(REPEAT, with_the_one_before(l));
    refused_before(REPEAT, with_the_one_before(l));
}

static void view_calls(struct lent l)
{
    static const uint32_t seen[] = {KEEPER_ACCEPTED, 3600, 72000, 5, 3600};

    for (enum function view = VIEW; view <= TOTAL; view++) {
        answers(view, l, seen[view - VIEW], 1, "the current record");
        answers(view, with_the_one_before(l), refusal(view, KEEPER_REFUSED_CURRENT), 1, "an old record");
        wrong_in_each_byte(view, l);
        refused_before(view, l);
    }
}

/* Both records are the current one, and one of them or each is spoilt. */
static void resume_wrong_in(struct lent l, int byte)
{
    struct lent ram = l, disk = l, both = l;

    spoil(ram.record, byte);
    spoil(disk.disk, byte);
    spoil(both.record, byte);
    spoil(both.disk, byte);
    answers(RESUME, ram, KEEPER_DISK, 2, wrong_in(byte));
    answers(RESUME, disk, KEEPER_RAM, 1, wrong_in(byte));
    answers(RESUME, both, KEEPER_NEITHER, 2, wrong_in(byte));
}

static void resume_calls(struct lent l)
{
    struct lent twice = l, nothing = l, page = l;

    answers(RESUME, l, KEEPER_RAM, 1, "the current record in RAM");
    answers(RESUME, with_the_one_before(l), KEEPER_NEITHER, 2, "two old records");
    memset(nothing.record, 0, sizeof nothing.record);
    answers(RESUME, nothing, KEEPER_NEITHER, 1, "nothing in RAM and an old record on disk");
    page.page_len--;
    answers(RESUME, page, KEEPER_NEITHER, 0, "a short page");
    memcpy(twice.disk, l.record, sizeof twice.disk);
    for (int byte = 0; byte < KEEPER_AUTHENTICATOR_SIZE; byte++)
        resume_wrong_in(twice, byte);
}

int main(void)
{
    unsigned long functions = 0, all = 0;

    if (!marks_are_followed())
        failed("this is not valgrind's memcheck, and nothing follows the marks");
    open_calls(fresh());
    perform_calls(book());
    repeat_calls(book());
    view_calls(book());
    resume_calls(book());
    for (int i = 0; i < FUNCTIONS; i++) {
        functions += calls[i] > 0;
        all += calls[i];
    }
    printf("%lu functions, %lu calls\n", functions, all);
    return 0;
}
