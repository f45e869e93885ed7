#include "book.h"

#include <string.h>

#include "store.h"

const char *const book_names[2] = {"book.a", "book.b"};

#define PAGE_NAME "page"
#define NOTE_NAME "request"

/* The summary of a fresh page, and a key that nobody has made. */
static const uint8_t no_summary[KEEPER_SUMMARY_SIZE], no_key[KEEPER_KEY_SIZE];

/* ---- Reading. */

static int load_note(struct book *b)
{
    uint8_t bytes[NOTE_SIZE + 1];
    size_t len;

    b->note_there = store_read(NOTE_NAME, bytes, sizeof bytes, &len);
    b->note_good = note_read(&b->note, bytes, len) == 0;
    return b->note_there < 0 ? BOOK_FAILED : 0;
}

/* A file that is not there counts as empty, and the keeper refuses it. */
static int load(struct book *b)
{
    memset(b, 0, sizeof *b);
    b->current = -1;
    b->page_there = store_read(PAGE_NAME, b->page, sizeof b->page, &b->page_len);
    if (b->page_there < 0)
        return BOOK_FAILED;
    for (int i = 0; i < 2; i++) {
        struct copy *c = &b->copies[i];
        c->there = store_read(book_names[i], c->bytes, sizeof c->bytes, &c->len);
        if (c->there < 0)
            return BOOK_FAILED;
    }
    return load_note(b);
}

/* ---- The two records. */

static int has_summary(const struct copy *c, const uint8_t *summary)
{
    return c->len == KEEPER_RECORD_SIZE && memcmp(c->bytes + KEEPER_SUMMARY_AT, summary, KEEPER_SUMMARY_SIZE) == 0;
}

/* Repeat of a request on the record with this summary. Returns the copy that gives the answer, or -1. */
static int repeat_on(const struct book *b, const uint8_t *summary, const uint8_t *request, uint8_t *answer)
{
    for (int i = 0; i < 2; i++) {
        const struct copy *c = &b->copies[i];
        if (has_summary(c, summary) && keeper_repeat(b->page, b->page_len, c->bytes, c->len, request,
                                                     KEEPER_REQUEST_SIZE, answer,
                                                     KEEPER_RECORD_SIZE) == KEEPER_ACCEPTED)
            return i;
    }
    return -1;
}

/* The answer is the current record, in place of the copy that it was not worked out from. */
static void take_answer(struct book *b, int from, const uint8_t *answer)
{
    struct copy *to = &b->copies[1 - from];

    memcpy(to->bytes, answer, KEEPER_RECORD_SIZE);
    to->len = KEEPER_RECORD_SIZE;
    b->current = 1 - from;
}

static int store_current(struct book *b)
{
    if (store_replace(book_names[b->current], b->copies[b->current].bytes, KEEPER_RECORD_SIZE) != 0)
        return BOOK_FAILED;
    b->recovered = 0;
    return 0;
}

/* ---- Starting. */

/* The current record has the page's summary: the page itself is the controller's. */
static int stands_at(const struct book *b, const uint8_t *summary)
{
    return b->current >= 0 && has_summary(&b->copies[b->current], summary);
}

static int resume(const struct book *b)
{
    const struct copy *c = b->copies;

    switch (keeper_resume(b->page, b->page_len, c[0].bytes, c[0].len, c[1].bytes, c[1].len)) {
    case KEEPER_RAM:
        return 0;
    case KEEPER_DISK:
        return 1;
    default:
        return -1;
    }
}

/* The answer that a cut took, or that was damaged. Returns the copy that it was worked out from, or -1. */
static int recover(const struct book *b, uint8_t *answer)
{
    const struct note *n = &b->note;
    int from = -1;

    if (n->outcome == OUTCOME_PENDING)
        from = repeat_on(b, n->stands, n->request, answer);
    if (from < 0 && n->booked_there)
        from = repeat_on(b, n->booked_on, n->booked_request, answer);
    return from;
}

static int find_current(struct book *b)
{
    uint8_t answer[KEEPER_RECORD_SIZE];
    int from;

    b->current = resume(b);
    if (b->current >= 0)
        return 0;
    from = recover(b, answer);
    if (from < 0)
        return BOOK_NO_RECORD;
    take_answer(b, from, answer);
    b->recovered = 1;
    return 0;
}

static enum told tell_pending(const struct book *b)
{
    uint8_t answer[KEEPER_RECORD_SIZE];

    if (repeat_on(b, b->note.stands, b->note.request, answer) >= 0)
        return TOLD_BOOKED;
    return stands_at(b, b->note.stands) ? TOLD_NOT_BOOKED : CANT_BE_TOLD;
}

static enum told tell(const struct book *b)
{
    if (!b->note_good)
        return stands_at(b, no_summary) ? TOLD_NONE_BOOKED : CANT_BE_TOLD;
    if (b->note.outcome == OUTCOME_PENDING)
        return tell_pending(b);
    if (!stands_at(b, b->note.stands))
        return CANT_BE_TOLD;
    switch (b->note.outcome) {
    case OUTCOME_NONE_GIVEN:
        return TOLD_NONE_GIVEN;
    case OUTCOME_BOOKED:
        return TOLD_BOOKED;
    case OUTCOME_REFUSED:
        return TOLD_NOT_BOOKED;
    default:
        return TOLD_SETTLED;
    }
}

int book_start(struct book *b)
{
    int status = load(b);

    if (status != 0)
        return status;
    status = find_current(b);
    b->told = tell(b);
    return status;
}

/* ---- Noting. */

static int store_note(const struct note *n)
{
    uint8_t bytes[NOTE_SIZE];

    note_write(n, bytes);
    return store_replace(NOTE_NAME, bytes, NOTE_SIZE) != 0 ? BOOK_FAILED : 0;
}

static void note_stands(struct book *b)
{
    memcpy(b->note.stands, b->copies[b->current].bytes + KEEPER_SUMMARY_AT, KEEPER_SUMMARY_SIZE);
}

/* The request of the note is the last one booked; its record is the one at which the page stood. */
static void keep_as_booked(struct note *n)
{
    n->booked_there = 1;
    memcpy(n->booked_request, n->request, KEEPER_REQUEST_SIZE);
    memcpy(n->booked_on, n->stands, KEEPER_SUMMARY_SIZE);
}

static int note_pending(struct book *b, const uint8_t *request)
{
    struct note *n = &b->note;
    uint64_t count = book_count(b);

    if (n->outcome == OUTCOME_PENDING && b->told == TOLD_BOOKED)
        keep_as_booked(n);
    n->outcome = OUTCOME_PENDING;
    n->refusal = 0;
    n->number = count + 1;
    n->least = 0;
    memcpy(n->request, request, KEEPER_REQUEST_SIZE);
    note_stands(b);
    return store_note(n);
}

static int note_refused(struct book *b, uint32_t refusal)
{
    b->note.outcome = OUTCOME_REFUSED;
    b->note.refusal = (uint8_t)refusal;
    b->told = TOLD_NOT_BOOKED;
    return store_note(&b->note);
}

static int note_booked(struct book *b)
{
    keep_as_booked(&b->note);
    b->note.outcome = OUTCOME_BOOKED;
    note_stands(b);
    b->told = TOLD_BOOKED;
    return store_note(&b->note);
}

uint64_t book_count(const struct book *b)
{
    return b->told == TOLD_NOT_BOOKED ? b->note.number - 1 : b->note.number;
}

uint64_t book_least_count(const struct book *b)
{
    if (!b->note_good)
        return 1;
    if (b->told == TOLD_SETTLED)
        return b->note.least;
    return b->note.outcome == OUTCOME_PENDING || b->note.outcome == OUTCOME_REFUSED ? b->note.number
                                                                                   : b->note.number + 1;
}

int book_settle(struct book *b, uint64_t count)
{
    uint64_t least = book_least_count(b);

    if (b->current < 0)
        return BOOK_NO_RECORD;
    memset(&b->note, 0, sizeof b->note);
    b->note.outcome = OUTCOME_SETTLED;
    b->note.number = count;
    b->note.least = least;
    note_stands(b);
    b->told = TOLD_SETTLED;
    return store_note(&b->note);
}

/* ---- Booking. */

/* Nothing is booked. Any other refusal of a current record says that something is not as it was found to be. */
static int is_final(uint32_t refusal)
{
    return refusal == KEEPER_REFUSED_REQUEST || (KEEPER_REFUSED_CAPACITY <= refusal && refusal <= KEEPER_REFUSED_LIMIT);
}

int book_request(struct book *b, const uint8_t *request)
{
    uint8_t answer[KEEPER_RECORD_SIZE];
    int from = b->current;
    uint32_t number;

    if (from < 0)
        return BOOK_NO_RECORD;
    if (b->told == CANT_BE_TOLD)
        return BOOK_UNTOLD;
    if ((b->recovered && store_current(b) != 0) || note_pending(b, request) != 0)
        return BOOK_FAILED;
    number = keeper_perform(b->page, b->page_len, b->copies[from].bytes, b->copies[from].len, request,
                            KEEPER_REQUEST_SIZE, answer, sizeof answer);
    if (number != KEEPER_ACCEPTED)
        return !is_final(number) || note_refused(b, number) != 0 ? BOOK_FAILED : (int)number;
    /* Perform was lent a copy: this is the moment at which the page moves. */
    if (store_replace(PAGE_NAME, b->page, KEEPER_PAGE_SIZE) != 0)
        return BOOK_FAILED;
    take_answer(b, from, answer);
    if (store_current(b) != 0)
        return BOOK_FAILED;
    return note_booked(b);
}

/* ---- Opening. */

/* Whether there is a whole record, or a note, of another page than this fresh one: the page may have been cleared. */
static int is_of_another_page(const struct book *b)
{
    for (int i = 0; i < 2; i++) {
        const struct copy *c = &b->copies[i];
        uint32_t number = keeper_view(b->page, b->page_len, c->bytes, c->len, 0);
        if (number == KEEPER_REFUSED_AUTHENTICATOR || number == KEEPER_REFUSED_CURRENT)
            return 1;
    }
    return b->note_good && (memcmp(b->note.stands, no_summary, sizeof no_summary) != 0 || b->note.number > 1);
}

int book_can_open(const struct book *b)
{
    uint8_t first[KEEPER_RECORD_SIZE];

    if (!b->page_there)
        return !b->copies[0].there && !b->copies[1].there && !b->note_there;
    if (keeper_open(b->page, b->page_len, first, sizeof first) != KEEPER_ACCEPTED)
        return 0;
    return memcmp(b->page + KEEPER_KEY_AT, no_key, sizeof no_key) != 0 && (resume(b) >= 0 || !is_of_another_page(b));
}

static int make_page(struct book *b)
{
    memset(b->page, 0, KEEPER_PAGE_SIZE);
    b->page_len = KEEPER_PAGE_SIZE;
    if (store_random(b->page + KEEPER_KEY_AT, KEEPER_KEY_SIZE) != 0)
        return BOOK_FAILED;
    return store_replace(PAGE_NAME, b->page, KEEPER_PAGE_SIZE) != 0 ? BOOK_FAILED : 0;
}

/* The note of a request that was given on the fresh page stays. */
static int complete(struct book *b, const uint8_t *first)
{
    if (resume(b) < 0) {
        take_answer(b, 1, first);
        if (store_current(b) != 0)
            return BOOK_FAILED;
    }
    return b->note_there ? 0 : store_note(&b->note);
}

int book_open(void)
{
    uint8_t first[KEEPER_RECORD_SIZE];
    struct book b;
    int status = load(&b);
    uint32_t number;

    if (status == 0 && !b.page_there)
        status = book_can_open(&b) ? make_page(&b) : BOOK_NO_RECORD;
    if (status != 0)
        return status;
    /* A page that is there is never replaced: the keeper says whether it is fresh. */
    number = keeper_open(b.page, b.page_len, first, sizeof first);
    if (number != KEEPER_ACCEPTED)
        return (int)number;
    return !b.page_there || book_can_open(&b) ? complete(&b, first) : BOOK_NO_RECORD;
}
