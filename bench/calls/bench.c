/*
 * The keeper's calls beside the same calls in plain C over BearSSL and over mbedTLS (peer.c): that the answers agree,
 * how long each call takes, how many blocks of SHA-256 it hashes, whether a long history costs more, and how deep each
 * goes on the stack. For x86-64.
 *
 *     bench [ADDRESS..]    instructions that are passed once for each block: see below, at Blocks
 */
#define _GNU_SOURCE
#include <signal.h>
#include <stdio.h>
#include <stdlib.h>
#include <string.h>
#include <sys/mman.h>
#include <sys/wait.h>
#include <time.h>
#include <ucontext.h>
#include <unistd.h>

#include <bearssl.h>
#include <mbedtls/sha256.h>
#include <mbedtls/version.h>

#include "keeper.h"
#include "peer.h"

#if MBEDTLS_VERSION_MAJOR < 3
#define mbedtls_sha256 mbedtls_sha256_ret
#endif

#define NOINLINE __attribute__((noinline))
#define ALWAYS_INLINE inline __attribute__((always_inline))
#define COUNT(array) (sizeof(array) / sizeof *(array))

/* ---- The three makers. */

PEER_FUNCTIONS(peer_bearssl);
PEER_FUNCTIONS(peer_mbedtls);

enum { VIEWS = 5 }; /* view, and its four figures */

struct maker {
    const char *name;
    uint32_t (*open)(const uint8_t *page, size_t page_len, uint8_t *answer, size_t answer_len);
    uint32_t (*perform)(uint8_t *page, size_t page_len, const uint8_t *record, size_t record_len,
                        const uint8_t *request, size_t request_len, uint8_t *answer, size_t answer_len);
    uint32_t (*repeat)(const uint8_t *page, size_t page_len, const uint8_t *record, size_t record_len,
                       const uint8_t *request, size_t request_len, uint8_t *answer, size_t answer_len);
    PEER_VIEW((*views[VIEWS]));
    uint32_t (*resume)(const uint8_t *page, size_t page_len, const uint8_t *ram, size_t ram_len, const uint8_t *disk,
                       size_t disk_len);
};

#define MAKER(title, name)                                                                                             \
    {                                                                                                                  \
        title, name##_open, name##_perform, name##_repeat,                                                             \
            {name##_view, name##_view_stored, name##_view_capacity, name##_view_percent, name##_view_total},           \
            name##_resume                                                                                              \
    }

enum { KEEPER, BEAR, MBED, MAKERS };

static const struct maker makers[MAKERS] = {
    MAKER("keeper", keeper),
    MAKER("BearSSL", peer_bearssl),
    MAKER("mbedTLS", peer_mbedtls),
};

static void fail(const char *what, unsigned long a, unsigned long b)
{
    printf("FAILED: %s (%lu, %lu)\n", what, a, b);
    exit(1);
}

/* ---- One call, with all that is lent to it. Other is the request, and for resume the record from disk. */

enum function { OPEN, PERFORM, REPEAT, VIEW, RESUME = VIEW + VIEWS, FUNCTIONS };

enum { BEHIND = 2 }; /* bytes behind the answer, which have to stay as they are */

struct call {
    enum function function;
    uint32_t rack;
    size_t page_len, record_len, other_len, answer_len;
    uint8_t page[KEEPER_PAGE_SIZE], record[KEEPER_RECORD_SIZE], other[KEEPER_RECORD_SIZE];
    uint8_t answer[KEEPER_RECORD_SIZE + BEHIND];
};

/* Inline, so that it is the measuring function itself that calls. */
static ALWAYS_INLINE uint32_t make(const struct maker *m, struct call *c)
{
    switch (c->function) {
    case OPEN: return m->open(c->page, c->page_len, c->answer, c->answer_len);
    case PERFORM:
        return m->perform(c->page, c->page_len, c->record, c->record_len, c->other, c->other_len, c->answer,
                          c->answer_len);
    case REPEAT:
        return m->repeat(c->page, c->page_len, c->record, c->record_len, c->other, c->other_len, c->answer,
                         c->answer_len);
    case RESUME: return m->resume(c->page, c->page_len, c->record, c->record_len, c->other, c->other_len);
    default: return m->views[c->function - VIEW](c->page, c->page_len, c->record, c->record_len, c->rack);
    }
}

/* ---- Requests, and what is hashed, for records that no call answers. */

static void put(uint8_t *at, int width, uint64_t n)
{
    while (width-- > 0) {
        at[width] = (uint8_t)n;
        n >>= 8;
    }
}

static void request(uint8_t *to, int kind, int rack, int other, uint32_t amount)
{
    put(to, 2, KEEPER_REQUEST_LENGTH);
    to[2] = KEEPER_REQUEST_VERSION;
    to[3] = (uint8_t)kind;
    to[4] = (uint8_t)rack;
    to[5] = (uint8_t)other;
    put(to + 6, 4, amount);
}

static void hash(uint8_t tag, const uint8_t *a, size_t a_len, const uint8_t *b, size_t b_len, uint8_t *out)
{
    br_sha256_context c;
    br_sha256_init(&c);
    br_sha256_update(&c, &tag, 1);
    br_sha256_update(&c, a, a_len);
    br_sha256_update(&c, b, b_len);
    br_sha256_out(&c, out);
}

/* Gives a record the authenticator of its own state and summary. */
static void sign(const uint8_t *page, uint8_t *record)
{
    uint8_t digest[32];
    br_hmac_key_context key;
    br_hmac_context c;
    hash(1, record + KEEPER_RACKS_AT, KEEPER_RACKS * KEEPER_RACK_SIZE, record, 0, digest);
    hash(3, record + KEEPER_SUMMARY_AT, KEEPER_SUMMARY_SIZE, digest, sizeof digest, digest);
    br_hmac_key_init(&key, &br_sha256_vtable, page + KEEPER_KEY_AT, KEEPER_KEY_SIZE);
    br_hmac_init(&c, &key, 0);
    br_hmac_update(&c, digest, sizeof digest);
    br_hmac_out(&c, record + KEEPER_SUMMARY_AT + KEEPER_SUMMARY_SIZE);
}

/* Gives the page the summary that a repeat of the call's request on the call's record looks for. */
static void move_page(struct call *c)
{
    hash(2, c->record + KEEPER_SUMMARY_AT, KEEPER_SUMMARY_SIZE, c->other, KEEPER_REQUEST_SIZE, c->page);
}

/* ---- A book: a page, and two buffers for records, the current one in the first. */

struct book {
    uint8_t page[KEEPER_PAGE_SIZE], records[2][KEEPER_RECORD_SIZE];
} __attribute__((aligned(64)));

/* Requests of all four kinds that can be performed in turn without end, from the first record on. */
enum { CYCLE = 5 };

static uint8_t cycle[CYCLE][KEEPER_REQUEST_SIZE];

static void set_cycle(void)
{
    request(cycle[0], KEEPER_CAPACITY, 3, 0, 72000);
    request(cycle[1], KEEPER_CAPACITY, 12, 0, 72000);
    request(cycle[2], KEEPER_CHARGE, 3, 0, 3600);
    request(cycle[3], KEEPER_MOVE, 3, 12, 3600);
    request(cycle[4], KEEPER_DISCHARGE, 12, 0, 3600);
}

static void open_book(const struct maker *m, struct book *b)
{
    memset(b, 0, sizeof *b);
    for (int i = 0; i < KEEPER_KEY_SIZE; i++)
        b->page[KEEPER_KEY_AT + i] = (uint8_t)(i * 37 + 11);
    uint32_t number = m->open(b->page, sizeof b->page, b->records[0], sizeof b->records[0]);
    if (number)
        fail("open is refused", number, 0);
}

/* Performs the requests of `count` updates, from a certain update on. Each answer is the record of the next call, in
 * the two buffers by turns, so that between the calls nothing is copied and no page is put back; an odd count ends with
 * a copy into the first buffer, and no odd count is timed. */
static NOINLINE uint32_t chain(const struct maker *m, struct book *b, size_t update, size_t count)
{
    uint32_t numbers = 0;
    size_t next = (update - 1) % CYCLE;
    for (size_t i = 0; i < count; i++) {
        numbers += m->perform(b->page, sizeof b->page, b->records[i % 2], sizeof b->records[0], cycle[next],
                              sizeof cycle[0], b->records[(i + 1) % 2], sizeof b->records[0]);
        next = next + 1 < CYCLE ? next + 1 : 0;
    }
    if (count % 2)
        memcpy(b->records[0], b->records[1], sizeof b->records[0]);
    return numbers;
}

static void perform_one(struct book *b, int kind, int rack, int other, uint32_t amount)
{
    uint8_t q[KEEPER_REQUEST_SIZE];
    request(q, kind, rack, other, amount);
    uint32_t number = peer_bearssl_perform(b->page, sizeof b->page, b->records[0], sizeof b->records[0], q, sizeof q,
                                           b->records[1], sizeof b->records[1]);
    if (number)
        fail("a request is refused", number, (unsigned long)kind);
    memcpy(b->records[0], b->records[1], sizeof b->records[0]);
}

/* A book with charge in every rack. */
static void busy_book(struct book *b)
{
    open_book(&makers[BEAR], b);
    for (int i = 0; i < KEEPER_RACKS; i++) {
        perform_one(b, KEEPER_CAPACITY, i, 0, 72000);
        perform_one(b, KEEPER_CHARGE, i, 0, 40000 + 1000 * (uint32_t)i);
    }
}

/* ---- Scenes: each function accepted, and resume in its three ways. Where resume is offered a record that is not
 * current, it is the one before, whose authenticator is valid and has to be worked out like that of the current one. */

enum { RAM = RESUME, DISK, NEITHER, SCENES };

static const struct {
    const char *name;
    uint32_t returned;
    int blocks; /* that the keeper hashes by its design: see below, at Blocks */
} about[SCENES] = {
    {"open", 0, 13},
    {"perform", 0, 25},
    {"repeat", 0, 25},
    {"view", 0, 13},
    {"view_stored", 43000, 13},
    {"view_capacity", 72000, 13},
    {"view_percent", 59, 13},
    {"view_total", 760000, 13},
    {"resume, RAM current", KEEPER_RAM, 13},
    {"resume, disk current", KEEPER_DISK, 26},
    {"resume, neither", KEEPER_NEITHER, 26},
};

static struct call scenes[SCENES];

static void lend(struct call *c, enum function function, const uint8_t *page, const uint8_t *record,
                 const uint8_t *other)
{
    memset(c, 0x77, sizeof *c);
    c->function = function;
    c->rack = 3;
    c->page_len = sizeof c->page;
    c->record_len = sizeof c->record;
    c->other_len = function == RESUME ? KEEPER_RECORD_SIZE : KEEPER_REQUEST_SIZE;
    c->answer_len = sizeof c->answer;
    memcpy(c->page, page, sizeof c->page);
    memcpy(c->record, record, sizeof c->record);
    memcpy(c->other, other, c->other_len);
}

static void set_scenes(void)
{
    static struct book fresh, before, after;
    uint8_t last[KEEPER_REQUEST_SIZE], next[KEEPER_REQUEST_SIZE];
    open_book(&makers[BEAR], &fresh);
    busy_book(&before);
    after = before;
    perform_one(&after, KEEPER_MOVE, 5, 7, 1200);
    request(last, KEEPER_MOVE, 5, 7, 1200);
    request(next, KEEPER_MOVE, 3, 12, 3600);
    const uint8_t *old = before.records[0], *now = after.records[0];

    lend(&scenes[OPEN], OPEN, fresh.page, old, next);
    lend(&scenes[PERFORM], PERFORM, after.page, now, next);
    lend(&scenes[REPEAT], REPEAT, after.page, old, last);
    for (int i = 0; i < VIEWS; i++)
        lend(&scenes[VIEW + i], (enum function)(VIEW + i), after.page, now, next);
    lend(&scenes[RAM], RESUME, after.page, now, old);
    lend(&scenes[DISK], RESUME, after.page, old, now);
    lend(&scenes[NEITHER], RESUME, after.page, old, old);
}

/* ---- Refusals: a scene, changed so that the test of a certain number is the first that it fails. */

#define TESTS(from, to) ((2u << (to)) - (1u << (from)))

/* The tests that a function makes; resume answers none by its number. */
static unsigned tests_of(enum function function)
{
    switch (function) {
    case OPEN: return TESTS(1, 2) | TESTS(13, 13);
    case PERFORM:
    case REPEAT: return TESTS(1, 11);
    case RESUME: return TESTS(1, 1) | TESTS(3, 5) | TESTS(7, 8);
    default: return TESTS(1, 1) | TESTS(3, 8);
    }
}

static void spoil_record(uint8_t *record, int number)
{
    if (number == KEEPER_REFUSED_RECORD)
        record[1] ^= 1;
    if (number == KEEPER_REFUSED_VERSION)
        record[2] ^= 1;
    if (number == KEEPER_REFUSED_STATE)
        record[KEEPER_RACKS_AT + KEEPER_STORED_AT + 3] ^= 1;
    if (number == KEEPER_REFUSED_AUTHENTICATOR)
        record[KEEPER_RECORD_SIZE - 1] ^= 1;
}

static void spoil(struct call *c, int number)
{
    uint8_t *rack = c->record + KEEPER_RACKS_AT + 3 * KEEPER_RACK_SIZE;
    spoil_record(c->record, number);
    if (c->function == RESUME)
        spoil_record(c->other, number);
    switch (number) {
    case KEEPER_REFUSED_PAGE: c->page_len--; break;
    case KEEPER_REFUSED_ANSWER: c->answer_len = KEEPER_RECORD_SIZE - 1; break;
    case KEEPER_REFUSED_REQUEST:
        c->rack = KEEPER_RACKS;
        c->other[2] ^= 1;
        break;
    case KEEPER_REFUSED_CURRENT:
    case KEEPER_REFUSED_FRESH: c->page[0] ^= 1; break;
    case KEEPER_REFUSED_CAPACITY: request(c->other, KEEPER_CHARGE, 3, 0, KEEPER_AMOUNT_MOST); break;
    case KEEPER_REFUSED_STORED: request(c->other, KEEPER_DISCHARGE, 3, 0, KEEPER_AMOUNT_MOST); break;
    case KEEPER_REFUSED_LIMIT:
        put(rack + KEEPER_CAPACITY_AT, 4, 10);
        put(rack + KEEPER_STORED_AT, 4, 0);
        put(rack + KEEPER_TAKEN_IN_AT, 8, KEEPER_COUNTED_MOST - 1);
        put(rack + KEEPER_GIVEN_OUT_AT, 8, KEEPER_COUNTED_MOST - 1);
        sign(c->page, c->record);
        request(c->other, KEEPER_CHARGE, 3, 0, 2);
        break;
    }
    if (c->function == REPEAT && number >= KEEPER_REFUSED_CAPACITY)
        move_page(c);
}

/* What a function returns when the test of a certain number is the first to fail. */
static uint32_t returned(enum function function, int number)
{
    return function <= VIEW ? (uint32_t)number : 0;
}

/* ---- The answers agree, so that what is measured is the same work. */

static unsigned long compared;

/* Makes the call by all three and compares what they return and every byte that was lent; the call is then as they
 * leave it. */
static uint32_t agreed(struct call *c)
{
    static struct call by[MAKERS];
    uint32_t number[MAKERS];
    for (int i = 0; i < MAKERS; i++) {
        memcpy(&by[i], c, sizeof *c);
        number[i] = make(&makers[i], &by[i]);
        if (number[i] != number[KEEPER])
            fail("other numbers are returned", number[KEEPER], number[i]);
        if (memcmp(&by[i], &by[KEEPER], sizeof *c))
            fail("other bytes are written", c->function, number[i]);
        compared++;
    }
    memcpy(c, &by[KEEPER], sizeof *c);
    return number[KEEPER];
}

static uint32_t below(uint32_t bound)
{
    static uint32_t state = 20250401;
    state ^= state << 13;
    state ^= state >> 17;
    state ^= state << 5;
    return state % bound;
}

static void bend(struct call *c)
{
    switch (below(8)) {
    case 0: c->page[below(sizeof c->page)] ^= (uint8_t)(1 << below(8)); break;
    case 1: c->record[below(sizeof c->record)] ^= (uint8_t)(1 << below(8)); break;
    case 2: c->other[below((uint32_t)c->other_len)] ^= (uint8_t)(1 << below(8)); break;
    case 3: c->page_len = below(sizeof c->page + 1); break;
    case 4: c->record_len = below(sizeof c->record + 1); break;
    case 5: c->other_len = below((uint32_t)c->other_len + 1); break;
    case 6: c->answer_len = sizeof c->answer - below(8); break;
    case 7: c->rack = below(20); break;
    }
}

/* One walk of random requests, and at each step every function, on what is right and on what is not quite. */
static void walk(int steps)
{
    static struct book b;
    static uint8_t old[KEEPER_RECORD_SIZE];
    static struct call c;
    uint8_t q[KEEPER_REQUEST_SIZE], last[KEEPER_REQUEST_SIZE];
    busy_book(&b);
    memcpy(old, b.records[0], sizeof old);
    request(last, KEEPER_CAPACITY, 0, 0, 0);
    for (int i = 0; i < steps; i++) {
        int kind = 1 + (int)below(4);
        request(q, kind, (int)below(16), kind == KEEPER_MOVE ? (int)below(16) : 0, below(40000));
        for (int f = OPEN; f < FUNCTIONS; f++) {
            const uint8_t *now = b.records[0];
            int usual = below(4) > 0; /* else the other record than the one that the call is for */
            lend(&c, (enum function)f, b.page, (f == REPEAT) == usual ? old : now,
                 f == REPEAT ? last : f != RESUME ? q : usual ? old : now);
            c.rack = below(16);
            if (below(3) == 0)
                bend(&c);
            agreed(&c);
        }
        lend(&c, PERFORM, b.page, b.records[0], q);
        if (agreed(&c) == KEEPER_ACCEPTED) {
            memcpy(old, b.records[0], sizeof old);
            memcpy(last, q, sizeof last);
            memcpy(b.page, c.page, sizeof b.page);
            memcpy(b.records[0], c.answer, sizeof b.records[0]);
        }
    }
}

static void agree(void)
{
    static struct call c;
    for (int s = 0; s < SCENES; s++) {
        c = scenes[s];
        uint32_t number = agreed(&c);
        if (number != about[s].returned)
            fail(about[s].name, about[s].returned, number);
        for (int n = 1; n <= KEEPER_REFUSED_FRESH; n++) {
            if (!(tests_of(scenes[s].function) >> n & 1))
                continue;
            c = scenes[s];
            spoil(&c, n);
            number = agreed(&c);
            if (number != returned(c.function, n))
                fail(about[s].name, returned(c.function, n), number);
        }
    }
    walk(1000);
    printf("Answers agree: %lu calls, of every function, accepted and with every refusal that it can have.\n",
           compared / MAKERS);
}

static void heads(const char *after)
{
    printf("| |");
    for (int i = 0; i < MAKERS; i++)
        printf(" %s |", makers[i].name);
    printf("%s\n|---|---|---|---|%s\n", after, *after ? "---|" : "");
}

/* ---- Time. */

static const struct {
    int scene;
    int calls; /* in one turn, so that a turn takes about half a millisecond */
} rows[] = {{PERFORM, 60}, {REPEAT, 60}, {VIEW, 120}, {RAM, 120}, {DISK, 60}, {NEITHER, 60}};

#define ROUNDS 500

static double seconds(void)
{
    struct timespec t;
    clock_gettime(CLOCK_MONOTONIC, &t);
    return (double)t.tv_sec + (double)t.tv_nsec * 1e-9;
}

/* Perform moves the page, so it is a chain that is timed; the other calls change nothing and are made over and over. */
static double turn(const struct maker *m, int scene, size_t calls, struct book *b, size_t update)
{
    static struct call c;
    uint32_t numbers = 0;
    memcpy(&c, &scenes[scene], sizeof c);
    double began = seconds();
    if (scene == PERFORM)
        numbers = chain(m, b, update, calls);
    else
        for (size_t i = 0; i < calls; i++)
            numbers += make(m, &c);
    double took = seconds() - began;
    if (numbers != calls * about[scene].returned)
        fail("another number is returned while timed", (unsigned long)scene, numbers);
    return took / (double)calls;
}

/* The makers take turns, so that what disturbs the machine disturbs all three, and each goes first as often as the
 * others; each one's best turn counts. */
static void times(void)
{
    static double best[COUNT(rows)][MAKERS];
    static struct book books[MAKERS];
    for (int i = 0; i < MAKERS; i++)
        busy_book(&books[i]);
    for (size_t round = 0; round < ROUNDS; round++)
        for (size_t r = 0; r < COUNT(rows); r++)
            for (size_t i = 0; i < MAKERS; i++) {
                size_t who = (round + i) % MAKERS, calls = (size_t)rows[r].calls;
                double t = turn(&makers[who], rows[r].scene, calls, &books[who], 1 + round * calls);
                if (round == 0 || t < best[r][who])
                    best[r][who] = t;
            }
    for (int i = 0; i < MAKERS; i++)
        if (memcmp(&books[i], &books[KEEPER], sizeof books[0]))
            fail("other books come of the same requests", (unsigned long)i, ROUNDS);

    double aim = 0;
    printf("\nTime of a call in ns, best of %d turns; perform in a chain. Ratio is the keeper's time / that of the"
           " faster peer:\n\n",
           ROUNDS);
    heads(" ratio |");
    for (size_t r = 0; r < COUNT(rows); r++) {
        double peer = best[r][BEAR] < best[r][MBED] ? best[r][BEAR] : best[r][MBED];
        printf("| %s |", about[rows[r].scene].name);
        for (int i = 0; i < MAKERS; i++)
            printf(" %.0f |", best[r][i] * 1e9);
        printf(" %.2f |\n", best[r][KEEPER] / peer);
        if (rows[r].scene == PERFORM)
            aim = best[r][KEEPER] / peer;
    }
    printf("\nPerform's aim is a ratio of at most 1. It is %.3f: %s.\n", aim, aim <= 1 ? "met" : "missed");
}

/* ---- Blocks. By document 01 a state hash is of 385 bytes and takes 7 blocks, a binding of 65 takes 2, a next summary
 * of 43 takes 1, and an HMAC of 32 takes 4, of which 2 are the key's pads. The keeper works the pads out once for the
 * record that is tested and the one that answers it, so that by its design perform and repeat take
 *
 *     2 + (7 + 2 + 2) + 1 + (7 + 2 + 2) = 25
 *
 * and open, view and each record that resume looks into 2 + (7 + 2 + 2) = 13.
 *
 * They are counted as well, with breakpoints: at the start of the peers' block functions, and in the keeper's code at
 * the addresses that the program is given: the instructions that have the last of the 64 round constants as an operand.
 * The hash of a message whose blocks are known says whether the count is right. */

void br_sha2small_round(const unsigned char *block, uint32_t *value);

#define BREAKPOINT 0xCC
#define ONE_STEP 0x100

static struct mark {
    uint8_t *at, code; /* and the byte of the code in whose place the breakpoint stands */
    unsigned long passed, asked;
} marks[64];
static size_t marks_set;
static struct mark *lifted;

/* At a breakpoint the code is put back for one step, and behind that step the breakpoint again. */
static void trapped(int number, siginfo_t *info, void *context)
{
    greg_t *registers = ((ucontext_t *)context)->uc_mcontext.gregs;
    (void)number;
    (void)info;
    if (lifted) {
        *lifted->at = BREAKPOINT;
        lifted = NULL;
        registers[REG_EFL] &= ~ONE_STEP;
        return;
    }
    registers[REG_RIP]--;
    for (size_t i = 0; i < marks_set && !lifted; i++)
        if (marks[i].at == (uint8_t *)registers[REG_RIP])
            lifted = &marks[i];
    if (!lifted)
        abort();
    lifted->passed++;
    lifted->asked += (unsigned long)(registers[REG_RDI] * registers[REG_RSI]); /* bytes, if this is calloc */
    *lifted->at = lifted->code;
    registers[REG_EFL] |= ONE_STEP;
}

static int set_mark(uintptr_t at)
{
    uintptr_t size = (uintptr_t)sysconf(_SC_PAGESIZE);
    struct mark *m = &marks[marks_set];
    if (marks_set == COUNT(marks) || mprotect((void *)(at & -size), size, PROT_READ | PROT_WRITE | PROT_EXEC))
        return 0;
    m->at = (uint8_t *)at;
    m->code = *m->at;
    *m->at = BREAKPOINT;
    marks_set++;
    return 1;
}

static unsigned long blocks_passed(void)
{
    unsigned long sum = 0;
    for (size_t i = 1; i < marks_set; i++)
        sum += marks[i].passed;
    return sum;
}

/* The first mark is at calloc, and the others where blocks are hashed. */
static int set_marks(char **addresses)
{
    struct sigaction action;
    memset(&action, 0, sizeof action);
    action.sa_sigaction = trapped;
    action.sa_flags = SA_SIGINFO;
    int good = !sigaction(SIGTRAP, &action, NULL) && set_mark((uintptr_t)calloc) &&
               set_mark((uintptr_t)br_sha2small_round) && set_mark((uintptr_t)mbedtls_internal_sha256_process);
    for (; good && *addresses; addresses++)
        good = set_mark(strtoul(*addresses, NULL, 0));

    uint8_t message[385] = {0}, digest[32];
    unsigned long before = blocks_passed();
    hash(1, message, 384, message, 0, digest);
    unsigned long between = blocks_passed();
    return good && mbedtls_sha256(message, 385, digest, 0) == 0 && between - before == 7 &&
           blocks_passed() - between == 7;
}

static void count_blocks(char **addresses)
{
    static struct call c;
    unsigned long counted[SCENES][MAKERS], bytes = 0, pieces = 0;
    int good = set_marks(addresses);
    for (int s = 0; s < SCENES; s++)
        for (int i = 0; i < MAKERS; i++) {
            memcpy(&c, &scenes[s], sizeof c);
            unsigned long before = blocks_passed();
            marks[0].passed = marks[0].asked = 0;
            good &= make(&makers[i], &c) == about[s].returned;
            counted[s][i] = blocks_passed() - before;
            if (s == VIEW && i == MBED) {
                bytes = marks[0].asked;
                pieces = marks[0].passed;
            }
        }
    printf("\nBlocks of SHA-256 that a call hashes, counted with breakpoints, and the keeper's by its design:\n\n");
    heads(" keeper, by design |");
    for (int s = 0; s < SCENES; s++) {
        if (s > VIEW && s < RESUME)
            continue;
        printf("| %s |", about[s].name);
        for (int i = 0; i < MAKERS; i++)
            if (good && counted[s][i])
                printf(" %lu |", counted[s][i]);
            else
                printf(" not counted |");
        printf(" %d |\n", about[s].blocks);
    }
    printf("\nEach figure of view takes what view takes.\n");
    if (good)
        printf("mbedTLS also asks for %lu bytes of the heap, in %lu pieces, for each key that it makes ready.\n", bytes,
               pieces);
    else
        printf("The count was not right on this machine, and is left out.\n");
}

/* In a process of its own, so that what is timed is never code that breakpoints have stood in. */
static void blocks(char **addresses)
{
    int status = 0;
    fflush(stdout);
    pid_t child = fork();
    if (child == 0) {
        count_blocks(addresses);
        fflush(stdout);
        _exit(0);
    }
    if (child < 0 || waitpid(child, &status, 0) != child || status != 0)
        printf("\nThe blocks of SHA-256 could not be counted on this machine.\n");
}

/* ---- The length of the history. */

static const size_t updates[] = {1, 1000, 10000, 100000};

#define BATCH 50
#define BATCHES 300

/* One chain from the first record on is kept as it stands before each of these updates; from there, over and over, a
 * batch is timed, that update and those after it. The four places take turns. */
static void history(void)
{
    static struct book chains[MAKERS], kept[COUNT(updates)], b;
    double best[COUNT(updates)];
    for (int i = 0; i < MAKERS; i++) {
        size_t update = 1;
        open_book(&makers[i], &chains[i]);
        for (size_t u = 0; u < COUNT(updates); u++) {
            uint32_t numbers = chain(&makers[i], &chains[i], update, updates[u] - update);
            if (numbers)
                fail("a request of the chain is refused", u, numbers);
            update = updates[u];
            if (i == KEEPER)
                kept[u] = chains[i];
            else if (memcmp(&kept[u], &chains[i], sizeof b))
                fail("other books come of the same chain", (unsigned long)i, updates[u]);
        }
    }
    for (int round = 0; round < BATCHES; round++)
        for (size_t u = 0; u < COUNT(updates); u++) {
            b = kept[u];
            double t = turn(&makers[KEEPER], PERFORM, BATCH, &b, updates[u]);
            if (round == 0 || t < best[u])
                best[u] = t;
        }
    printf("\nThe keeper's perform against the length of the history, in one chain, ns a call, best of %d batches of"
           " %d from that update on:\n\n| update | ns | beside the first |\n|---|---|---|\n",
           BATCHES, BATCH);
    for (size_t u = 0; u < COUNT(updates); u++)
        printf("| %zu | %.0f | %.2f |\n", updates[u], best[u] * 1e9, best[u] / best[0]);
}

/* ---- Stack. The room below the caller is painted, the call is made, and the lowest byte that changed is found. */

#define ROOM 8192

/* Read anew each time, so that no register holds it that the call might save on the stack: it would not show there. */
static volatile uint8_t colour;

/* How far below this function's own stack pointer the call reaches: what it passes on the stack, and the return
 * address, are counted. What this function keeps is above: it makes calls, and so has a frame. */
static NOINLINE size_t depth_by(const struct maker *m, struct call *c)
{
    volatile uint8_t *here;
    __asm__ volatile("mov %%rsp, %0" : "=r"(here)::"memory");
    for (volatile uint8_t *at = here - ROOM; at < here; at++)
        *at = colour;
    make(m, c);
    volatile uint8_t *lowest = here - ROOM;
    while (lowest < here && *lowest == colour)
        lowest++;
    if (lowest == here - ROOM)
        fail("a call goes deeper than is painted", ROOM, 0);
    return (size_t)(here - lowest);
}

/* Two colours, so that a byte that happens to be left in the one shows in the other. */
static size_t depth(const struct maker *m, const struct call *call)
{
    static struct call c;
    static const uint8_t colours[] = {0xA5, 0x5A};
    size_t most = 0;
    for (size_t i = 0; i < COUNT(colours); i++) {
        memcpy(&c, call, sizeof c);
        colour = colours[i];
        size_t d = depth_by(m, &c);
        if (d > most)
            most = d;
    }
    return most;
}

/* The deepest of a function's scenes, or of all its refusals; for resume, neither is counted with the refusals. */
static size_t deepest(const struct maker *m, int function, int refused)
{
    static struct call c;
    size_t most = 0;
    for (int s = 0; s < SCENES; s++) {
        if ((int)scenes[s].function != function)
            continue;
        for (int n = 0; n <= KEEPER_REFUSED_FRESH; n++) {
            if (n > 0 && !(tests_of(scenes[s].function) >> n & 1))
                continue;
            if (refused != (n > 0 || s == NEITHER))
                continue;
            c = scenes[s];
            if (n > 0)
                spoil(&c, n);
            size_t d = depth(m, &c);
            if (d > most)
                most = d;
        }
    }
    return most;
}

static void depths(void)
{
    printf("\nStack of a call in bytes, by painting: accepted / the deepest of its refusals, for resume of the ways to"
           " neither. The return address and what is passed on the stack are counted, and the peers' contexts:\n\n");
    heads("");
    for (int f = 0; f < FUNCTIONS; f++) {
        printf("| %s |", f == RESUME ? "resume" : about[f].name);
        for (int i = 0; i < MAKERS; i++)
            printf(" %zu / %zu |", deepest(&makers[i], f, 0), deepest(&makers[i], f, 1));
        printf("\n");
    }
}

int main(int argc, char **argv)
{
    (void)argc;
    set_cycle();
    set_scenes();
    agree();
    times();
    blocks(argv + 1);
    history();
    depths();
    return 0;
}
