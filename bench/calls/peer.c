/*
 * A plain C keeper, to measure the proved one against. PEER_NAME is what its functions are called by, and one of
 * PEER_BEARSSL and PEER_MBEDTLS says whose SHA-256 and HMAC it stands on:
 *
 *     gcc -c -O2 -DPEER_NAME=peer_bearssl -DPEER_BEARSSL peer.c
 *     gcc -c -O2 -DPEER_NAME=peer_mbedtls -DPEER_MBEDTLS peer.c
 */
#include <stdlib.h>
#include <string.h>

#include "peer.h"

#define JOIN_(name, function) name##_##function
#define JOIN(name, function) JOIN_(name, function)
#define PEER(function) JOIN(PEER_NAME, function)
#define DECLARE(name) PEER_FUNCTIONS(name)
DECLARE(PEER_NAME);

/* ---- The hash of a tag and two pieces, and the MAC under a key that is made ready once for the two MACs of a perform,
 * as far as the library lets it be. */

#if defined PEER_BEARSSL

#include <bearssl.h>

static void hash(uint8_t tag, const uint8_t *a, size_t a_len, const uint8_t *b, size_t b_len, uint8_t *out)
{
    br_sha256_context c;
    br_sha256_init(&c);
    br_sha256_update(&c, &tag, 1);
    br_sha256_update(&c, a, a_len);
    br_sha256_update(&c, b, b_len);
    br_sha256_out(&c, out);
}

typedef br_hmac_key_context mac_key;

static void mac_begin(mac_key *k, const uint8_t *key, size_t key_len)
{
    br_hmac_key_init(k, &br_sha256_vtable, key, key_len);
}

static void mac(mac_key *k, const uint8_t *message, size_t len, uint8_t *out)
{
    br_hmac_context c;
    br_hmac_init(&c, k, 0);
    br_hmac_update(&c, message, len);
    br_hmac_out(&c, out);
}

static void mac_end(mac_key *k)
{
    (void)k;
}

#elif defined PEER_MBEDTLS

#include <mbedtls/md.h>
#include <mbedtls/sha256.h>
#include <mbedtls/version.h>

#if MBEDTLS_VERSION_MAJOR < 3
#define mbedtls_sha256_starts mbedtls_sha256_starts_ret
#define mbedtls_sha256_update mbedtls_sha256_update_ret
#define mbedtls_sha256_finish mbedtls_sha256_finish_ret
#endif

/* A failure of the library is no answer of the keeper's: it stops the program, and no book is kept on it. */
static void must(int failure)
{
    if (failure)
        abort();
}

static void hash(uint8_t tag, const uint8_t *a, size_t a_len, const uint8_t *b, size_t b_len, uint8_t *out)
{
    mbedtls_sha256_context c;
    mbedtls_sha256_init(&c);
    must(mbedtls_sha256_starts(&c, 0));
    must(mbedtls_sha256_update(&c, &tag, 1));
    must(mbedtls_sha256_update(&c, a, a_len));
    must(mbedtls_sha256_update(&c, b, b_len));
    must(mbedtls_sha256_finish(&c, out));
    mbedtls_sha256_free(&c);
}

typedef struct {
    mbedtls_md_context_t context;
    const uint8_t *key;
    size_t key_len;
} mac_key;

static void mac_begin(mac_key *k, const uint8_t *key, size_t key_len)
{
    mbedtls_md_init(&k->context);
    must(mbedtls_md_setup(&k->context, mbedtls_md_info_from_type(MBEDTLS_MD_SHA256), 1));
    k->key = key;
    k->key_len = key_len;
}

/* Starting anew with the key costs no more than the library's reset, which hashes the inner pad again as well. */
static void mac(mac_key *k, const uint8_t *message, size_t len, uint8_t *out)
{
    must(mbedtls_md_hmac_starts(&k->context, k->key, k->key_len));
    must(mbedtls_md_hmac_update(&k->context, message, len));
    must(mbedtls_md_hmac_finish(&k->context, out));
}

static void mac_end(mac_key *k)
{
    mbedtls_md_free(&k->context);
}

#else
#error "one of PEER_BEARSSL and PEER_MBEDTLS"
#endif

/* ---- Layouts. */

enum {
    RACKS = 16,
    RACK_SIZE = 24,
    HASH_SIZE = 32,
    STATE_SIZE = RACKS * RACK_SIZE,
    KEY_AT = HASH_SIZE,
    PAGE_SIZE = HASH_SIZE + HASH_SIZE,
    STATE_AT = 3,
    SUMMARY_AT = STATE_AT + STATE_SIZE,
    AUTHENTICATOR_AT = SUMMARY_AT + HASH_SIZE,
    RECORD_SIZE = AUTHENTICATOR_AT + HASH_SIZE,
    REQUEST_SIZE = 10
};

enum { OF_STATE = 1, OF_SUMMARY = 2, OF_BINDING = 3 };
enum { CAPACITY = 1, CHARGE = 2, DISCHARGE = 3, MOVE = 4 };

#define AMOUNT_MOST 100000000u
#define COUNTED_MOST 1000000000000000u

struct rack {
    uint32_t capacity, stored;
    uint64_t taken_in, given_out;
};

struct request {
    uint8_t kind, rack, other;
    uint32_t amount;
};

static uint32_t get32(const uint8_t *p)
{
    return (uint32_t)p[0] << 24 | (uint32_t)p[1] << 16 | (uint32_t)p[2] << 8 | p[3];
}

static uint64_t get64(const uint8_t *p)
{
    return (uint64_t)get32(p) << 32 | get32(p + 4);
}

static void put32(uint8_t *p, uint32_t n)
{
    p[0] = (uint8_t)(n >> 24);
    p[1] = (uint8_t)(n >> 16);
    p[2] = (uint8_t)(n >> 8);
    p[3] = (uint8_t)n;
}

static void put64(uint8_t *p, uint64_t n)
{
    put32(p, (uint32_t)(n >> 32));
    put32(p + 4, (uint32_t)n);
}

static struct rack get_rack(const uint8_t *record, uint32_t i)
{
    const uint8_t *p = record + STATE_AT + i * RACK_SIZE;
    struct rack r = {get32(p), get32(p + 4), get64(p + 8), get64(p + 16)};
    return r;
}

static void put_rack(uint8_t *record, uint32_t i, struct rack r)
{
    uint8_t *p = record + STATE_AT + i * RACK_SIZE;
    put32(p, r.capacity);
    put32(p + 4, r.stored);
    put64(p + 8, r.taken_in);
    put64(p + 16, r.given_out);
}

/* Without an early exit, so that the time taken does not tell how much of an authenticator was right. */
static int same(const uint8_t *a, const uint8_t *b)
{
    uint8_t difference = 0;
    for (int i = 0; i < HASH_SIZE; i++)
        difference |= a[i] ^ b[i];
    return difference == 0;
}

/* ---- What is hashed. */

static void authenticator(mac_key *k, const uint8_t *record, uint8_t *out)
{
    uint8_t state_hash[HASH_SIZE], binding[HASH_SIZE];
    hash(OF_STATE, record + STATE_AT, STATE_SIZE, record, 0, state_hash);
    hash(OF_BINDING, record + SUMMARY_AT, HASH_SIZE, state_hash, HASH_SIZE, binding);
    mac(k, binding, HASH_SIZE, out);
}

static void next_summary(const uint8_t *summary, const uint8_t *request, uint8_t *out)
{
    hash(OF_SUMMARY, summary, HASH_SIZE, request, REQUEST_SIZE, out);
}

/* ---- The tests, each with its number of refusal, or 0. */

/* 3, 4, 5 */
static uint32_t test_record(const uint8_t *record, size_t len)
{
    if (len != RECORD_SIZE || record[0] != (RECORD_SIZE - 2) >> 8 || record[1] != ((RECORD_SIZE - 2) & 255))
        return 3;
    if (record[2] != 1)
        return 4;
    for (uint32_t i = 0; i < RACKS; i++) {
        struct rack r = get_rack(record, i);
        if (r.capacity > AMOUNT_MOST || r.stored > r.capacity || r.taken_in > COUNTED_MOST ||
            r.given_out > r.taken_in || r.stored != r.taken_in - r.given_out)
            return 5;
    }
    return 0;
}

/* 6 */
static uint32_t test_request(const uint8_t *p, size_t len, struct request *q)
{
    if (len != REQUEST_SIZE || p[0] != 0 || p[1] != REQUEST_SIZE - 2 || p[2] != 1)
        return 6;
    q->kind = p[3];
    q->rack = p[4];
    q->other = p[5];
    q->amount = get32(p + 6);
    if (q->kind < CAPACITY || q->kind > MOVE || q->rack >= RACKS || q->amount > AMOUNT_MOST)
        return 6;
    if (q->kind == MOVE ? q->other >= RACKS || q->other == q->rack : q->other != 0)
        return 6;
    return q->amount == 0 && q->kind != CAPACITY ? 6 : 0;
}

/* 7 */
static uint32_t test_authenticator(mac_key *k, const uint8_t *record)
{
    uint8_t right[HASH_SIZE];
    authenticator(k, record, right);
    return same(right, record + AUTHENTICATOR_AT) ? 0 : 7;
}

/* 9, 10, 11, and otherwise the one or two racks as they are to be. */
static uint32_t apply(const struct request *q, struct rack *rack, struct rack *other)
{
    struct rack *from = q->kind == DISCHARGE || q->kind == MOVE ? rack : NULL;
    struct rack *to = q->kind == CHARGE ? rack : q->kind == MOVE ? other : NULL;

    if (q->kind == CAPACITY && q->amount < rack->stored)
        return 9;
    if (to && q->amount > to->capacity - to->stored)
        return 9;
    if (from && q->amount > from->stored)
        return 10;
    if ((to && q->amount > COUNTED_MOST - to->taken_in) || (from && q->amount > COUNTED_MOST - from->given_out))
        return 11;
    if (q->kind == CAPACITY)
        rack->capacity = q->amount;
    if (from) {
        from->stored -= q->amount;
        from->given_out += q->amount;
    }
    if (to) {
        to->stored += q->amount;
        to->taken_in += q->amount;
    }
    return 0;
}

/* ---- The calls. */

uint32_t PEER(open)(const uint8_t *page, size_t page_len, uint8_t *answer, size_t answer_len)
{
    static const uint8_t header[STATE_AT] = {(RECORD_SIZE - 2) >> 8, (RECORD_SIZE - 2) & 255, 1};
    static const uint8_t zero[HASH_SIZE];
    mac_key k;

    if (page_len != PAGE_SIZE)
        return 1;
    if (answer_len < RECORD_SIZE)
        return 2;
    if (!same(page, zero))
        return 13;
    memcpy(answer, header, STATE_AT);
    memset(answer + STATE_AT, 0, STATE_SIZE + HASH_SIZE);
    mac_begin(&k, page + KEY_AT, HASH_SIZE);
    authenticator(&k, answer, answer + AUTHENTICATOR_AT);
    mac_end(&k);
    return 0;
}

/* The tests from 7 on and the answer, once the forms are known to be good: the record's summary, moved on by the
 * request where the call is a repeat, must be the page's. */
static uint32_t update(const uint8_t *page, mac_key *k, const uint8_t *record, const uint8_t *request,
                       const struct request *q, int repeats, uint8_t *answer)
{
    uint8_t next[HASH_SIZE];
    struct rack rack = get_rack(record, q->rack), other = get_rack(record, q->other);
    uint32_t number = test_authenticator(k, record);

    if (number)
        return number;
    next_summary(record + SUMMARY_AT, request, next);
    if (!same(repeats ? next : record + SUMMARY_AT, page))
        return 8;
    number = apply(q, &rack, &other);
    if (number)
        return number;
    memcpy(answer, record, SUMMARY_AT);
    put_rack(answer, q->rack, rack);
    if (q->kind == MOVE)
        put_rack(answer, q->other, other);
    memcpy(answer + SUMMARY_AT, next, HASH_SIZE);
    authenticator(k, answer, answer + AUTHENTICATOR_AT);
    return 0;
}

static uint32_t perform_or_repeat(const uint8_t *page, size_t page_len, const uint8_t *record, size_t record_len,
                                  const uint8_t *request, size_t request_len, int repeats, uint8_t *answer,
                                  size_t answer_len)
{
    struct request q;
    mac_key k;
    uint32_t number;

    if (page_len != PAGE_SIZE)
        return 1;
    if (answer_len < RECORD_SIZE)
        return 2;
    number = test_record(record, record_len);
    if (number)
        return number;
    number = test_request(request, request_len, &q);
    if (number)
        return number;
    mac_begin(&k, page + KEY_AT, HASH_SIZE);
    number = update(page, &k, record, request, &q, repeats, answer);
    mac_end(&k);
    return number;
}

uint32_t PEER(perform)(uint8_t *page, size_t page_len, const uint8_t *record, size_t record_len, const uint8_t *request,
                       size_t request_len, uint8_t *answer, size_t answer_len)
{
    uint32_t number =
        perform_or_repeat(page, page_len, record, record_len, request, request_len, 0, answer, answer_len);

    /* The page moves last, when the answer stands whole. */
    if (number == 0)
        memcpy(page, answer + SUMMARY_AT, HASH_SIZE);
    return number;
}

uint32_t PEER(repeat)(const uint8_t *page, size_t page_len, const uint8_t *record, size_t record_len,
                      const uint8_t *request, size_t request_len, uint8_t *answer, size_t answer_len)
{
    return perform_or_repeat(page, page_len, record, record_len, request, request_len, 1, answer, answer_len);
}

/* 7 and 8 */
static uint32_t test_current(const uint8_t *page, const uint8_t *record)
{
    mac_key k;
    uint32_t number;

    mac_begin(&k, page + KEY_AT, HASH_SIZE);
    number = test_authenticator(&k, record);
    mac_end(&k);
    if (number)
        return number;
    return same(record + SUMMARY_AT, page) ? 0 : 8;
}

static uint64_t total(const uint8_t *record)
{
    uint64_t sum = 0;
    for (uint32_t i = 0; i < RACKS; i++)
        sum += get_rack(record, i).stored;
    return sum;
}

PEER_VIEW(PEER(view))
{
    uint32_t number;

    if (page_len != PAGE_SIZE)
        return 1;
    number = test_record(record, record_len);
    if (number)
        return number;
    if (rack >= RACKS)
        return 6;
    number = test_current(page, record);
    if (number)
        return number;
    return total(record) > UINT32_MAX ? 12 : 0;
}

PEER_VIEW(PEER(view_stored))
{
    return PEER(view)(page, page_len, record, record_len, rack) ? 0 : get_rack(record, rack).stored;
}

PEER_VIEW(PEER(view_capacity))
{
    return PEER(view)(page, page_len, record, record_len, rack) ? 0 : get_rack(record, rack).capacity;
}

PEER_VIEW(PEER(view_percent))
{
    struct rack r;

    if (PEER(view)(page, page_len, record, record_len, rack))
        return 0;
    r = get_rack(record, rack);
    return r.capacity ? (uint32_t)(100 * (uint64_t)r.stored / r.capacity) : 0;
}

PEER_VIEW(PEER(view_total))
{
    return PEER(view)(page, page_len, record, record_len, rack) ? 0 : (uint32_t)total(record);
}

static int is_current(const uint8_t *page, size_t page_len, const uint8_t *record, size_t record_len)
{
    return page_len == PAGE_SIZE && test_record(record, record_len) == 0 && test_current(page, record) == 0;
}

uint32_t PEER(resume)(const uint8_t *page, size_t page_len, const uint8_t *ram, size_t ram_len, const uint8_t *disk,
                      size_t disk_len)
{
    if (is_current(page, page_len, ram, ram_len))
        return 1;
    return is_current(page, page_len, disk, disk_len) ? 2 : 0;
}
