/*
 * SHA-256 and HMAC-SHA-256 of crates/hash_c beside BearSSL and mbedTLS: that the answers agree, how long each takes,
 * and how deep each goes on the stack. For x86-64.
 */
#include <stdio.h>
#include <stdlib.h>
#include <string.h>
#include <time.h>

#include <bearssl.h>
#include <mbedtls/md.h>
#include <mbedtls/sha256.h>
#include <mbedtls/version.h>

#include "hash_c.h"

#if MBEDTLS_VERSION_MAJOR < 3
#define mbedtls_sha256 mbedtls_sha256_ret
#define mbedtls_sha256_starts mbedtls_sha256_starts_ret
#define mbedtls_sha256_update mbedtls_sha256_update_ret
#define mbedtls_sha256_finish mbedtls_sha256_finish_ret
#endif

#define NOINLINE __attribute__((noinline))
#define LONGEST 65536

static uint8_t data[LONGEST + 1];

/* ---- The three makers, each by its own calls: a message in one piece, in two, and a MAC. */

struct maker {
    const char *name;
    void (*whole)(const uint8_t *m, size_t n, uint8_t *out);
    void (*pieces)(const uint8_t *a, size_t an, const uint8_t *b, size_t bn, uint8_t *out);
    void (*mac)(const uint8_t *k, size_t kn, const uint8_t *m, size_t n, uint8_t *out);
};

static NOINLINE void ours_whole(const uint8_t *m, size_t n, uint8_t *out)
{
    hash_sha256(m, n, m, 0, m, 0, out, 32);
}

static NOINLINE void ours_pieces(const uint8_t *a, size_t an, const uint8_t *b, size_t bn, uint8_t *out)
{
    hash_sha256(a, an, b, bn, b, 0, out, 32);
}

static NOINLINE void ours_mac(const uint8_t *k, size_t kn, const uint8_t *m, size_t n, uint8_t *out)
{
    hash_hmac(k, kn, m, n, m, 0, out, 32);
}

static NOINLINE void bear_whole(const uint8_t *m, size_t n, uint8_t *out)
{
    br_sha256_context c;
    br_sha256_init(&c);
    br_sha256_update(&c, m, n);
    br_sha256_out(&c, out);
}

static NOINLINE void bear_pieces(const uint8_t *a, size_t an, const uint8_t *b, size_t bn, uint8_t *out)
{
    br_sha256_context c;
    br_sha256_init(&c);
    br_sha256_update(&c, a, an);
    br_sha256_update(&c, b, bn);
    br_sha256_out(&c, out);
}

static NOINLINE void bear_mac(const uint8_t *k, size_t kn, const uint8_t *m, size_t n, uint8_t *out)
{
    br_hmac_key_context key;
    br_hmac_context c;
    br_hmac_key_init(&key, &br_sha256_vtable, k, kn);
    br_hmac_init(&c, &key, 0);
    br_hmac_update(&c, m, n);
    br_hmac_out(&c, out);
}

static NOINLINE void mbed_whole(const uint8_t *m, size_t n, uint8_t *out)
{
    mbedtls_sha256(m, n, out, 0);
}

static NOINLINE void mbed_pieces(const uint8_t *a, size_t an, const uint8_t *b, size_t bn, uint8_t *out)
{
    mbedtls_sha256_context c;
    mbedtls_sha256_init(&c);
    mbedtls_sha256_starts(&c, 0);
    mbedtls_sha256_update(&c, a, an);
    mbedtls_sha256_update(&c, b, bn);
    mbedtls_sha256_finish(&c, out);
    mbedtls_sha256_free(&c);
}

static NOINLINE void mbed_mac(const uint8_t *k, size_t kn, const uint8_t *m, size_t n, uint8_t *out)
{
    mbedtls_md_hmac(mbedtls_md_info_from_type(MBEDTLS_MD_SHA256), k, kn, m, n, out);
}

enum { OURS, BEAR, MBED, MAKERS };

static const struct maker makers[MAKERS] = {
    {"ours", ours_whole, ours_pieces, ours_mac},
    {"BearSSL", bear_whole, bear_pieces, bear_mac},
    {"mbedTLS", mbed_whole, mbed_pieces, mbed_mac},
};

/* ---- The answers agree, so that what is timed is the same work. */

static void fail(const char *what, size_t i, size_t j)
{
    printf("%s: answers differ at %zu, %zu\n", what, i, j);
    exit(1);
}

static void agree(void)
{
    uint8_t out[MAKERS][32];
    size_t hashes = 0, macs = 0;
    for (size_t i = 0; i <= 400; i++) {
        size_t n = i < 300 ? i : LONGEST - (400 - i) * 649; /* each short length, and longer ones up to the bound */
        for (int j = 0; j < MAKERS; j++)
            makers[j].whole(data, n, out[j]);
        if (memcmp(out[OURS], out[BEAR], 32) || memcmp(out[OURS], out[MBED], 32))
            fail("hash", n, 0);
        size_t cuts[] = {0, 1, n / 3, n - 1};
        for (size_t j = 0; j < sizeof cuts / sizeof *cuts; j++) {
            size_t a = cuts[j] <= n ? cuts[j] : n, b = (n - a) / 2;
            uint8_t d[32];
            hash_sha256(data, a, data + a, b, data + a + b, n - a - b, d, sizeof d);
            if (memcmp(out[OURS], d, 32))
                fail("hash in pieces", n, a);
            hashes++;
        }
    }
    for (size_t k = 0; k <= 256; k++)
        for (size_t n = 0; n < 200; n += 13) {
            for (int i = 0; i < MAKERS; i++)
                makers[i].mac(data, k, data + 256, n, out[i]);
            if (memcmp(out[OURS], out[BEAR], 32) || memcmp(out[OURS], out[MBED], 32))
                fail("MAC", k, n);
            macs++;
        }
    printf("Answers agree: %zu digests and %zu MACs.\n", hashes, macs);
}

/* What is out of bounds is refused, and nothing is written; nor is a byte behind the answer. */
static void refused(const char *what, uint32_t answer, const uint8_t *out)
{
    for (int i = 0; i < 33; i++)
        if (answer != 1 || out[i] != 0x77) {
            printf("%s: not refused, or written\n", what);
            exit(1);
        }
}

static void bounds(void)
{
    uint8_t out[33];
    memset(out, 0x77, sizeof out);
    refused("a too long", hash_sha256(data, LONGEST + 1, data, 0, data, 0, out, 32), out);
    refused("b too long", hash_sha256(data, 1, data, LONGEST, data, 0, out, 32), out);
    refused("c too long", hash_sha256(data, 1, data, 1, data, LONGEST - 1, out, 32), out);
    refused("out too short", hash_sha256(data, 1, data, 1, data, 1, out, 31), out);
    refused("key too long", hash_hmac(data, 257, data, 0, data, 0, out, 32), out);
    refused("a too long for a MAC", hash_hmac(data, 1, data, 65473, data, 0, out, 32), out);
    refused("b too long for a MAC", hash_hmac(data, 1, data, 1, data, 65472, out, 32), out);
    refused("out too short for a MAC", hash_hmac(data, 1, data, 1, data, 1, out, 31), out);
    if (hash_sha256(data, 1, data, 1, data, LONGEST - 2, out, 33) || out[32] != 0x77 ||
        hash_hmac(data, 256, data, 1, data, 65471, out, 33) || out[32] != 0x77) {
        printf("at the bounds: refused, or a byte written behind the answer\n");
        exit(1);
    }
}

/* ---- Time. */

enum work { WHOLE, PIECES, MAC };

struct row {
    const char *name;
    enum work work;
    size_t bytes;
    int calls; /* in one turn, so that a turn takes about a millisecond */
};

static const struct row rows[] = {
    {"hash, 385 bytes", WHOLE, 385, 500},
    {"hash, 1 + 384 bytes", PIECES, 385, 500},
    {"hash, 16 KiB", WHOLE, 16384, 12},
    {"MAC, 32 bytes, key of 32", MAC, 32, 800},
};

#define ROWS (sizeof rows / sizeof *rows)
#define ROUNDS 300

static double seconds(void)
{
    struct timespec t;
    clock_gettime(CLOCK_MONOTONIC, &t);
    return t.tv_sec + t.tv_nsec * 1e-9;
}

static double turn(const struct maker *maker, const struct row *row)
{
    uint8_t out[32];
    double began = seconds();
    for (int i = 0; i < row->calls; i++)
        switch (row->work) {
        case WHOLE: maker->whole(data, row->bytes, out); break;
        case PIECES: maker->pieces(data, 1, data + 1, row->bytes - 1, out); break;
        case MAC: maker->mac(data, 32, data + 32, row->bytes, out); break;
        }
    return (seconds() - began) / row->calls;
}

/* The makers take turns, so that what disturbs the machine disturbs all three; each one's best turn counts. */
static void times(void)
{
    static double best[ROWS][MAKERS];
    for (int round = 0; round < ROUNDS; round++)
        for (size_t r = 0; r < ROWS; r++)
            for (int i = 0; i < MAKERS; i++) {
                double t = turn(&makers[i], &rows[r]);
                if (round == 0 || t < best[r][i])
                    best[r][i] = t;
            }
    printf("\nTime of a call, best of %d turns, and the speed of ours / that of the faster peer:\n\n%-26s", ROUNDS, "");
    for (int i = 0; i < MAKERS; i++)
        printf("%21s", makers[i].name);
    printf("%16s\n", "ours / faster");
    for (size_t r = 0; r < ROWS; r++) {
        printf("%-26s", rows[r].name);
        for (int i = 0; i < MAKERS; i++)
            printf("%8.0f ns %4.0f MB/s", best[r][i] * 1e9, rows[r].bytes / best[r][i] / 1e6);
        double peer = best[r][BEAR] < best[r][MBED] ? best[r][BEAR] : best[r][MBED];
        printf("%16.2f\n", peer / best[r][OURS]);
    }
}

/* ---- Stack. The room below the caller is painted, the call is made, and the lowest byte that changed is found. */

#define ROOM 8192

/* Where the painted room began, as a number, since the room is gone once this has returned. */
static NOINLINE uintptr_t paint(uint8_t colour)
{
    volatile uint8_t room[ROOM];
    for (size_t i = 0; i < ROOM; i++)
        room[i] = colour;
    return (uintptr_t)room;
}

static NOINLINE size_t changed(uintptr_t lowest, uintptr_t here, uint8_t colour)
{
    uintptr_t at = lowest;
    while (at < here && *(volatile uint8_t *)at == colour)
        at++;
    if (at == lowest) {
        printf("a call goes deeper than %d bytes, and was not measured\n", ROOM);
        exit(1);
    }
    return here - at;
}

/* How far below this function's own stack pointer the call reaches: what it passes on the stack, and the return
 * address, are counted. Two colours, so that a byte that happens to be left in the one shows in the other. */
#define DEPTH(name, call)                                                                                              \
    static NOINLINE size_t name(void)                                                                                  \
    {                                                                                                                  \
        static uint8_t out[32];                                                                                        \
        static const uint8_t colours[] = {0xA5, 0x5A};                                                                 \
        size_t deepest = 0;                                                                                            \
        for (int i = 0; i < 2; i++) {                                                                                  \
            uintptr_t here, lowest = paint(colours[i]);                                                                \
            __asm__ volatile("mov %%rsp, %0" : "=r"(here)::"memory");                                                  \
            call;                                                                                                      \
            size_t depth = changed(lowest, here, colours[i]);                                                          \
            if (depth > deepest)                                                                                       \
                deepest = depth;                                                                                       \
        }                                                                                                              \
        return deepest;                                                                                                \
    }

DEPTH(depth_hash, hash_sha256(data, 1, data + 1, 384, data, 0, out, sizeof out))
DEPTH(depth_mac, hash_hmac(data, 32, data + 32, 32, data, 0, out, sizeof out))
DEPTH(depth_mac_long_key, hash_hmac(data, 256, data + 256, 32, data, 0, out, sizeof out))
DEPTH(depth_bear_hash, bear_pieces(data, 1, data + 1, 384, out))
DEPTH(depth_bear_mac, bear_mac(data, 32, data + 32, 32, out))
DEPTH(depth_bear_mac_long_key, bear_mac(data, 256, data + 256, 32, out))
DEPTH(depth_mbed_hash, mbed_pieces(data, 1, data + 1, 384, out))
DEPTH(depth_mbed_mac, mbed_mac(data, 32, data + 32, 32, out))
DEPTH(depth_mbed_mac_long_key, mbed_mac(data, 256, data + 256, 32, out))

static void depths(void)
{
    static const struct {
        const char *name;
        size_t (*depth[MAKERS])(void);
    } calls[] = {
        {"hash, 1 + 384 bytes", {depth_hash, depth_bear_hash, depth_mbed_hash}},
        {"MAC, 32 bytes, key of 32", {depth_mac, depth_bear_mac, depth_mbed_mac}},
        {"MAC, 32 bytes, key of 256", {depth_mac_long_key, depth_bear_mac_long_key, depth_mbed_mac_long_key}},
    };
    printf("\nStack of a call in bytes, by painting; the peers' with the context that their caller holds:\n\n%-26s", "");
    for (int i = 0; i < MAKERS; i++)
        printf("%21s", makers[i].name);
    printf("\n");
    for (size_t r = 0; r < sizeof calls / sizeof *calls; r++) {
        printf("%-26s", calls[r].name);
        for (int i = 0; i < MAKERS; i++)
            printf("%21zu", calls[r].depth[i]());
        printf("\n");
    }
}

int main(void)
{
    for (size_t i = 0; i < sizeof data; i++)
        data[i] = (uint8_t)(i * i / 7 + 13 * i + 1);
    agree();
    bounds();
    times();
    depths();
    return 0;
}
