/*
 * A plain C keeper, to measure the proved one against: the functions of host/keeper.h, written from document 01 as a
 * firmware programmer would, over another maker's SHA-256 and HMAC. PEER_FUNCTIONS(name) declares them under a name,
 * so that several peers fit into one program: PEER_FUNCTIONS(peer_bearssl) declares peer_bearssl_open and so on.
 */
#ifndef PEER_H
#define PEER_H

#include <stddef.h>
#include <stdint.h>

#define PEER_VIEW(function)                                                                                            \
    uint32_t function(const uint8_t *page, size_t page_len, const uint8_t *record, size_t record_len, uint32_t rack)

#define PEER_FUNCTIONS(name)                                                                                           \
    uint32_t name##_open(const uint8_t *page, size_t page_len, uint8_t *answer, size_t answer_len);                    \
    uint32_t name##_perform(uint8_t *page, size_t page_len, const uint8_t *record, size_t record_len,                  \
                            const uint8_t *request, size_t request_len, uint8_t *answer, size_t answer_len);           \
    uint32_t name##_repeat(const uint8_t *page, size_t page_len, const uint8_t *record, size_t record_len,             \
                           const uint8_t *request, size_t request_len, uint8_t *answer, size_t answer_len);            \
    PEER_VIEW(name##_view);                                                                                            \
    PEER_VIEW(name##_view_stored);                                                                                     \
    PEER_VIEW(name##_view_capacity);                                                                                   \
    PEER_VIEW(name##_view_percent);                                                                                    \
    PEER_VIEW(name##_view_total);                                                                                      \
    uint32_t name##_resume(const uint8_t *page, size_t page_len, const uint8_t *ram, size_t ram_len,                   \
                           const uint8_t *disk, size_t disk_len)

#endif
