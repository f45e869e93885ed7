/* Words and tables for people: refusals, requests and racks, on standard output. */
#ifndef SHOW_H
#define SHOW_H

#include <stddef.h>
#include <stdint.h>

/* What a refusal's number means. */
const char *refusal_words(uint32_t number);

/* The number with a comma before each three digits from the right; it is good until the fourth call after this one. */
const char *grouped(uint64_t n);

/* A request in words, without a line's end: 'charge rack 3 by 3,600'. */
void show_request(const uint8_t *request);

/*
 * A table of the racks that are in use, with the total, or of one rack. The record is to be the current one. Return 0,
 * or the keeper's refusal, and then nothing is shown.
 */
uint32_t show_racks(const uint8_t *page, size_t page_len, const uint8_t *record, size_t record_len);
uint32_t show_rack(const uint8_t *page, size_t page_len, const uint8_t *record, size_t record_len, uint32_t rack);

#endif
