/*
 * Marks on secret bytes. Valgrind's memcheck knows of every bit whether it was ever set. It follows those that were not
 * through the machine code, and counts each branch and each address that goes by one. A secret that is declared as
 * never set is followed in the same way. The program has to run under memcheck.
 */
#ifndef MARKS_H
#define MARKS_H

#include <stddef.h>
#include <stdint.h>

#include <valgrind/memcheck.h>

static inline int marks_are_followed(void)
{
    return RUNNING_ON_VALGRIND != 0;
}

static inline void mark(uint8_t *bytes, size_t len)
{
    (void)VALGRIND_MAKE_MEM_UNDEFINED(bytes, len);
}

/* How many branches and addresses have gone by a marked bit since the start. One that is passed twice counts twice. */
static inline unsigned long marks_used(void)
{
    return VALGRIND_COUNT_ERRORS;
}

/* How many of the bits are marked. */
static inline unsigned marked_bits(const void *bytes, size_t len)
{
    unsigned bits = 0;

    for (size_t i = 0; i < len; i++) {
        uint8_t marks = 0;
        (void)VALGRIND_GET_VBITS((const uint8_t *)bytes + i, &marks, 1);
        for (; marks != 0; marks >>= 1)
            bits += marks & 1;
    }
    return bits;
}

#endif
