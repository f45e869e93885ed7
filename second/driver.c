/* Makes the calls of a script on the C functions of the library, and answers each with one line.
 *
 *     driver <SCRIPT >LINES
 *
 * The script and the lines are those of second/script.py, in the form of a C program. Every buffer that is lent is an
 * allocation of its own, with guard bytes close before and behind it. They are looked at after each call; a changed one
 * ends the run with status 1. A script that is malformed, or no memory, ends it with status 2.
 */
#include <stdint.h>
#include <stdio.h>
#include <stdlib.h>
#include <string.h>

#include "keeper.h"

enum { GUARD = 32, TURNS = 8, MOST_PARTS = 4 };

/* A lent buffer: bytes is what the call gets, and room is the whole allocation. A buffer of no bytes may be NULL. */
struct lent {
    uint8_t *room;
    size_t before;
    uint8_t *bytes;
    size_t length;
};

static unsigned long items, turn, empties;

static void stop(int status, const char *why)
{
    fflush(stdout);
    fprintf(stderr, "driver: item %lu: %s\n", items, why);
    exit(status);
}

/* Reads so many bytes; the script may not end within them. */
static void take(uint8_t *into, size_t count)
{
    if (count > 0 && fread(into, 1, count, stdin) != count)
        stop(2, "the script ends within it");
}

static uint32_t take_number(void)
{
    uint8_t b[4];
    take(b, sizeof b);
    return (uint32_t)b[0] << 24 | (uint32_t)b[1] << 16 | (uint32_t)b[2] << 8 | b[3];
}

/* The guard byte of a place; it depends on the place, so that a moved guard shows too. */
static uint8_t guard_byte(size_t place)
{
    return (uint8_t)(0xA5 ^ 29 * place);
}

/* Reads a buffer into an allocation of its own, at another alignment each time. Every second empty one is NULL. */
static struct lent lend(void)
{
    struct lent l;
    size_t i, all;

    l.length = take_number();
    l.before = GUARD + turn++ % TURNS;
    all = l.before + l.length + GUARD;
    l.room = malloc(all);
    if (l.room == NULL)
        stop(2, "no memory for a buffer");
    for (i = 0; i < all; i++)
        l.room[i] = guard_byte(i);
    l.bytes = l.room + l.before;
    take(l.bytes, l.length);
    if (l.length == 0 && empties++ % 2 == 0)
        l.bytes = NULL;
    return l;
}

static void check_guards(const struct lent *parts, int count)
{
    int part;
    size_t i;

    for (part = 0; part < count; part++) {
        const struct lent *l = &parts[part];
        for (i = 0; i < l->before; i++)
            if (l->room[i] != guard_byte(i))
                stop(1, "a byte before a buffer was changed");
        for (i = l->before + l->length; i < l->before + l->length + GUARD; i++)
            if (l->room[i] != guard_byte(i))
                stop(1, "a byte behind a buffer was changed");
    }
}

static void write_buffer(const struct lent *l)
{
    static const char digit[] = "0123456789abcdef";
    size_t i;

    putchar(' ');
    if (l->length == 0)
        putchar('-');
    for (i = 0; i < l->length; i++) {
        putchar(digit[l->bytes[i] >> 4]);
        putchar(digit[l->bytes[i] & 15]);
    }
}

static void write_number(uint32_t number)
{
    printf(" %08lx", (unsigned long)number);
}

/* Ends an item's line with its buffers, and gives them back. */
static void write_parts(struct lent *parts, int count)
{
    int part;

    for (part = 0; part < count; part++) {
        write_buffer(&parts[part]);
        free(parts[part].room);
    }
    putchar('\n');
}

/* The number of an open, a perform, a repeat or a resume. */
static uint32_t number_of(int letter, const struct lent *p)
{
    switch (letter) {
    case 'o':
        return keeper_open(p[0].bytes, p[0].length, p[1].bytes, p[1].length);
    case 'p':
        return keeper_perform(p[0].bytes, p[0].length, p[1].bytes, p[1].length,
                              p[2].bytes, p[2].length, p[3].bytes, p[3].length);
    case 'r':
        return keeper_repeat(p[0].bytes, p[0].length, p[1].bytes, p[1].length,
                             p[2].bytes, p[2].length, p[3].bytes, p[3].length);
    default:
        return keeper_resume(p[0].bytes, p[0].length, p[1].bytes, p[1].length, p[2].bytes, p[2].length);
    }
}

typedef uint32_t viewing(const uint8_t *, size_t, const uint8_t *, size_t, uint32_t);

/* A view: its number and its four figures, each by a function of its own. */
static void view(const struct lent *p)
{
    static viewing *const functions[] = {
        keeper_view, keeper_view_stored, keeper_view_capacity, keeper_view_percent, keeper_view_total,
    };
    uint32_t rack = take_number();
    size_t i;

    for (i = 0; i < sizeof functions / sizeof functions[0]; i++) {
        write_number(functions[i](p[0].bytes, p[0].length, p[1].bytes, p[1].length, rack));
        check_guards(p, 2);
    }
}

static void answer_item(int letter)
{
    static const char letters[] = "oprvu";
    static const int counts[] = {2, 4, 4, 2, 3};
    const char *at = strchr(letters, letter);
    struct lent parts[MOST_PARTS];
    int part, count;

    if (letter == 0 || at == NULL)
        stop(2, "its letter is that of no call");
    count = counts[at - letters];
    for (part = 0; part < count; part++)
        parts[part] = lend();
    putchar(letter);
    if (letter == 'v') {
        view(parts);
    } else {
        write_number(number_of(letter, parts));
        check_guards(parts, count);
    }
    write_parts(parts, count);
    fflush(stdout); /* so that a call that crashes is the one behind the last line */
}

int main(void)
{
    int letter;

    setvbuf(stdout, NULL, _IOFBF, 1 << 16);
    while ((letter = getchar()) != EOF) {
        items++;
        answer_item(letter);
    }
    if (ferror(stdin) || ferror(stdout)) {
        fprintf(stderr, "driver: reading or writing failed\n");
        return 2;
    }
    return 0;
}
