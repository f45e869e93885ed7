/*
 * A small site program on the keeper: it keeps one controller's book in a directory. What it keeps, and how it keeps it
 * through power cuts, is in book.h.
 */
#define _XOPEN_SOURCE 700

#include <fcntl.h>
#include <stdio.h>
#include <unistd.h>

#include "book.h"
#include "line.h"
#include "show.h"
#include "store.h"

/* Exit statuses beside the keeper's numbers and those of book.h. */
enum { SITE_USAGE = 64, SITE_OTHER_NUMBER = 77 };

static const char help[] =
    "usage: site [-d DIR] [-n NUMBER] COMMAND\n"
    "\n"
    "    open                           begin a book: a fresh page with a random key, and the first record\n"
    "    capacity RACK AMOUNT           set what the rack can hold\n"
    "    charge RACK AMOUNT             book a charge\n"
    "    discharge RACK AMOUNT          book a discharge\n"
    "    move RACK OTHER AMOUNT         book a discharge of one rack into another\n"
    "    view [RACK]                    show the racks; changes nothing\n"
    "    status                         show what is stored, and whether the last request is booked; changes nothing\n"
    "    settle NUMBER                  say yourself, where status can't tell, which request was booked last\n"
    "\n"
    "    -d DIR                         where the book is kept; the present directory unless it is given\n"
    "    -n NUMBER                      take the request only if this is its number\n"
    "    -h, --help; --version\n"
    "\n"
    "Racks are 0 to 15. Amounts are in ampere-seconds, at most 100,000,000. The files are their owner's alone; keep\n"
    "the directory so too.\n"
    "\n"
    "A request's number is one above the count of those booked before it, whoever gave them; one that is not booked\n"
    "leaves its number to the next. Know the number that yours will have: 'status' shows the last one. If you have no\n"
    "outcome, because the power was cut or the exit status is 74, wait until the program has ended, and ask 'status'\n"
    "before you give the request again. If you alone give requests here, yours is booked if status has its number and\n"
    "says that it is booked, and must not be given again. If status says 'not booked' or 'none', or has a number\n"
    "below, yours is not booked, and may be.\n"
    "\n"
    "Where two users share a book, the number that you see may be the other's. Give each request with -n then: that\n"
    "line, given as often as you like, books at most once. It ends with 77 if the number is not the next one. If that\n"
    "comes after a try without an outcome, yours may be the one that is booked: status shows what was asked, of the\n"
    "last request alone, so ask the other before you give it with a new number.\n"
    "\n"
    "If files were damaged, it may be that it can't be told whether the last request is booked. Then no request is\n"
    "taken until you have found out, say from the meters, which one was booked last, and have settled it with its\n"
    "number. All that is promised of numbers holds as long as no number is settled that is too low.\n"
    "\n"
    "Exit status: 0 done and stored; 1 to 13 refused, with the keeper's number; 64 the command was not understood;\n"
    "74 a file could not be read or written, or the outcome not be said; 75 there is no current record here, and the\n"
    "book does not go on; 76 it can't be told whether the last request is booked; 77 another number is right.\n";

/* ---- What happened, in words. */

static void say_refused(uint32_t number)
{
    printf("refused with %u: %s\n", (unsigned)number, refusal_words(number));
}

static void say_request(const struct note *n)
{
    printf("%llu (", (unsigned long long)n->number);
    show_request(n->request);
    printf(")");
}

static void say_no_record(const struct book *b)
{
    if (b->page_there && book_can_open(b))
        printf("There is no current record here. The page is fresh: 'site open' gives its first record again.\n");
    else if (b->page_there)
        printf("There is no current record here, and repeat does not give it.\n");
    else if (book_can_open(b))
        printf("There is no book here; 'site open' begins one.\n");
    else
        printf("The page is lost. The records here are of no use without it, and no other page fits them.\n");
}

static void say_untold(const struct book *b)
{
    if (!b->note_good)
        printf("its note is %s: it can't be told whether it is booked\n", b->note_there ? "damaged" : "lost");
    else if (b->note.outcome == OUTCOME_PENDING) {
        say_request(&b->note);
        printf(": it can't be told whether it is booked\n");
    } else
        printf("the note does not fit what is stored: it can't be told which was the last\n");
}

/* The last request's outcome, behind the word 'request'. */
static void say_told(const struct book *b)
{
    switch (b->told) {
    case TOLD_NONE_GIVEN:
        printf("none was given since the book was last opened\n");
        return;
    case TOLD_NONE_BOOKED:
        printf("none is booked; the note of what was given is %s\n", b->note_there ? "damaged" : "lost");
        return;
    case TOLD_SETTLED:
        printf("%llu is the last one booked; so it was settled\n", (unsigned long long)b->note.number);
        return;
    case TOLD_BOOKED:
        say_request(&b->note);
        printf(" is booked\n");
        return;
    case TOLD_NOT_BOOKED:
        say_request(&b->note);
        printf(" is not booked");
        if (b->note.refusal != 0)
            printf(": it was refused with %u", (unsigned)b->note.refusal);
        printf("\n");
        return;
    default:
        say_untold(b);
    }
}

/* Finds the current record, and says what was found if it is not as it should be. */
static int start(struct book *b)
{
    int status = book_start(b);

    if (status == BOOK_NO_RECORD)
        say_no_record(b);
    if (status == 0 && b->recovered)
        printf("Recovered: the current record was lost, and repeat has given it again. The next request stores it.\n");
    return status;
}

/* ---- The commands. */

static int run_open(void)
{
    int status = book_open();

    if (status == 0)
        printf("The book is open: nothing is booked yet.\n");
    else if (status == BOOK_NO_RECORD)
        printf("What is stored here is not of a fresh page. If nothing was booked here, take it away.\n");
    else if (status != BOOK_FAILED)
        say_refused((uint32_t)status);
    return status;
}

static int not_next(const struct book *b, uint64_t number)
{
    printf("Not taken: the next request has the number %llu, and not %llu.\n", (unsigned long long)book_count(b) + 1,
           (unsigned long long)number);
    return SITE_OTHER_NUMBER;
}

static int run_request(const struct asked *asked)
{
    struct book b;
    int status = start(&b);

    if (status != 0)
        return status;
    if (b.told != CANT_BE_TOLD && asked->number != 0 && asked->number != book_count(&b) + 1)
        return not_next(&b, asked->number);
    status = book_request(&b, asked->request);
    if (status == BOOK_UNTOLD) {
        printf("Not taken. The request before it: ");
        say_untold(&b);
    }
    if (status == BOOK_FAILED || status == BOOK_UNTOLD)
        return status;
    printf("Request ");
    say_request(&b.note);
    printf(" is ");
    if (status == 0)
        printf("booked.\n");
    else
        say_refused((uint32_t)status);
    return status;
}

static int run_view(const struct asked *asked)
{
    struct book b;
    const struct copy *c;
    int status = start(&b);
    uint32_t number;

    if (status != 0)
        return status;
    c = &b.copies[b.current];
    number = asked->one_rack ? show_rack(b.page, b.page_len, c->bytes, c->len, asked->rack)
                             : show_racks(b.page, b.page_len, c->bytes, c->len);
    if (number != KEEPER_ACCEPTED)
        say_refused(number);
    return (int)number;
}

static void say_page(const struct book *b)
{
    uint8_t answer[KEEPER_RECORD_SIZE];
    uint32_t number = keeper_open(b->page, b->page_len, answer, sizeof answer);

    printf("page     ");
    if (number == KEEPER_ACCEPTED)
        printf("fresh\n");
    else if (number == KEEPER_REFUSED_FRESH)
        printf("not fresh\n");
    else
        say_refused(number);
}

static void say_copies(const struct book *b)
{
    for (int i = 0; i < 2; i++) {
        const struct copy *c = &b->copies[i];
        uint32_t number = keeper_view(b->page, b->page_len, c->bytes, c->len, 0);
        printf("%-8s ", book_names[i]);
        if (b->recovered && i == b->current)
            printf("not current; its place is for the record that repeat has given\n");
        else if (number == KEEPER_ACCEPTED)
            printf("current\n");
        else if (!c->there)
            printf("nothing\n");
        else
            say_refused(number);
    }
}

static int run_status(void)
{
    struct book b;
    int status = start(&b);

    if (status == BOOK_FAILED || !b.page_there)
        return status;
    say_page(&b);
    say_copies(&b);
    printf("request  ");
    say_told(&b);
    return status == 0 && b.told == CANT_BE_TOLD ? BOOK_UNTOLD : status;
}

/* A number that was settled by mistake may be settled anew until the next request is given. */
static int run_settle(const struct asked *asked)
{
    struct book b;
    int status = start(&b);
    uint64_t least = book_least_count(&b);

    if (status != 0)
        return status;
    if (b.told != CANT_BE_TOLD && b.told != TOLD_SETTLED) {
        printf("There is nothing to settle.\nrequest  ");
        say_told(&b);
        return asked->number == book_count(&b) ? 0 : SITE_OTHER_NUMBER;
    }
    if (asked->number < least) {
        printf("Not settled: the last one booked has the number %llu or one above.\n", (unsigned long long)least);
        return SITE_OTHER_NUMBER;
    }
    status = book_settle(&b, asked->number);
    if (status == 0)
        printf("Settled: the next request has the number %llu.\n", (unsigned long long)book_count(&b) + 1);
    return status;
}

static int run(const struct asked *asked)
{
    enum turn turn = asked->command == COMMAND_VIEW || asked->command == COMMAND_STATUS ? TO_READ : TO_WRITE;

    if (store_enter(asked->directory, turn) != 0)
        return BOOK_FAILED;
    switch (asked->command) {
    case COMMAND_OPEN:
        return run_open();
    case COMMAND_REQUEST:
        return run_request(asked);
    case COMMAND_VIEW:
        return run_view(asked);
    case COMMAND_STATUS:
        return run_status();
    default:
        return run_settle(asked);
    }
}

/*
 * A standard stream that the caller has closed is held, or a file would be opened in its place and written into by what
 * is said. It is held so that saying something fails.
 */
static int hold_streams(void)
{
    for (int stream = 0; stream < 3; stream++)
        if (fcntl(stream, F_GETFD) < 0 && open("/dev/null", stream == 0 ? O_WRONLY : O_RDONLY) != stream)
            return -1;
    return 0;
}

int main(int argc, char **argv)
{
    struct asked asked;
    int status = 0;

    if (hold_streams() != 0)
        return BOOK_FAILED;
    if (read_line(argc, argv, &asked) != 0)
        return SITE_USAGE;
    if (asked.command == COMMAND_HELP)
        fputs(help, stdout);
    else if (asked.command == COMMAND_VERSION)
        printf("site %d.%d.%d\n", KEEPER_VERSION / 10000, KEEPER_VERSION / 100 % 100, KEEPER_VERSION % 100);
    else
        status = run(&asked);
    /* An outcome that could not be said is not known to anybody: status has to tell it. */
    if (fflush(stdout) != 0 || ferror(stdout))
        return BOOK_FAILED;
    return status;
}
