#include "line.h"

#include <getopt.h>
#include <stdio.h>
#include <string.h>

#include "request.h"

/* A request's number can't be counted up to this in any life of a controller, and does not wrap above it. */
#define MOST_REQUESTS 999999999999999999u

static const struct known {
    const char *name, *words; /* the name, and what stands behind it */
    int least, most;          /* how many words may stand there */
    enum command command;
    int kind; /* of the request, or 0 */
} known[] = {
    {"open", "nothing", 0, 0, COMMAND_OPEN, 0},
    {"capacity", "RACK AMOUNT", 2, 2, COMMAND_REQUEST, KEEPER_CAPACITY},
    {"charge", "RACK AMOUNT", 2, 2, COMMAND_REQUEST, KEEPER_CHARGE},
    {"discharge", "RACK AMOUNT", 2, 2, COMMAND_REQUEST, KEEPER_DISCHARGE},
    {"move", "RACK OTHER AMOUNT", 3, 3, COMMAND_REQUEST, KEEPER_MOVE},
    {"view", "nothing, or a RACK", 0, 1, COMMAND_VIEW, 0},
    {"status", "nothing", 0, 0, COMMAND_STATUS, 0},
    {"settle", "NUMBER", 1, 1, COMMAND_SETTLE, 0},
};

static int not_understood(const char *word, const char *why)
{
    fprintf(stderr, "site: '%s' %s; site --help says more\n", word, why);
    return -1;
}

/* Of options that stand together behind one dash, getopt names the bad one alone. */
static int not_an_option(int option, const char *word)
{
    char letter[] = {'-', (char)optopt, '\0'};

    return not_understood(optopt != 0 ? letter : word, option == ':' ? "has nothing behind it" : "is no option");
}

/* A number in digits alone, from least to most. */
static int read_number(const char *text, uint64_t least, uint64_t most, uint64_t *n)
{
    const char *at = text;
    uint64_t value = 0;

    for (; *at >= '0' && *at <= '9'; at++) {
        uint64_t digit = (uint64_t)(*at - '0');
        if (value > (most - digit) / 10)
            break;
        value = value * 10 + digit;
    }
    if (at == text || *at != '\0' || value < least) {
        fprintf(stderr, "site: '%s' is no whole number from %llu to %llu; site --help says more\n", text,
                (unsigned long long)least, (unsigned long long)most);
        return -1;
    }
    *n = value;
    return 0;
}

/* What fits its place in the request's bytes is left to the keeper to judge. */
static int read_request(const struct known *known, char **words, uint8_t *request)
{
    uint64_t rack, other = 0, amount;

    if (read_number(words[0], 0, UINT8_MAX, &rack) != 0)
        return -1;
    if (known->kind == KEEPER_MOVE && read_number(words[1], 0, UINT8_MAX, &other) != 0)
        return -1;
    if (read_number(words[known->most - 1], 0, UINT32_MAX, &amount) != 0)
        return -1;
    make_request(request, known->kind, (uint8_t)rack, (uint8_t)other, (uint32_t)amount);
    return 0;
}

static int read_words(const struct known *known, int count, char **words, struct asked *asked)
{
    uint64_t rack;

    asked->command = known->command;
    if (known->kind != 0)
        return read_request(known, words, asked->request);
    if (asked->number != 0)
        return not_understood("-n", "is for a request");
    if (known->command == COMMAND_SETTLE)
        return read_number(words[0], 0, MOST_REQUESTS - 1, &asked->number);
    if (count == 0)
        return 0;
    asked->one_rack = 1;
    if (read_number(words[0], 0, UINT32_MAX, &rack) != 0)
        return -1;
    asked->rack = (uint32_t)rack;
    return 0;
}

static int read_command(int count, char **words, struct asked *asked)
{
    if (count <= 0)
        return not_understood("", "is no command");
    for (size_t i = 0; i < sizeof known / sizeof *known; i++) {
        if (strcmp(known[i].name, words[0]) != 0)
            continue;
        if (known[i].least <= count - 1 && count - 1 <= known[i].most)
            return read_words(&known[i], count - 1, words + 1, asked);
        fprintf(stderr, "site: behind '%s' stands %s; site --help says more\n", known[i].name, known[i].words);
        return -1;
    }
    return not_understood(words[0], "is no command");
}

int read_line(int argc, char **argv, struct asked *asked)
{
    static const struct option names[] = {{"help", 0, NULL, 'h'}, {"version", 0, NULL, 'v'}, {NULL, 0, NULL, 0}};
    int option;

    memset(asked, 0, sizeof *asked);
    asked->directory = ".";
    /* Options stand before the command, so that a negative number behind it is a word. */
    while ((option = getopt_long(argc, argv, "+:d:n:h", names, NULL)) != -1) {
        if (option == 'h' || option == 'v') {
            asked->command = option == 'h' ? COMMAND_HELP : COMMAND_VERSION;
            return 0;
        }
        if (option == ':' || option == '?')
            return not_an_option(option, argv[optind - 1]);
        if (option == 'd')
            asked->directory = optarg;
        else if (read_number(optarg, 1, MOST_REQUESTS, &asked->number) != 0)
            return -1;
    }
    return read_command(argc - optind, argv + optind, asked);
}
