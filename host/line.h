/* The command line of the site program. */
#ifndef LINE_H
#define LINE_H

#include <stdint.h>

#include "keeper.h"

enum command {
    COMMAND_HELP,
    COMMAND_VERSION,
    COMMAND_OPEN,
    COMMAND_REQUEST,
    COMMAND_VIEW,
    COMMAND_STATUS,
    COMMAND_SETTLE
};

/* What the words of the command line ask for. */
struct asked {
    enum command command;
    const char *directory;
    uint64_t number; /* the one that a request is to have, 0 for any; or that settle names */
    int one_rack;
    uint32_t rack;
    uint8_t request[KEEPER_REQUEST_SIZE];
};

/* Returns 0, or -1 with a message that names the word which is not understood. */
int read_line(int argc, char **argv, struct asked *asked);

#endif
