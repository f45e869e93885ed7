/* A file is replaced by a new one of another name, which is on the disk before it takes the old one's name. */
#define _DEFAULT_SOURCE

#include "store.h"

#include <errno.h>
#include <fcntl.h>
#include <stdio.h>
#include <string.h>
#include <sys/file.h>
#include <sys/random.h>
#include <sys/stat.h>
#include <unistd.h>

/* The page holds a key, so the files are for their owner alone. */
#define OWNER (S_IRUSR | S_IWUSR)

static int directory = -1;

static int failed(const char *name)
{
    fprintf(stderr, "site: %s: %s\n", name, strerror(errno));
    return -1;
}

/* ---- Plain files. */

static int not_plain(const char *name, int file)
{
    fprintf(stderr, "site: %s: this is not a plain file\n", name);
    close(file);
    return -1;
}

/* Returns a descriptor, or -1 with a message and -2 without one if there is no such file. A pipe is not waited for. */
static int open_plain(const char *name, int flags)
{
    int file = open(name, flags | O_NONBLOCK | O_NOCTTY, OWNER);
    struct stat s;

    if (file < 0)
        return errno == ENOENT ? -2 : failed(name);
    if (fstat(file, &s) != 0 || !S_ISREG(s.st_mode))
        return not_plain(name, file);
    return file;
}

int store_read(const char *name, uint8_t *bytes, size_t room, size_t *len)
{
    int file = open_plain(name, O_RDONLY);

    *len = 0;
    if (file < 0)
        return file == -2 ? 0 : -1;
    while (*len < room) {
        ssize_t n = read(file, bytes + *len, room - *len);
        if (n < 0 && errno != EINTR) {
            failed(name);
            close(file);
            return -1;
        }
        if (n == 0)
            break;
        if (n > 0)
            *len += (size_t)n;
    }
    close(file);
    return 1;
}

static int write_whole(int file, const uint8_t *bytes, size_t len)
{
    while (len > 0) {
        ssize_t n = write(file, bytes, len);
        if (n < 0 && errno != EINTR)
            return -1;
        if (n > 0) {
            bytes += n;
            len -= (size_t)n;
        }
    }
    return 0;
}

int store_replace(const char *name, const uint8_t *bytes, size_t len)
{
    char fresh[32];
    int file;

    snprintf(fresh, sizeof fresh, "%s.new", name);
    file = open_plain(fresh, O_WRONLY | O_CREAT | O_TRUNC | O_NOFOLLOW);
    if (file < 0)
        return file == -2 ? failed(fresh) : -1;
    if (write_whole(file, bytes, len) != 0 || fsync(file) != 0) {
        failed(fresh);
        close(file);
        return -1;
    }
    if (close(file) != 0)
        return failed(fresh);
    if (rename(fresh, name) != 0 || fsync(directory) != 0)
        return failed(name);
    return 0;
}

/* ---- A turn: two programs on one book would each move the page that it had read. */

/* The lock is on the directory itself, which is not lost as a file may be, and goes when the program ends. */
static int wait_for_turn(enum turn turn)
{
    int kind = turn == TO_READ ? LOCK_SH : LOCK_EX;

    if (flock(directory, kind | LOCK_NB) == 0)
        return 0;
    if (errno == EWOULDBLOCK)
        fprintf(stderr, "site: another program is at work on this book; waiting for it\n");
    while (flock(directory, kind) != 0)
        if (errno != EINTR)
            return -1;
    return 0;
}

int store_enter(const char *path, enum turn turn)
{
    if (chdir(path) != 0)
        return failed(path);
    directory = open(".", O_RDONLY | O_DIRECTORY);
    if (directory < 0 || wait_for_turn(turn) != 0)
        return failed(path);
    /* A name may have been given by a program that was killed before the disk had it: nothing may rest on it yet. */
    if (fsync(directory) != 0 && !(turn == TO_READ && (errno == EROFS || errno == EINVAL)))
        return failed(path);
    return 0;
}

/* ---- Keys. */

int store_random(uint8_t *bytes, size_t len)
{
    size_t got = 0;

    while (got < len) {
        ssize_t n = getrandom(bytes + got, len - got, 0);
        if (n > 0)
            got += (size_t)n;
        else if (errno != EINTR)
            return failed("getrandom");
    }
    return 0;
}
