/*
 * Cuts the power of a program that it is loaded into (LD_PRELOAD) at one of its operations on files. An operation is
 * anything that changes what a disk would hold: an open that creates or empties a file, a write, an fsync, a rename, an
 * unlink. The environment says what to do:
 *
 *     FAULTS_LOG    a file to which each operation is added as a line, with its number
 *     FAULTS_ROOM   a directory on the same disk, for what may have to be undone, and for a note of what is not on the
 *                   disk yet when a program ends: the next one that is run with the same room goes on from there
 *     FAULTS_AT     the number of the operation to cut at; 0 for none, -1 for the program's own end
 *     FAULTS_WAY    before    killed just before the operation
 *                   torn      killed when half the bytes of a write are written
 *                   after     killed just after it
 *                   lost      killed just after it, and all is gone that no fsync had brought to the disk: a file that
 *                             was written has no bytes, and a name that was given is taken back
 *                   fail      the operation fails, and the program goes on
 *                   short     a write writes half its bytes and says so, and the program goes on
 *                   signal    a write is interrupted before it has written anything, and the program goes on
 *                   readonly  at no operation in particular: every one fails as on a file system that can't be written
 *
 * At a program's own end the way is `lost`: what it left to chance is gone then. Independently of all this, two things
 * are a line 'broken' in the log: a file that is given another's name before its bytes are on the disk, and a name that
 * is given before the one given last is on the disk, since a disk may take them in either order.
 *
 * fsync only notes that all is on the disk: a killed program loses nothing that the system holds, so it is this shim
 * that takes away what was not synced, and a real fsync would only cost time.
 */
#define _GNU_SOURCE

#include <dlfcn.h>
#include <errno.h>
#include <fcntl.h>
#include <signal.h>
#include <stdarg.h>
#include <stdio.h>
#include <stdlib.h>
#include <string.h>
#include <sys/stat.h>
#include <unistd.h>

enum { NAMES = 64, NAME = 64 };

/* A name that was given, and where the file that had it before is kept, if there was one. */
struct given {
    char from[NAME], to[NAME], kept[512];
    int was_there;
};

/* What the system holds and the disk does not: bytes, by their files' present names, and names, the newest last. */
static struct {
    char unsynced[NAMES][NAME];
    int unsynced_count;
    struct given names[NAMES];
    int name_count;
} held;

/* A descriptor is known by its file's name. */
static char opened[NAMES][NAME];

static int count, at, log_file = -1;
static const char *way = "", *room = "";

#define REAL(function) ((__typeof__(&function))real(#function))

static void *real(const char *function)
{
    void *found = dlsym(RTLD_NEXT, function);
    if (!found)
        abort();
    return found;
}

static void say(const char *text)
{
    if (log_file >= 0 && REAL(write)(log_file, text, strlen(text)) < 0)
        abort();
}

static void broken(const char *name, const char *words)
{
    char line[256];
    snprintf(line, sizeof line, "broken: the name %s %s\n", name, words);
    say(line);
}

/* ---- What is not on the disk yet. */

static void copy_name(char *to, const char *name)
{
    if (strlen(name) >= NAME)
        abort();
    strcpy(to, name);
}

static int is_unsynced(const char *name)
{
    for (int i = 0; i < held.unsynced_count; i++)
        if (strcmp(held.unsynced[i], name) == 0)
            return i + 1;
    return 0;
}

static void note_unsynced(const char *name)
{
    if (!is_unsynced(name)) {
        if (held.unsynced_count == NAMES)
            abort();
        copy_name(held.unsynced[held.unsynced_count++], name);
    }
}

static void note_synced(const char *name)
{
    int i = is_unsynced(name);
    if (i)
        copy_name(held.unsynced[i - 1], held.unsynced[--held.unsynced_count]);
}

/* Keeps the file whose name is about to be taken. */
static void note_given(const char *from, const char *to)
{
    struct given *g = &held.names[held.name_count];
    if (held.name_count == NAMES)
        abort();
    copy_name(g->from, from);
    copy_name(g->to, to);
    snprintf(g->kept, sizeof g->kept, "%s/%d.%d", room, (int)getpid(), held.name_count++);
    g->was_there = link(to, g->kept) == 0;
}

/* For the next program; no file says that all is on the disk. */
static void hand_on(void)
{
    char name[512];
    int file;
    snprintf(name, sizeof name, "%s/held", room);
    REAL(unlink)(name);
    if (held.unsynced_count == 0 && held.name_count == 0)
        return;
    file = REAL(open)(name, O_WRONLY | O_CREAT | O_TRUNC, 0600);
    if (file < 0 || REAL(write)(file, &held, sizeof held) != (ssize_t)sizeof held)
        abort();
    close(file);
}

static void take_over(void)
{
    char name[512];
    int file;
    snprintf(name, sizeof name, "%s/held", room);
    file = REAL(open)(name, O_RDONLY, 0);
    if (file < 0)
        return;
    if (read(file, &held, sizeof held) != (ssize_t)sizeof held)
        abort();
    close(file);
}

static void note_names_synced(void)
{
    while (held.name_count > 0) {
        struct given *g = &held.names[--held.name_count];
        if (g->was_there)
            REAL(unlink)(g->kept);
    }
}

static void lose(void)
{
    while (held.unsynced_count > 0)
        if (truncate(held.unsynced[--held.unsynced_count], 0) != 0)
            abort();
    while (held.name_count > 0) {
        struct given *g = &held.names[--held.name_count];
        if (REAL(rename)(g->to, g->from) != 0 || (g->was_there && REAL(rename)(g->kept, g->to) != 0))
            abort();
    }
}

__attribute__((constructor)) static void begin(void)
{
    const char *log_name = getenv("FAULTS_LOG"), *number = getenv("FAULTS_AT");
    if (log_name)
        log_file = REAL(open)(log_name, O_WRONLY | O_CREAT | O_APPEND | O_CLOEXEC, 0600);
    at = number ? atoi(number) : 0;
    way = getenv("FAULTS_WAY") ? getenv("FAULTS_WAY") : "";
    room = getenv("FAULTS_ROOM") ? getenv("FAULTS_ROOM") : ".";
    take_over();
}

/* ---- An operation: its line in the log, and what is to become of it. */

static void killed(void)
{
    hand_on();
    kill(getpid(), SIGKILL);
    for (;;)
        pause();
}

static int cut(const char *wanted)
{
    return count == at && strcmp(way, wanted) == 0;
}

static void before(const char *what, const char *name)
{
    char line[256];
    count++;
    snprintf(line, sizeof line, "%d %s %s\n", count, what, name);
    say(line);
    if (cut("before"))
        killed();
}

static void after(void)
{
    if (cut("lost"))
        lose();
    if (cut("lost") || cut("after"))
        killed();
}

static int fails(int reason)
{
    int readonly = strcmp(way, "readonly") == 0;

    if (!readonly && !cut("fail"))
        return 0;
    errno = readonly ? EROFS : reason;
    return 1;
}

__attribute__((destructor)) static void end(void)
{
    if (at < 0)
        lose();
    hand_on();
}

/* ---- The functions that the program calls. */

int open(const char *name, int flags, ...)
{
    mode_t mode = 0;
    int changes = (flags & (O_CREAT | O_TRUNC)) != 0, file;

    if (flags & O_CREAT) {
        va_list rest;
        va_start(rest, flags);
        mode = va_arg(rest, mode_t);
        va_end(rest);
    }
    if (changes) {
        before("open", name);
        if (fails(EMFILE))
            return -1;
    }
    file = REAL(open)(name, flags, mode);
    if (file >= NAMES)
        abort();
    if (file >= 0)
        copy_name(opened[file], name);
    if (changes) {
        if (file >= 0 && (flags & O_TRUNC))
            note_unsynced(name);
        after();
    }
    return file;
}

ssize_t write(int file, const void *bytes, size_t len)
{
    ssize_t n;

    before("write", opened[file]);
    if (fails(ENOSPC))
        return -1;
    if (cut("signal")) {
        errno = EINTR;
        return -1;
    }
    note_unsynced(opened[file]);
    n = REAL(write)(file, bytes, cut("torn") || cut("short") ? len / 2 : len);
    if (cut("torn"))
        killed();
    after();
    return n;
}

int fsync(int file)
{
    struct stat s;

    before("fsync", opened[file]);
    if (fails(EIO))
        return -1;
    if (fstat(file, &s) != 0)
        return -1;
    if (S_ISDIR(s.st_mode))
        note_names_synced();
    else
        note_synced(opened[file]);
    after();
    return 0;
}

int fdatasync(int file)
{
    return fsync(file);
}

int rename(const char *from, const char *to)
{
    int status;

    before("rename to", to);
    if (fails(EIO))
        return -1;
    if (held.name_count > 0)
        broken(to, "is given before the last name is on the disk");
    if (is_unsynced(from))
        broken(to, "is given before the file's bytes are on the disk");
    note_given(from, to);
    status = REAL(rename)(from, to);
    note_synced(to);
    if (is_unsynced(from)) {
        note_synced(from);
        note_unsynced(to);
    }
    after();
    return status;
}

int unlink(const char *name)
{
    int status;

    before("unlink", name);
    if (fails(EIO))
        return -1;
    status = REAL(unlink)(name);
    after();
    return status;
}
