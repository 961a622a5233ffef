// Stands between a program and the C library, counts its calls, and refuses one of them. tools/hostile builds and loads it, and says
// by the environment what it is to do:
//   B2_KIND    what is counted: `allocation` (malloc, realloc), `call` (open, read, write, fsync, rename), `aside` (close, unlink),
//              whose failing may go unnoticed, or `piece` (read, write)
//   B2_PLACE   which of them is refused, from 1; of pieces it is one that moves a byte alone, and 0 means each
//   B2_COUNTS  the file to which the four counts are written at the end
#define _GNU_SOURCE
#include <dlfcn.h>
#include <errno.h>
#include <fcntl.h>
#include <stdarg.h>
#include <stdio.h>
#include <stdlib.h>
#include <string.h>
#include <sys/types.h>

enum kind { ALLOCATION, CALL, ASIDE, PIECE, KINDS };

static const char *const names[KINDS] = {"allocation", "call", "aside", "piece"};
static long counts[KINDS];
static int chosen = -1;
static long chosen_place = -1;

static void *(*next_malloc)(size_t);
static void *(*next_realloc)(void *, size_t);
static int (*next_open)(const char *, int, ...);
static ssize_t (*next_read)(int, void *, size_t);
static ssize_t (*next_write)(int, const void *, size_t);
static int (*next_fsync)(int);
static int (*next_rename)(const char *, const char *);
static int (*next_close)(int);
static int (*next_unlink)(const char *);

static void find_next(void) {
    next_malloc = dlsym(RTLD_NEXT, "malloc");
    next_realloc = dlsym(RTLD_NEXT, "realloc");
    next_open = dlsym(RTLD_NEXT, "open");
    next_read = dlsym(RTLD_NEXT, "read");
    next_write = dlsym(RTLD_NEXT, "write");
    next_fsync = dlsym(RTLD_NEXT, "fsync");
    next_rename = dlsym(RTLD_NEXT, "rename");
    next_close = dlsym(RTLD_NEXT, "close");
    next_unlink = dlsym(RTLD_NEXT, "unlink");
}

__attribute__((constructor)) static void begin(void) {
    const char *kind = getenv("B2_KIND"), *place = getenv("B2_PLACE");
    find_next();
    memset(counts, 0, sizeof counts);
    for (int one = 0; one < KINDS; one++)
        if (kind && strcmp(kind, names[one]) == 0)
            chosen = one;
    if (place)
        chosen_place = atol(place);
}

__attribute__((destructor)) static void end(void) {
    const char *name = getenv("B2_COUNTS");
    char line[100];
    if (!name)
        return;
    int size = snprintf(line, sizeof line, "%ld %ld %ld %ld\n", counts[ALLOCATION], counts[CALL], counts[ASIDE], counts[PIECE]);
    int file = next_open(name, O_WRONLY | O_CREAT | O_TRUNC, 0666);
    if (file >= 0 && next_write(file, line, size) == size)
        next_close(file);
}

// Counts a call of a kind, and says whether it is the one that is chosen.
static int is_chosen(enum kind kind) {
    counts[kind]++;
    return chosen == (int)kind && (counts[kind] == chosen_place || (kind == PIECE && chosen_place == 0));
}

static int fails(enum kind kind, int error) {
    if (!is_chosen(kind))
        return 0;
    errno = error;
    return 1;
}

void *malloc(size_t size) {
    if (!next_malloc)
        find_next();
    return fails(ALLOCATION, ENOMEM) ? NULL : next_malloc(size);
}

void *realloc(void *old, size_t size) {
    if (!next_realloc)
        find_next();
    return fails(ALLOCATION, ENOMEM) ? NULL : next_realloc(old, size);
}

int open(const char *name, int how, ...) {
    va_list rest;
    va_start(rest, how);
    int mode = how & O_CREAT ? va_arg(rest, int) : 0;
    va_end(rest);
    return fails(CALL, EIO) ? -1 : next_open(name, how, mode);
}

ssize_t read(int file, void *bytes, size_t size) {
    if (fails(CALL, EIO))
        return -1;
    return next_read(file, bytes, is_chosen(PIECE) && size > 1 ? 1 : size);
}

ssize_t write(int file, const void *bytes, size_t size) {
    if (fails(CALL, EIO))
        return -1;
    return next_write(file, bytes, is_chosen(PIECE) && size > 1 ? 1 : size);
}

ssize_t __write(int file, const void *bytes, size_t size) {
    return write(file, bytes, size);
}

int fsync(int file) {
    return fails(CALL, EIO) ? -1 : next_fsync(file);
}

int rename(const char *from, const char *to) {
    return fails(CALL, EIO) ? -1 : next_rename(from, to);
}

int close(int file) {
    int ended = next_close(file);
    return fails(ASIDE, EIO) ? -1 : ended;
}

int unlink(const char *name) {
    return fails(ASIDE, EIO) ? -1 : next_unlink(name);
}
