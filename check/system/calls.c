/* Stands before the C library's calls on files, for check/system/surroundings, which builds it.
 *
 * CALLS_DO is `count`, `short` (a read or write of several octets moves one), `interrupt` (EINTR)
 * or an error's number. CALLS_AT is the number of the call that this is done to, from 1; with
 * 0 each one. CALLS_LOG is the file to which the call that failed and its file are written, and at
 * the end the number of calls. */
#define _GNU_SOURCE
#include <dlfcn.h>
#include <errno.h>
#include <fcntl.h>
#include <stdarg.h>
#include <stdio.h>
#include <stdlib.h>
#include <string.h>
#include <sys/stat.h>
#include <unistd.h>

static long count;
static char disturbed[400];

#define REAL(name) ((__typeof__(&name))dlsym(RTLD_NEXT, #name))

/* Returns 0, or what is done to this call: -1 for a short one, else an error's number. */
static int fate(const char *call, const char *file, int descriptor, size_t octets) {
    const char *what = getenv("CALLS_DO"), *at = getenv("CALLS_AT");
    char link[40], found[300];
    long wanted = at ? atol(at) : 0;
    if (!what || (++count, wanted && wanted != count)) return 0;
    int fault = strcmp(what, "short") == 0 ? (octets > 1 ? -1 : 0)
        : strcmp(what, "interrupt") == 0 ? EINTR : atoi(what);
    if (!file) {
        snprintf(link, sizeof link, "/proc/self/fd/%d", descriptor);
        ssize_t length = readlink(link, found, sizeof found - 1);
        found[length < 0 ? 0 : length] = 0;
        file = found;
    }
    if (fault) snprintf(disturbed, sizeof disturbed, "%s %s", call, file);
    return fault;
}

#define FAIL(call, file, descriptor, octets) \
    int what = fate(call, file, descriptor, octets); \
    if (what > 0) { errno = what; return -1; }

int open(const char *name, int flags, ...) {
    va_list rest;
    va_start(rest, flags);
    mode_t mode = va_arg(rest, mode_t);
    va_end(rest);
    FAIL("open", name, -1, 0)
    return REAL(open)(name, flags, mode);
}

ssize_t read(int descriptor, void *octets, size_t size) {
    FAIL("read", 0, descriptor, size)
    return REAL(read)(descriptor, octets, what < 0 ? 1 : size);
}

ssize_t write(int descriptor, const void *octets, size_t size) {
    FAIL("write", 0, descriptor, size)
    return REAL(write)(descriptor, octets, what < 0 ? 1 : size);
}

int statx(int folder, const char *restrict name, int flags, unsigned mask, struct statx *restrict found) {
    FAIL("statx", *name ? name : 0, folder, 0)
    return REAL(statx)(folder, name, flags, mask, found);
}

int flock(int descriptor, int how) {
    FAIL("flock", 0, descriptor, 0)
    return ((int (*)(int, int))dlsym(RTLD_NEXT, "flock"))(descriptor, how);
}

int ftruncate(int descriptor, off_t size) {
    FAIL("ftruncate", 0, descriptor, 0)
    return REAL(ftruncate)(descriptor, size);
}

int fcntl(int descriptor, int command, ...) {
    va_list rest;
    va_start(rest, command);
    long word = va_arg(rest, long);
    va_end(rest);
    FAIL("fcntl", 0, descriptor, 0)
    return REAL(fcntl)(descriptor, command, word);
}

__attribute__((destructor)) static void tell(void) {
    const char *name = getenv("CALLS_LOG");
    long made = count;
    unsetenv("CALLS_DO");
    FILE *file = name ? fopen(name, "w") : 0;
    if (file) { fprintf(file, "%ld %s\n", made, disturbed); fclose(file); }
}
