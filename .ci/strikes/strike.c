/* Laid before the C library of a program (LD_PRELOAD): counts the calls that change a file, and strikes one of them.
 *
 * STRIKE_AT=N      the N-th call
 * STRIKE_ON=1      and all behind it
 * STRIKE_KIND      enospc, eio, eintr: it fails so; short: half of the bytes are written; kill: the process dies before it; mid: after half of the bytes
 * STRIKE_COUNT=F   at the end the number of calls is written into F
 *
 * Calls on standard input, output and error are left alone. */
#define _GNU_SOURCE
#include <dlfcn.h>
#include <errno.h>
#include <fcntl.h>
#include <signal.h>
#include <stdarg.h>
#include <stdio.h>
#include <stdlib.h>
#include <string.h>
#include <sys/types.h>
#include <unistd.h>

static long at = -1, count;
static const char *kind = "count";
static int goes_on;

__attribute__((constructor)) static void begin(void) {
    if (getenv("STRIKE_AT")) at = atol(getenv("STRIKE_AT"));
    if (getenv("STRIKE_KIND")) kind = getenv("STRIKE_KIND");
    goes_on = getenv("STRIKE_ON") != NULL;
}

__attribute__((destructor)) static void end(void) {
    const char *path = getenv("STRIKE_COUNT");
    if (!path) return;
    int (*real_open)(const char *, int, ...) = dlsym(RTLD_NEXT, "open");
    ssize_t (*real_write)(int, const void *, size_t) = dlsym(RTLD_NEXT, "write");
    int file = real_open(path, O_WRONLY | O_CREAT | O_TRUNC, 0644);
    char text[32];
    int len = snprintf(text, sizeof text, "%ld\n", count);
    if (real_write(file, text, len) != len) abort();
    close(file);
}

static int is(const char *other) { return strcmp(kind, other) == 0; }

static int is_struck(int file) {
    if (file >= 0 && file <= 2) return 0;
    count++;
    return goes_on ? at > 0 && count >= at : count == at;
}

static int strike(void) {
    if (is("kill") || is("mid")) kill(getpid(), SIGKILL);
    errno = is("eio") ? EIO : is("eintr") ? EINTR : ENOSPC;
    return -1;
}

#define REAL(name) \
    static __typeof__(&name) real; \
    if (!real) real = (__typeof__(&name))dlsym(RTLD_NEXT, #name)

ssize_t pwrite64(int file, const void *bytes, size_t len, off64_t place) {
    REAL(pwrite64);
    if (!is_struck(file)) return real(file, bytes, len, place);
    ssize_t half = is("mid") || is("short") ? real(file, bytes, len / 2 + len % 2, place) : 0;
    return is("short") ? half : strike();
}
ssize_t pwrite(int file, const void *bytes, size_t len, off_t place) { return pwrite64(file, bytes, len, place); }

ssize_t write(int file, const void *bytes, size_t len) {
    REAL(write);
    if (!is_struck(file)) return real(file, bytes, len);
    ssize_t half = is("mid") || is("short") ? real(file, bytes, len / 2 + len % 2) : 0;
    return is("short") ? half : strike();
}

int ftruncate64(int file, off64_t len) {
    REAL(ftruncate64);
    return is_struck(file) && !is("short") ? strike() : real(file, len);
}
int ftruncate(int file, off_t len) { return ftruncate64(file, len); }

int fsync(int file) {
    REAL(fsync);
    return is_struck(file) && !is("short") ? strike() : real(file);
}

int fdatasync(int file) {
    REAL(fdatasync);
    return is_struck(file) && !is("short") ? strike() : real(file);
}

int unlink(const char *path) {
    REAL(unlink);
    return is_struck(-1) && !is("short") ? strike() : real(path);
}

int unlinkat(int folder, const char *path, int flags) {
    REAL(unlinkat);
    return is_struck(-1) && !is("short") ? strike() : real(folder, path, flags);
}

#define MODE(flags) \
    mode_t mode = 0; \
    if (flags & O_CREAT) { \
        va_list rest; \
        va_start(rest, flags); \
        mode = va_arg(rest, mode_t); \
        va_end(rest); \
    }

int open64(const char *path, int flags, ...) {
    REAL(open64);
    MODE(flags)
    return (flags & O_CREAT) && is_struck(-1) && !is("short") ? strike() : real(path, flags, mode);
}
int open(const char *path, int flags, ...) {
    MODE(flags)
    return open64(path, flags, mode);
}

int openat64(int folder, const char *path, int flags, ...) {
    REAL(openat64);
    MODE(flags)
    return (flags & O_CREAT) && is_struck(-1) && !is("short") ? strike() : real(folder, path, flags, mode);
}
int openat(int folder, const char *path, int flags, ...) {
    MODE(flags)
    return openat64(folder, path, flags, mode);
}
