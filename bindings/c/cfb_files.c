/* Files of the system for cfb.h. No proof covers this file. A file is mapped or read whole, and saved whole. */
#define _GNU_SOURCE
#include "cfb_source.h"
#include <errno.h>
#include <fcntl.h>
#include <limits.h>
#include <stdio.h>
#include <sys/mman.h>
#include <sys/stat.h>
#include <unistd.h>

#define PIECE ((size_t)1 << 18)

/* A file above this is mapped. A smaller one is read as quickly, and then nothing can cut it. */
#define MAPPED ((size_t)1 << 17)

void source_end(struct cfb_source *source) {
    if (source->fd < 0) {
        free(source->bytes);
    } else {
        munmap(source->bytes, source->len);
        close(source->fd);
    }
    free(source);
}

bool source_is_cut(const struct cfb_source *source) {
    struct stat now;
    if (source->fd < 0 || source->is_copied) return false;
    if (fstat(source->fd, &now) == 0 && now.st_size >= 0 && (uint64_t)now.st_size >= source->len) return false;
    errno = ESTALE;
    return true;
}

/* Reads all bytes of what is open into memory: so much at first, and more as needed. */
static uint8_t read_all(struct cfb_source *source, int fd, size_t room) {
    void *more = malloc(room);
    while (more) {
        source->bytes = more;
        ssize_t got = read(fd, (uint8_t *)more + source->len, room - source->len);
        if (got < 0 && errno == EINTR) continue;
        if (got < 0) return CFB_MEDIUM;
        if (got == 0) return CFB_DONE;
        source->len += (size_t)got;
        if (source->len == room) more = room > PTRDIFF_MAX / 2 ? NULL : realloc(more, room *= 2);
    }
    return CFB_MEMORY;
}

/* The bytes of what is open: mapped, with the file kept open, or read. */
static uint8_t take(struct cfb_source *source, int fd) {
    struct stat now;
    bool is_known = fstat(fd, &now) == 0 && S_ISREG(now.st_mode) && now.st_size > 0 && (uint64_t)now.st_size < PTRDIFF_MAX;
    size_t len = is_known ? (size_t)now.st_size : MAPPED;
    void *map = len > MAPPED ? mmap(NULL, len, PROT_READ, MAP_PRIVATE, fd, 0) : MAP_FAILED;
    if (map == MAP_FAILED) return read_all(source, fd, len + 1);
    *source = (struct cfb_source){ map, len, fd, false };
    return CFB_DONE;
}

/* Opens what is open, and closes it unless it is mapped. */
static uint8_t open_source(cfb_file *file, struct cfb_source *source, int fd, bool is_strict) {
    uint8_t refused = source ? take(source, fd) : CFB_MEMORY;
    int fault = errno;
    if (!source || source->fd < 0) close(fd);
    if (!refused) refused = cfb_open_lent(file, source->bytes, source->len, is_strict);
    if (refused && source) source_end(source);
    else file->source = source;
    errno = fault;
    return refused;
}

uint8_t cfb_open(cfb_file *file, const char *path, bool is_strict) {
    if (!file) return CFB_NOT_OPEN;
    cfb_close(file);
    if (!path) return CFB_INVALID_INPUT;
    int fd = open(path, O_RDONLY | O_CLOEXEC | O_NOCTTY);
    if (fd < 0) return CFB_MEDIUM;
    struct cfb_source *source = malloc(sizeof *source);
    if (source) *source = (struct cfb_source){ NULL, 0, -1, false };
    return open_source(file, source, fd, is_strict);
}

/* Writes all bytes of the file as it stands. */
static uint8_t write_image(cfb_file *file, int fd, uint8_t *piece) {
    uint64_t at = 0;
    for (;;) {
        size_t len;
        uint8_t refused = cfb_image(file, at, piece, PIECE, &len);
        if (refused || len == 0) return refused;
        for (size_t done = 0; done < len;) {
            ssize_t put = write(fd, piece + done, len - done);
            if (put < 0 && errno == EINTR) continue;
            if (put <= 0) return CFB_MEDIUM;
            done += (size_t)put;
        }
        at += len;
    }
}

/* Opens a new file beside the path, for the mode and the owner of the old one if there is one. */
static int open_beside(const char *path, const struct stat *old, char *beside, size_t room) {
    for (unsigned tried = 0; tried < 1000; tried++) {
        if ((size_t)snprintf(beside, room, "%s.%ld.%u.tmp", path, (long)getpid(), tried) >= room) break;
        int fd = open(beside, O_WRONLY | O_CREAT | O_EXCL | O_CLOEXEC, old ? 0600 : 0666);
        if (fd < 0 && errno == EEXIST) continue;
        if (fd < 0 || !old) return fd;
        struct stat made;
        bool same = fstat(fd, &made) == 0 && made.st_uid == old->st_uid && made.st_gid == old->st_gid;
        if ((same || fchown(fd, old->st_uid, old->st_gid) == 0) && fchmod(fd, old->st_mode & 07777) == 0) return fd;
        int fault = errno;
        close(fd);
        unlink(beside);
        errno = fault;
        return -1;
    }
    errno = ENAMETOOLONG;
    return -1;
}

static bool sync_folder_of(const char *path) {
    char folder[PATH_MAX];
    const char *name = strrchr(path, '/');
    size_t len = name ? (size_t)(name - path) : 0;
    if (len >= sizeof folder) { errno = ENAMETOOLONG; return false; }
    memcpy(folder, path, len);
    strcpy(folder + len, len ? "" : name ? "/" : ".");
    int fd = open(folder, O_RDONLY | O_DIRECTORY | O_CLOEXEC);
    if (fd < 0) return false;
    bool done = fsync(fd) == 0 || errno == EINVAL; /* not every file system has it for folders */
    int fault = errno;
    close(fd);
    errno = fault;
    return done;
}

/* The file as it stands in the place of what is at the path: all of it, or nothing. */
static uint8_t replace(cfb_file *file, const char *path, uint8_t *piece) {
    char beside[PATH_MAX];
    struct stat old;
    bool is_there = stat(path, &old) == 0;
    if (!is_there && errno != ENOENT) return CFB_MEDIUM;
    if (is_there && !S_ISREG(old.st_mode)) { errno = EINVAL; return CFB_MEDIUM; }
    int fd = open_beside(path, is_there ? &old : NULL, beside, sizeof beside);
    if (fd < 0) return CFB_MEDIUM;
    uint8_t refused = write_image(file, fd, piece);
    if (!refused && fsync(fd) != 0) refused = CFB_MEDIUM;
    int fault = errno;
    if (close(fd) != 0 && !refused) { refused = CFB_MEDIUM; fault = errno; }
    if (!refused && rename(beside, path) != 0) { refused = CFB_MEDIUM; fault = errno; }
    if (refused) { unlink(beside); errno = fault; return refused; }
    return sync_folder_of(path) ? CFB_DONE : CFB_MEDIUM;
}

uint8_t cfb_save(cfb_file *file, const char *path) {
    cfb_file copy = CFB_CLOSED;
    char there[PATH_MAX];
    if (!file) return CFB_NOT_OPEN;
    if (!path) return CFB_INVALID_INPUT;
    uint8_t refused = cfb_copy_bytes(file, &copy);
    uint8_t *piece = malloc(PIECE);
    if (!refused && !piece) refused = CFB_MEMORY;
    /* a link stays, and what it leads to is replaced */
    if (!refused) refused = replace(&copy, realpath(path, there) ? there : path, piece);
    int fault = errno;
    free(piece);
    cfb_close(&copy);
    errno = fault;
    return refused;
}
