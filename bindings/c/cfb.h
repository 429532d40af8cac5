/* cfb.h: compound files (MS-CFB), the container of .doc, .xls, .msg, .msi and Thumbs.db, by a
   library that is proved. docs/BINDINGS.md says what the proofs cover.

   A handle is a struct in memory of your own. Initialize it with CFB_CLOSED, pass its address,
   and end it with cfb_close or cfb_entries_close. It is closed then and can be opened again.
   Closing a closed handle does nothing. Do not copy an open handle, and do not write to it.

   A call returns CFB_DONE, or why it failed. cfb_error_text has a text for each number, and
   cfb_reason has the details of the last failure. A failed call leaves the file unchanged, unless
   cfb_is_failed says that a change broke off, for example because memory ran out; cfb_write and
   cfb_put may leave the first of their bytes. What a call reports through a pointer is 0 if the
   call fails.

   Paths are UTF-8 and start at the root: "/Macros/VBA/dir". Names are compared without case, as
   the format wants. Calls whose name ends in _n take a path with its length; the macros below them
   take a text that ends in 0. A path that is not UTF-8, or has a 0 inside, is CFB_INVALID_INPUT.

   A NULL handle is CFB_NOT_OPEN and any other NULL is CFB_INVALID_INPUT, except where the length
   beside it is 0. A handle that is closed, or holds another kind of thing, is CFB_NOT_OPEN.
   Three things no call can check: a length must be that of the memory that it describes; no
   pointer may point into a handle or overlap what another pointer of the call reports to; and
   bytes that are lent must stay as they are until cfb_close.

   No call but cfb_open_lent keeps a pointer. A handle stays on the thread that opened it; other
   threads can use other handles at the same time. Make no call from a signal handler, nor in the
   child of fork in a program with threads. */
#ifndef CFB_H
#define CFB_H
#include <stdbool.h>
#include <stddef.h>
#include <stdint.h>
#include <stdlib.h>
#include <string.h>
#ifdef __cplusplus
extern "C" {
#endif

/* An open file, with what cfb_open keeps of it; and a list of objects. */
typedef struct cfb_file { void *at; struct cfb_source *source; } cfb_file;
typedef struct cfb_entries { void *at; } cfb_entries;
#ifdef __cplusplus
#define CFB_CLOSED {}
#else
#define CFB_CLOSED { 0 }
#endif

/* What calls return. */
enum {
    CFB_DONE = 0,
    CFB_NOT_FOUND = 1,      /* nothing is at the path, or its parent storage is missing */
    CFB_ALREADY_EXISTS = 2, /* an object is there already */
    CFB_INVALID_INPUT = 3,  /* a path, name, kind, offset, length or pointer is wrong */
    CFB_INVALID_DATA = 4,   /* the bytes are not a valid file, or a stream is not readable there */
    CFB_MEDIUM = 5,         /* a file could not be opened, read or written; errno says why */
    CFB_MEMORY = 6,         /* out of memory */
    CFB_FULL = 7,           /* the file has no sector ID or entry left for what is needed */
    CFB_UNSOUND = 8,        /* a change of a file that is damaged and can only be read */
    CFB_FAILED = 9,         /* an earlier change of the file broke off */
    CFB_TOO_SMALL = 10,     /* the buffer is too small; the length that is needed was reported */
    CFB_NOT_OPEN = 11       /* the handle does not hold what the call needs */
};

/* Kinds of objects. */
enum { CFB_STORAGE = 1, CFB_STREAM = 2, CFB_ROOT = 5 };

/* One object. Times count 100 nanoseconds since 1601 in UTC (FILETIME). A stream has no times and
   no class id. */
typedef struct cfb_entry_info {
    uint64_t len;      /* of a stream; of the root that of the mini stream; of other storages 0 */
    uint64_t created;
    uint64_t modified;
    uint32_t state_bits;
    uint8_t kind;
    uint8_t name_len;
    uint8_t clsid[16]; /* in the order of its text */
    char name[96];     /* UTF-8, ended by 0; the root's is "Root Entry" */
} cfb_entry_info;

/* ---- Opening and closing. What the handle held is closed first. After a failure the handle keeps
   the reason until cfb_close. A file is read and changed in memory. */
uint8_t cfb_open_bytes(cfb_file *file, const uint8_t *bytes, size_t len, bool is_strict);
uint8_t cfb_create_bytes(cfb_file *file, uint32_t version); /* version 3 or 4 */
/* The same without a copy: the bytes must stay as they are until cfb_close. The first change of the
   file copies them, and never writes to them. */
uint8_t cfb_open_lent(cfb_file *file, const uint8_t *bytes, size_t len, bool is_strict);
/* The same with bytes that come in pieces: begin with memory for `room` bytes (more is taken as
   needed), add the bytes in pieces, then open. If opening fails the bytes are gone. */
uint8_t cfb_bytes_begin(cfb_file *file, size_t room);
uint8_t cfb_bytes_add(cfb_file *file, const uint8_t *bytes, size_t len);
uint8_t cfb_bytes_open(cfb_file *file, bool is_strict);
/* A copy in memory without free sectors. */
uint8_t cfb_copy_bytes(cfb_file *file, cfb_file *copy);
/* Closes the file and keeps its bytes: cfb_bytes copies them out, as often as you like. */
uint8_t cfb_into_bytes(cfb_file *file, size_t *len);
uint8_t cfb_bytes(cfb_file *file, uint8_t *into, size_t room, size_t *len);
/* The bytes of an open file as they stand: how many, and up to `room` of them from `at` on. */
uint8_t cfb_image_len(cfb_file *file, uint64_t *len);
uint8_t cfb_image(cfb_file *file, uint64_t at, uint8_t *into, size_t room, size_t *len);
void cfb_close(cfb_file *file);

/* ---- Files of the system, by their paths (C in cfb_files.c, tested and not proved).
   A file above 128 KiB is mapped, so that only what is asked for is read, and kept open. No other
   program should change it until cfb_close; to replace it, as cfb_save does, is no change of it.
   If its bytes change, what is read can be wrong. If it was cut, calls that read it return
   CFB_MEDIUM with ESTALE; if it is cut while a call reads it, SIGBUS ends the program. The first
   change copies the bytes, and then nothing of this holds. To be safe from other programs, read
   the file yourself and use cfb_open_bytes or cfb_open_lent. Other files are read whole.
   is_strict also rejects what other writers are known to leave behind and what does no harm.
   Nothing changes a file in place: the proved part cannot reach files of the system from a static
   library, so a change reaches the disk by cfb_save alone. */
uint8_t cfb_open(cfb_file *file, const char *path, bool is_strict);
/* Replaces the file at the path with a copy without free sectors: all of it, or nothing. The copy
   is written beside it, synced, renamed, and the folder is synced. It gets the mode and the owner
   of the old file; if the owner cannot be kept, the call fails. The handle stays open. CFB_MEDIUM
   leaves the old file, except if only the last sync failed. */
uint8_t cfb_save(cfb_file *file, const char *path);

/* ---- Queries. */
uint8_t cfb_version(cfb_file *file, uint32_t *version); /* 3 or 4 */
uint8_t cfb_is_sound(cfb_file *file, bool *is_so);
uint8_t cfb_is_failed(cfb_file *file, bool *is_so);
uint8_t cfb_exists_n(cfb_file *file, const char *path, size_t path_len, bool *is_so);
uint8_t cfb_is_stream_n(cfb_file *file, const char *path, size_t path_len, bool *is_so);
uint8_t cfb_is_storage_n(cfb_file *file, const char *path, size_t path_len, bool *is_so);
uint8_t cfb_entry_n(cfb_file *file, const char *path, size_t path_len, cfb_entry_info *info);
/* Details of the last failure through this handle, without a 0 behind them; empty if the number
   says it all. */
uint8_t cfb_reason(cfb_file *file, char *into, size_t room, size_t *len);

/* ---- Lists: the first level of a storage in name order, or an object and all below it, each
   storage before what is in it. A list does not change later, and outlives the file. */
uint8_t cfb_list_n(cfb_file *file, const char *path, size_t path_len, cfb_entries *entries);
uint8_t cfb_walk_n(cfb_file *file, const char *path, size_t path_len, cfb_entries *entries);
uint8_t cfb_entries_len(cfb_entries *entries, size_t *len);
uint8_t cfb_entries_get(cfb_entries *entries, size_t number, cfb_entry_info *info);
uint8_t cfb_entries_path(cfb_entries *entries, size_t number, char *into, size_t room, size_t *len);

/* ---- Streams, by their paths. */
/* Up to `room` bytes from `at` on; fewer only at the end. Where pieces are read in turn, up to 1 MiB
   is read ahead and kept, until another stream is read or a call changes the file. */
uint8_t cfb_read_n(cfb_file *file, const char *path, size_t path_len, uint64_t at, uint8_t *into, size_t room, size_t *len);
/* All bytes. */
uint8_t cfb_get_n(cfb_file *file, const char *path, size_t path_len, uint8_t *into, size_t room, size_t *len);
/* A stream with these bytes, new or in place of what was there. */
uint8_t cfb_put_n(cfb_file *file, const char *path, size_t path_len, const uint8_t *bytes, size_t len);
/* An empty stream, new or in place of what was there; is_new rejects what is there. */
uint8_t cfb_create_stream_n(cfb_file *file, const char *path, size_t path_len, bool is_new);
/* All of these bytes from `at` on, which is not past the end. */
uint8_t cfb_write_n(cfb_file *file, const char *path, size_t path_len, uint64_t at, const uint8_t *bytes, size_t len);
uint8_t cfb_set_len_n(cfb_file *file, const char *path, size_t path_len, uint64_t len);
uint8_t cfb_remove_stream_n(cfb_file *file, const char *path, size_t path_len);

/* ---- Storages and fields. */
uint8_t cfb_create_storage_n(cfb_file *file, const char *path, size_t path_len, uint64_t moment);
uint8_t cfb_create_storage_all_n(cfb_file *file, const char *path, size_t path_len, uint64_t moment);
uint8_t cfb_remove_storage_n(cfb_file *file, const char *path, size_t path_len);
uint8_t cfb_remove_storage_all_n(cfb_file *file, const char *path, size_t path_len);
uint8_t cfb_set_clsid_n(cfb_file *file, const char *path, size_t path_len, const uint8_t clsid[16]);
uint8_t cfb_set_state_bits_n(cfb_file *file, const char *path, size_t path_len, uint32_t bits);
uint8_t cfb_set_created_n(cfb_file *file, const char *path, size_t path_len, uint64_t moment);
uint8_t cfb_set_modified_n(cfb_file *file, const char *path, size_t path_len, uint64_t moment);

/* ---- The same with paths that end in 0. */
static inline size_t cfb_text_len(const char *path) { return path ? strlen(path) : 1; }
#define CFB_BY_TEXT(name, parameters, ...) \
    static inline uint8_t name parameters { return name##_n(__VA_ARGS__); }
#define CFB_PATH path, cfb_text_len(path)
CFB_BY_TEXT(cfb_exists, (cfb_file *file, const char *path, bool *is_so), file, CFB_PATH, is_so)
CFB_BY_TEXT(cfb_is_stream, (cfb_file *file, const char *path, bool *is_so), file, CFB_PATH, is_so)
CFB_BY_TEXT(cfb_is_storage, (cfb_file *file, const char *path, bool *is_so), file, CFB_PATH, is_so)
CFB_BY_TEXT(cfb_entry, (cfb_file *file, const char *path, cfb_entry_info *info), file, CFB_PATH, info)
CFB_BY_TEXT(cfb_list, (cfb_file *file, const char *path, cfb_entries *entries), file, CFB_PATH, entries)
CFB_BY_TEXT(cfb_walk, (cfb_file *file, const char *path, cfb_entries *entries), file, CFB_PATH, entries)
CFB_BY_TEXT(cfb_read, (cfb_file *file, const char *path, uint64_t at, uint8_t *into, size_t room, size_t *len), file, CFB_PATH, at, into, room, len)
CFB_BY_TEXT(cfb_get, (cfb_file *file, const char *path, uint8_t *into, size_t room, size_t *len), file, CFB_PATH, into, room, len)
CFB_BY_TEXT(cfb_put, (cfb_file *file, const char *path, const uint8_t *bytes, size_t len), file, CFB_PATH, bytes, len)
CFB_BY_TEXT(cfb_create_stream, (cfb_file *file, const char *path, bool is_new), file, CFB_PATH, is_new)
CFB_BY_TEXT(cfb_write, (cfb_file *file, const char *path, uint64_t at, const uint8_t *bytes, size_t len), file, CFB_PATH, at, bytes, len)
CFB_BY_TEXT(cfb_set_len, (cfb_file *file, const char *path, uint64_t len), file, CFB_PATH, len)
CFB_BY_TEXT(cfb_remove_stream, (cfb_file *file, const char *path), file, CFB_PATH)
CFB_BY_TEXT(cfb_create_storage, (cfb_file *file, const char *path, uint64_t moment), file, CFB_PATH, moment)
CFB_BY_TEXT(cfb_create_storage_all, (cfb_file *file, const char *path, uint64_t moment), file, CFB_PATH, moment)
CFB_BY_TEXT(cfb_remove_storage, (cfb_file *file, const char *path), file, CFB_PATH)
CFB_BY_TEXT(cfb_remove_storage_all, (cfb_file *file, const char *path), file, CFB_PATH)
CFB_BY_TEXT(cfb_set_clsid, (cfb_file *file, const char *path, const uint8_t clsid[16]), file, CFB_PATH, clsid)
CFB_BY_TEXT(cfb_set_state_bits, (cfb_file *file, const char *path, uint32_t bits), file, CFB_PATH, bits)
CFB_BY_TEXT(cfb_set_created, (cfb_file *file, const char *path, uint64_t moment), file, CFB_PATH, moment)
CFB_BY_TEXT(cfb_set_modified, (cfb_file *file, const char *path, uint64_t moment), file, CFB_PATH, moment)
#undef CFB_PATH
#undef CFB_BY_TEXT

/* Closes a list. */
static inline void cfb_entries_close(cfb_entries *entries) {
    if (!entries) return;
    cfb_file rest = CFB_CLOSED;
    rest.at = entries->at;
    entries->at = NULL;
    cfb_close(&rest);
}

/* All bytes of a stream in memory from malloc, which you free; a byte 0 stands behind them. */
static inline uint8_t cfb_get_malloc(cfb_file *file, const char *path, uint8_t **bytes, size_t *len) {
    cfb_entry_info info;
    if (!bytes || !len) return CFB_INVALID_INPUT;
    *bytes = NULL;
    *len = 0;
    uint8_t refused = cfb_entry(file, path, &info);
    if (refused) return refused;
    if (info.kind != CFB_STREAM) return CFB_INVALID_INPUT;
    if (info.len >= SIZE_MAX) return CFB_MEMORY;
    uint8_t *room = (uint8_t *)malloc((size_t)info.len + 1);
    if (!room) return CFB_MEMORY;
    refused = cfb_read(file, path, 0, room, (size_t)info.len, len);
    if (refused) { free(room); return refused; }
    room[*len] = 0;
    *bytes = room;
    return CFB_DONE;
}

/* What a number means. */
static inline const char *cfb_error_text(uint8_t number) {
    switch (number) {
    case CFB_DONE: return "done";
    case CFB_NOT_FOUND: return "not found";
    case CFB_ALREADY_EXISTS: return "already exists";
    case CFB_INVALID_INPUT: return "invalid path, name or argument";
    case CFB_INVALID_DATA: return "not a valid compound file";
    case CFB_MEDIUM: return "the file could not be opened, read or written";
    case CFB_MEMORY: return "out of memory";
    case CFB_FULL: return "the compound file is full";
    case CFB_UNSOUND: return "the compound file is damaged and can only be read";
    case CFB_FAILED: return "an earlier change broke off";
    case CFB_TOO_SMALL: return "the buffer is too small";
    case CFB_NOT_OPEN: return "nothing is open";
    default: return "unknown";
    }
}
#ifdef __cplusplus
}
#endif
#endif
