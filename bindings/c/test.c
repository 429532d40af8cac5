/* Each call where it works and where it fails. Status 0, or the first check that failed. */
#define _GNU_SOURCE
#include "cfb.h"
#include <errno.h>
#include <stdio.h>
#include <sys/mman.h>
#include <sys/stat.h>
#include <unistd.h>

#define CHECK(holds) do { if (!(holds)) { fprintf(stderr, "%s:%d: %s\n", __FILE__, __LINE__, #holds); exit(1); } } while (0)

static bool says(cfb_file *file, const char *part) {
    char text[256];
    size_t len = 0;
    if (cfb_reason(file, text, sizeof text - 1, &len) != CFB_DONE) return false;
    text[len] = 0;
    return strstr(text, part) != NULL;
}

static void change(cfb_file *f) {
    uint8_t room[8192], *whole;
    uint8_t clsid[16] = { 0, 2, 8, 0x20, 0, 0, 0, 0, 0xc0, 0, 0, 0, 0, 0, 0, 0x46 };
    size_t len = 7;
    bool is = false;
    cfb_entry_info info;
    CHECK(cfb_create_storage(f, "/a", 116444736000000000) == CFB_DONE);
    CHECK(cfb_create_storage(f, "/a", 0) == CFB_ALREADY_EXISTS);
    CHECK(cfb_create_storage(f, "/n/m", 0) == CFB_NOT_FOUND);
    CHECK(cfb_create_storage_all(f, "/a/b/c", 5) == CFB_DONE);
    CHECK(cfb_put(f, "/a/b/x", (const uint8_t *)"hello", 5) == CFB_DONE);
    CHECK(cfb_create_stream(f, "/a/y", true) == CFB_DONE);
    CHECK(cfb_create_stream(f, "/a/y", true) == CFB_ALREADY_EXISTS);
    CHECK(cfb_create_stream(f, "/a/y", false) == CFB_DONE);
    memset(room, 42, sizeof room);
    CHECK(cfb_write(f, "/a/y", 0, room, sizeof room) == CFB_DONE);
    CHECK(cfb_write(f, "/a/y", 8000, (const uint8_t *)"world", 5) == CFB_DONE);
    CHECK(cfb_write(f, "/a/y", 8193, (const uint8_t *)"!", 1) == CFB_INVALID_INPUT);
    CHECK(cfb_read(f, "/A/Y", 7999, room, 7, &len) == CFB_DONE && len == 7 && memcmp(room, "*world*", 7) == 0);
    CHECK(cfb_read(f, "/a/y", 8190, room, 7, &len) == CFB_DONE && len == 2);
    CHECK(cfb_read(f, "/a/y", 8192, room, 7, &len) == CFB_DONE && len == 0);
    CHECK(cfb_read(f, "/a/y", 1u << 30, room, 7, &len) == CFB_DONE && len == 0);
    CHECK(cfb_read(f, "/a", 0, room, 7, &len) == CFB_INVALID_INPUT && len == 0);
    len = 7;
    CHECK(cfb_read(f, "/n", 0, room, 7, &len) == CFB_NOT_FOUND && len == 0);
    CHECK(cfb_write(f, "/n", 0, room, 1) == CFB_NOT_FOUND && cfb_set_len(f, "/n", 1) == CFB_NOT_FOUND);
    CHECK(cfb_get(f, "/a/b/x", room, 4, &len) == CFB_TOO_SMALL && len == 5);
    CHECK(cfb_get(f, "/a/b/x", room, 5, &len) == CFB_DONE && len == 5 && memcmp(room, "hello", 5) == 0);
    CHECK(cfb_get_malloc(f, "/a/y", &whole, &len) == CFB_DONE && len == 8192 && whole[len] == 0);
    free(whole);
    CHECK(cfb_set_len(f, "/a/y", 8195) == CFB_DONE);
    CHECK(cfb_read(f, "/a/y", 8191, room, 7, &len) == CFB_DONE && len == 4 && memcmp(room, "*\0\0\0", 4) == 0);
    CHECK(cfb_set_len(f, "/a/y", 3) == CFB_DONE);
    CHECK(cfb_put(f, "/e", room, 4) == CFB_DONE && cfb_create_stream(f, "/e", true) == CFB_ALREADY_EXISTS);
    CHECK(cfb_get(f, "/e", room, 4, &len) == CFB_DONE && len == 4 && cfb_create_stream(f, "/e", false) == CFB_DONE);
    CHECK(cfb_get(f, "/e", room, 4, &len) == CFB_DONE && len == 0 && cfb_remove_stream(f, "/e") == CFB_DONE);
    CHECK(cfb_set_clsid(f, "/a", clsid) == CFB_DONE);
    CHECK(cfb_set_state_bits(f, "/a", 9) == CFB_DONE);
    CHECK(cfb_set_created(f, "/a", 7) == CFB_DONE && cfb_set_modified(f, "/a", 8) == CFB_DONE);
    CHECK(cfb_entry(f, "/a", &info) == CFB_DONE);
    CHECK(info.kind == CFB_STORAGE && info.len == 0 && info.created == 7 && info.modified == 8 && info.state_bits == 9);
    CHECK(memcmp(info.clsid, clsid, 16) == 0 && strcmp(info.name, "a") == 0 && info.name_len == 1);
    CHECK(cfb_entry(f, "/", &info) == CFB_DONE && info.kind == CFB_ROOT && strcmp(info.name, "Root Entry") == 0);
    CHECK(cfb_entry(f, "/a/y", &info) == CFB_DONE && info.kind == CFB_STREAM && info.len == 3 && info.created == 0);
    CHECK(cfb_exists(f, "/a/b", &is) == CFB_DONE && is && cfb_exists(f, "/b", &is) == CFB_DONE && !is);
    CHECK(cfb_is_stream(f, "/a/b/x", &is) == CFB_DONE && is && cfb_is_stream(f, "/a/b", &is) == CFB_DONE && !is);
    CHECK(cfb_is_storage(f, "/a/b", &is) == CFB_DONE && is && cfb_is_storage(f, "/a/b/x", &is) == CFB_DONE && !is);
    cfb_entries list = CFB_CLOSED;
    char path[64];
    CHECK(cfb_walk(f, "/", &list) == CFB_DONE && cfb_entries_len(&list, &len) == CFB_DONE && len == 6);
    CHECK(cfb_entries_path(&list, 4, path, 3, &len) == CFB_TOO_SMALL && len == 6);
    CHECK(cfb_entries_path(&list, 4, path, sizeof path, &len) == CFB_DONE && len == 6 && memcmp(path, "/a/b/x", 6) == 0);
    CHECK(cfb_entries_get(&list, 5, &info) == CFB_DONE && strcmp(info.name, "y") == 0);
    CHECK(cfb_entries_get(&list, 6, &info) == CFB_INVALID_INPUT);
    CHECK(cfb_list(f, "/a", &list) == CFB_DONE && cfb_entries_len(&list, &len) == CFB_DONE && len == 2);
    CHECK(cfb_list(f, "/a/y", &list) == CFB_INVALID_INPUT);
    cfb_entries_close(&list);
    CHECK(cfb_entries_len(&list, &len) == CFB_NOT_OPEN);
    CHECK(cfb_remove_storage(f, "/a") == CFB_INVALID_INPUT);
    CHECK(cfb_remove_storage(f, "/a/b/c") == CFB_DONE);
    CHECK(cfb_remove_stream(f, "/a/b/x") == CFB_DONE && cfb_remove_stream(f, "/a/b/x") == CFB_NOT_FOUND);
    CHECK(cfb_is_sound(f, &is) == CFB_DONE && is && cfb_is_failed(f, &is) == CFB_DONE && !is);
    CHECK(cfb_remove_storage_all(f, "/a") == CFB_DONE && cfb_exists(f, "/a", &is) == CFB_DONE && !is);
    CHECK(cfb_put(f, "/z", (const uint8_t *)"zz", 2) == CFB_DONE);
}

/* Every call on a handle that holds no open file: it must return NOT_OPEN and report nothing. */
static void refuses_all(cfb_file *f) {
    uint8_t room[8], clsid[16] = { 0 };
    size_t len = 7;
    uint64_t long_len = 7;
    uint32_t version = 7;
    bool is = true;
    cfb_entry_info info = { .len = 7 };
    cfb_entries list = CFB_CLOSED;
    cfb_file copy = CFB_CLOSED;
    CHECK(cfb_copy_bytes(f, &copy) == CFB_NOT_OPEN && !copy.at);
    CHECK(cfb_into_bytes(f, &len) == CFB_NOT_OPEN && len == 0);
    CHECK(cfb_image_len(f, &long_len) == CFB_NOT_OPEN && long_len == 0);
    CHECK(cfb_image(f, 0, room, sizeof room, &len) == CFB_NOT_OPEN && len == 0);
    CHECK(cfb_save(f, "/tmp/never") == CFB_NOT_OPEN);
    CHECK(cfb_version(f, &version) == CFB_NOT_OPEN && version == 0);
    CHECK(cfb_is_sound(f, &is) == CFB_NOT_OPEN && !is);
    CHECK(cfb_is_failed(f, &is) == CFB_NOT_OPEN && !is);
    CHECK(cfb_exists(f, "/", &is) == CFB_NOT_OPEN && !is);
    CHECK(cfb_is_stream(f, "/", &is) == CFB_NOT_OPEN && !is);
    CHECK(cfb_is_storage(f, "/", &is) == CFB_NOT_OPEN && !is);
    CHECK(cfb_entry(f, "/", &info) == CFB_NOT_OPEN && info.len == 0);
    CHECK(cfb_list(f, "/", &list) == CFB_NOT_OPEN && !list.at);
    CHECK(cfb_walk(f, "/", &list) == CFB_NOT_OPEN && !list.at);
    CHECK(cfb_read(f, "/x", 0, room, sizeof room, &len) == CFB_NOT_OPEN && len == 0);
    CHECK(cfb_get(f, "/x", room, sizeof room, &len) == CFB_NOT_OPEN && len == 0);
    CHECK(cfb_put(f, "/x", room, sizeof room) == CFB_NOT_OPEN);
    CHECK(cfb_create_stream(f, "/x", true) == CFB_NOT_OPEN);
    CHECK(cfb_write(f, "/x", 0, room, sizeof room) == CFB_NOT_OPEN);
    CHECK(cfb_set_len(f, "/x", 0) == CFB_NOT_OPEN);
    CHECK(cfb_remove_stream(f, "/x") == CFB_NOT_OPEN);
    CHECK(cfb_create_storage(f, "/s", 0) == CFB_NOT_OPEN);
    CHECK(cfb_create_storage_all(f, "/s", 0) == CFB_NOT_OPEN);
    CHECK(cfb_remove_storage(f, "/s") == CFB_NOT_OPEN);
    CHECK(cfb_remove_storage_all(f, "/s") == CFB_NOT_OPEN);
    CHECK(cfb_set_clsid(f, "/s", clsid) == CFB_NOT_OPEN);
    CHECK(cfb_set_state_bits(f, "/s", 0) == CFB_NOT_OPEN);
    CHECK(cfb_set_created(f, "/s", 0) == CFB_NOT_OPEN);
    CHECK(cfb_set_modified(f, "/s", 0) == CFB_NOT_OPEN);
}

/* Every call by path with a path that is none: it must return INVALID_INPUT and change nothing. */
static void refuses_path(cfb_file *f, const char *path, size_t n) {
    uint8_t room[8], clsid[16] = { 0 };
    size_t len = 7;
    bool is = true;
    cfb_entry_info info;
    cfb_entries list = CFB_CLOSED;
    CHECK(cfb_exists_n(f, path, n, &is) == CFB_INVALID_INPUT && !is);
    CHECK(cfb_is_stream_n(f, path, n, &is) == CFB_INVALID_INPUT && !is);
    CHECK(cfb_is_storage_n(f, path, n, &is) == CFB_INVALID_INPUT && !is);
    CHECK(cfb_entry_n(f, path, n, &info) == CFB_INVALID_INPUT && info.kind == 0);
    CHECK(cfb_list_n(f, path, n, &list) == CFB_INVALID_INPUT && !list.at);
    CHECK(cfb_walk_n(f, path, n, &list) == CFB_INVALID_INPUT && !list.at);
    CHECK(cfb_read_n(f, path, n, 0, room, sizeof room, &len) == CFB_INVALID_INPUT && len == 0);
    CHECK(cfb_get_n(f, path, n, room, sizeof room, &len) == CFB_INVALID_INPUT && len == 0);
    CHECK(cfb_put_n(f, path, n, room, sizeof room) == CFB_INVALID_INPUT);
    CHECK(cfb_create_stream_n(f, path, n, true) == CFB_INVALID_INPUT);
    CHECK(cfb_create_stream_n(f, path, n, false) == CFB_INVALID_INPUT);
    CHECK(cfb_write_n(f, path, n, 0, room, sizeof room) == CFB_INVALID_INPUT);
    CHECK(cfb_set_len_n(f, path, n, 0) == CFB_INVALID_INPUT);
    CHECK(cfb_remove_stream_n(f, path, n) == CFB_INVALID_INPUT);
    CHECK(cfb_create_storage_n(f, path, n, 0) == CFB_INVALID_INPUT);
    CHECK(cfb_create_storage_all_n(f, path, n, 0) == CFB_INVALID_INPUT);
    CHECK(cfb_remove_storage_n(f, path, n) == CFB_INVALID_INPUT);
    CHECK(cfb_remove_storage_all_n(f, path, n) == CFB_INVALID_INPUT);
    CHECK(cfb_set_clsid_n(f, path, n, clsid) == CFB_INVALID_INPUT);
    CHECK(cfb_set_state_bits_n(f, path, n, 0) == CFB_INVALID_INPUT);
    CHECK(cfb_set_created_n(f, path, n, 0) == CFB_INVALID_INPUT);
    CHECK(cfb_set_modified_n(f, path, n, 0) == CFB_INVALID_INPUT);
}

/* NULL in each place, and the same handle twice. */
static void refuses_null(cfb_file *f) {
    uint8_t byte = 1;
    size_t len = 0;
    cfb_entries list = CFB_CLOSED;
    refuses_all(NULL);
    CHECK(cfb_open_bytes(NULL, &byte, 1, false) == CFB_NOT_OPEN && cfb_open(NULL, "/x", false) == CFB_NOT_OPEN);
    CHECK(cfb_create_bytes(NULL, 3) == CFB_NOT_OPEN && cfb_bytes_begin(NULL, 1) == CFB_NOT_OPEN);
    CHECK(cfb_bytes_add(NULL, &byte, 1) == CFB_NOT_OPEN && cfb_bytes_open(NULL, false) == CFB_NOT_OPEN);
    CHECK(cfb_bytes(NULL, &byte, 1, &len) == CFB_NOT_OPEN && cfb_entries_len(NULL, &len) == CFB_NOT_OPEN);
    cfb_close(NULL);
    cfb_entries_close(NULL);
    CHECK(cfb_exists(f, NULL, NULL) == CFB_INVALID_INPUT && cfb_put(f, NULL, &byte, 1) == CFB_INVALID_INPUT);
    CHECK(cfb_put(f, "/n", NULL, 1) == CFB_INVALID_INPUT && cfb_put(f, "/n", &byte, (size_t)-1) == CFB_INVALID_INPUT);
    CHECK(cfb_put(f, "/n", NULL, 0) == CFB_DONE && cfb_remove_stream(f, "/n") == CFB_DONE);
    CHECK(cfb_read(f, "/z", 0, NULL, 1, &len) == CFB_INVALID_INPUT && cfb_read(f, "/z", 0, &byte, 1, NULL) == CFB_INVALID_INPUT);
    CHECK(cfb_version(f, NULL) == CFB_INVALID_INPUT && cfb_entry(f, "/", NULL) == CFB_INVALID_INPUT);
    CHECK(cfb_set_clsid(f, "/", NULL) == CFB_INVALID_INPUT && cfb_save(f, NULL) == CFB_INVALID_INPUT);
    CHECK(cfb_list(f, "/", NULL) == CFB_NOT_OPEN && cfb_copy_bytes(f, NULL) == CFB_NOT_OPEN);
    CHECK(cfb_copy_bytes(f, f) == CFB_INVALID_INPUT && cfb_list(f, "/", (cfb_entries *)f) == CFB_INVALID_INPUT);
    CHECK(cfb_get_malloc(f, "/z", NULL, &len) == CFB_INVALID_INPUT);
    /* a handle of another kind */
    CHECK(cfb_list(f, "/", &list) == CFB_DONE);
    refuses_all((cfb_file *)&list);
    CHECK(cfb_bytes((cfb_file *)&list, &byte, 1, &len) == CFB_NOT_OPEN && cfb_bytes_add((cfb_file *)&list, &byte, 1) == CFB_NOT_OPEN);
    CHECK(cfb_bytes_open((cfb_file *)&list, false) == CFB_NOT_OPEN && cfb_entries_len(&list, &len) == CFB_DONE);
    CHECK(cfb_entries_len((cfb_entries *)f, &len) == CFB_NOT_OPEN && len == 0);
    cfb_entries_close(&list);
}

/* The bytes of a file in pieces, and as they stand. */
static void pieces(uint8_t *bytes, size_t len) {
    cfb_file f = CFB_CLOSED;
    cfb_entries list = CFB_CLOSED;
    uint8_t room[700];
    uint64_t all = 0;
    size_t got = 0;
    bool is = false;
    CHECK(cfb_bytes_begin(&f, 0) == CFB_DONE);
    for (size_t at = 0; at < len; at += 100) CHECK(cfb_bytes_add(&f, bytes + at, len - at < 100 ? len - at : 100) == CFB_DONE);
    refuses_all(&f);
    CHECK(cfb_bytes_open(&f, true) == CFB_DONE && cfb_is_stream(&f, "/z", &is) == CFB_DONE && is);
    CHECK(cfb_bytes_add(&f, bytes, 1) == CFB_NOT_OPEN && cfb_bytes_open(&f, true) == CFB_NOT_OPEN);
    CHECK(cfb_image_len(&f, &all) == CFB_DONE && all == len);
    for (size_t at = 0; at < len; at += got) {
        CHECK(cfb_image(&f, at, room, sizeof room, &got) == CFB_DONE && got > 0 && memcmp(room, bytes + at, got) == 0);
    }
    CHECK(cfb_image(&f, len, room, sizeof room, &got) == CFB_DONE && got == 0);
    CHECK(cfb_image(&f, UINT64_MAX, room, sizeof room, &got) == CFB_DONE && got == 0);
    /* a list outlives its file */
    CHECK(cfb_walk(&f, "/", &list) == CFB_DONE);
    CHECK(cfb_bytes_begin(&f, 10) == CFB_DONE && cfb_bytes_open(&f, false) == CFB_INVALID_DATA);
    refuses_all(&f);
    cfb_close(&f);
    CHECK(cfb_entries_len(&list, &got) == CFB_DONE && got == 2);
    CHECK(cfb_entries_path(&list, 1, (char *)room, sizeof room, &got) == CFB_DONE && got == 2 && memcmp(room, "/z", 2) == 0);
    cfb_entries_close(&list);
}

static uint8_t of(size_t at) { return (uint8_t)(at * 7 + at / 251); }

/* Streams that are read in turn, in small pieces, and changed meanwhile. */
static void in_turn(cfb_file *f) {
    enum { LEN = 300000, PIECE = 4096 };
    static uint8_t bytes[LEN], room[PIECE];
    size_t got = 0, other = 0;
    for (size_t i = 0; i < LEN; i++) bytes[i] = of(i);
    CHECK(cfb_put(f, "/t", bytes, LEN) == CFB_DONE && cfb_put(f, "/u", bytes + 1, LEN - 1) == CFB_DONE);
    for (size_t at = 0; at < LEN; at += got) {
        CHECK(cfb_read(f, "/t", at, room, PIECE, &got) == CFB_DONE && got == (LEN - at < PIECE ? LEN - at : PIECE));
        CHECK(memcmp(room, bytes + at, got) == 0);
    }
    CHECK(cfb_read(f, "/t", LEN, room, PIECE, &got) == CFB_DONE && got == 0);
    CHECK(cfb_read(f, "/t", LEN + 1, room, PIECE, &got) == CFB_DONE && got == 0);
    CHECK(cfb_read(f, "/t", UINT64_MAX, room, PIECE, &got) == CFB_DONE && got == 0);
    /* two at once, and back and forth */
    for (size_t at = 0; at + 500 < LEN; at += 100) {
        CHECK(cfb_read(f, at % 300 ? "/T" : "/u", at, room, 500, &got) == CFB_DONE && got == 500);
        CHECK(memcmp(room, bytes + at + (at % 300 ? 0 : 1), 500) == 0);
    }
    /* what was read ahead is not what is there after a change */
    for (size_t at = 0; at + PIECE < LEN; at += PIECE) {
        CHECK(cfb_read(f, "/t", at, room, PIECE, &got) == CFB_DONE && memcmp(room, bytes + at, got) == 0);
        bytes[at + PIECE] ^= 0xff;
        CHECK(cfb_write(f, "/t", at + PIECE, bytes + at + PIECE, 1) == CFB_DONE);
    }
    CHECK(cfb_read(f, "/t", LEN - PIECE, room, PIECE, &got) == CFB_DONE && cfb_set_len(f, "/t", LEN - 9) == CFB_DONE);
    CHECK(cfb_read(f, "/t", LEN - 10, room, PIECE, &got) == CFB_DONE && got == 1);
    CHECK(cfb_read(f, "/t", 0, room, 1, &got) == CFB_DONE && cfb_read(f, "/t", 1, room, 1, &got) == CFB_DONE && cfb_read(f, "/t", 2, room, 1, &got) == CFB_DONE);
    CHECK(cfb_put(f, "/t", bytes, 3) == CFB_DONE && cfb_read(f, "/t", 3, room, 1, &got) == CFB_DONE && got == 0);
    CHECK(cfb_read(f, "/t", 2, room, 9, &other) == CFB_DONE && other == 1 && room[0] == bytes[2]);
    CHECK(cfb_remove_stream(f, "/t") == CFB_DONE && cfb_read(f, "/t", 3, room, 1, &got) == CFB_NOT_FOUND && got == 0);
    CHECK(cfb_remove_stream(f, "/u") == CFB_DONE);
}

/* Bytes that are lent: they can be in memory that nothing writes to, and a file over them can be changed. */
static void lent(const uint8_t *bytes, size_t len) {
    cfb_file f = CFB_CLOSED, g = CFB_CLOSED;
    uint8_t room[8], *there = mmap(NULL, len, PROT_READ | PROT_WRITE, MAP_PRIVATE | MAP_ANONYMOUS, -1, 0);
    size_t got = 0;
    uint64_t all = 0;
    bool is = false;
    CHECK(there != MAP_FAILED);
    memcpy(there, bytes, len);
    CHECK(mprotect(there, len, PROT_READ) == 0);
    CHECK(cfb_open_lent(NULL, there, len, false) == CFB_NOT_OPEN && cfb_open_lent(&f, NULL, 1, false) == CFB_INVALID_INPUT);
    CHECK(cfb_open_lent(&f, there, 100, false) == CFB_INVALID_DATA);
    refuses_all(&f);
    CHECK(cfb_open_lent(&f, there, len, true) == CFB_DONE && cfb_get(&f, "/z", room, 8, &got) == CFB_DONE && got == 2);
    CHECK(cfb_open_lent(&g, there, len, true) == CFB_DONE && cfb_image_len(&g, &all) == CFB_DONE && all == len);
    CHECK(cfb_put(&f, "/w", there, 5000) == CFB_DONE && cfb_remove_stream(&f, "/z") == CFB_DONE);
    CHECK(cfb_is_stream(&f, "/z", &is) == CFB_DONE && !is && cfb_is_stream(&g, "/z", &is) == CFB_DONE && is);
    CHECK(memcmp(there, bytes, len) == 0);
    /* closed and kept, they are lent still */
    CHECK(cfb_into_bytes(&g, &got) == CFB_DONE && got == len && cfb_bytes_open(&g, true) == CFB_DONE);
    CHECK(cfb_into_bytes(&g, &got) == CFB_DONE && cfb_bytes_add(&g, room, 1) == CFB_DONE && cfb_bytes(&g, room, 0, &got) == CFB_TOO_SMALL && got == len + 1);
    CHECK(cfb_open_lent(&g, there, len, false) == CFB_DONE && cfb_copy_bytes(&g, &f) == CFB_DONE && cfb_is_stream(&f, "/z", &is) == CFB_DONE && is);
    cfb_close(&g);
    CHECK(munmap(there, len) == 0);
    /* a copy has bytes of its own */
    CHECK(cfb_get(&f, "/z", room, 8, &got) == CFB_DONE && got == 2);
    cfb_close(&f);
}

/* A file that is mapped, and what can happen to it meanwhile. */
static void mapped(const char *path) {
    enum { LEN = 300000 };
    static uint8_t bytes[LEN], room[LEN];
    cfb_file f = CFB_CLOSED, g = CFB_CLOSED;
    bool is = false;
    size_t got = 0;
    for (size_t i = 0; i < LEN; i++) bytes[i] = of(i);
    CHECK(cfb_create_bytes(&f, 3) == CFB_DONE && cfb_put(&f, "/big", bytes, LEN) == CFB_DONE && cfb_put(&f, "/z", bytes, 2) == CFB_DONE);
    CHECK(cfb_save(&f, path) == CFB_DONE);
    /* what is kept of it goes when the handle holds something else, and stays when that is refused */
    CHECK(cfb_open(&f, path, true) == CFB_DONE && f.source && cfb_create_bytes(&f, 3) == CFB_DONE && !f.source);
    CHECK(cfb_open(&g, path, true) == CFB_DONE && g.source && cfb_copy_bytes(&f, &g) == CFB_DONE && !g.source);
    CHECK(cfb_open(&g, path, true) == CFB_DONE && cfb_into_bytes(&f, &got) == CFB_DONE);
    CHECK(cfb_copy_bytes(&f, &g) == CFB_NOT_OPEN && g.source && cfb_is_stream(&g, "/z", &is) == CFB_DONE && is);
    CHECK(cfb_into_bytes(&g, &got) == CFB_DONE && g.source && cfb_bytes_open(&g, true) == CFB_DONE && g.source);
    /* to replace it is no change of it */
    CHECK(cfb_open(&f, path, true) == CFB_DONE && cfb_put(&g, "/w", NULL, 0) == CFB_DONE && cfb_save(&g, path) == CFB_DONE);
    CHECK(cfb_is_stream(&g, "/w", &is) == CFB_DONE && is && cfb_is_stream(&f, "/w", &is) == CFB_DONE && !is);
    CHECK(cfb_get(&f, "/big", room, LEN, &got) == CFB_DONE && got == LEN && memcmp(room, bytes, LEN) == 0);
    /* where it is cut, what was changed has bytes of its own, and the rest is told */
    CHECK(cfb_open(&f, path, true) == CFB_DONE && cfb_open(&g, path, true) == CFB_DONE && cfb_put(&f, "/w", bytes, 9) == CFB_DONE);
    CHECK(truncate(path, 1000) == 0);
    CHECK(cfb_get(&f, "/big", room, LEN, &got) == CFB_DONE && got == LEN && memcmp(room, bytes, LEN) == 0);
    errno = 0;
    CHECK(cfb_get(&g, "/big", room, LEN, &got) == CFB_MEDIUM && errno == ESTALE && got == 0);
    CHECK(cfb_put(&g, "/w", bytes, 9) == CFB_MEDIUM && cfb_image(&g, 0, room, LEN, &got) == CFB_MEDIUM);
    CHECK(cfb_read(&g, "/z", 0, room, 9, &got) == CFB_MEDIUM && cfb_is_stream(&g, "/z", &is) == CFB_DONE && is);
    errno = 0;
    CHECK(cfb_save(&g, path) == CFB_MEDIUM && errno == ESTALE && cfb_save(&f, path) == CFB_DONE);
    CHECK(cfb_open(&g, path, true) == CFB_DONE && cfb_get(&g, "/w", room, LEN, &got) == CFB_DONE && got == 9 && memcmp(room, bytes, 9) == 0);
    cfb_close(&f);
    cfb_close(&g);
}

/* Files that are not mapped: a small one, which can be cut, a pipe and what has no bytes. */
static void not_mapped(const char *path) {
    cfb_file f = CFB_CLOSED;
    uint8_t room[8], bytes[60000];
    char name[32];
    int ends[2];
    size_t got = 0, len = 0;
    CHECK(cfb_open(&f, path, true) == CFB_DONE && truncate(path, 0) == 0);
    CHECK(cfb_get(&f, "/z", room, 8, &got) == CFB_DONE && got == 2 && cfb_save(&f, path) == CFB_DONE);
    CHECK(cfb_image(&f, 0, bytes, sizeof bytes, &len) == CFB_DONE && len < sizeof bytes);
    CHECK(pipe(ends) == 0 && write(ends[1], bytes, len) == (ssize_t)len && close(ends[1]) == 0);
    snprintf(name, sizeof name, "/dev/fd/%d", ends[0]);
    CHECK(cfb_open(&f, name, true) == CFB_DONE && close(ends[0]) == 0 && cfb_get(&f, "/z", room, 8, &got) == CFB_DONE && got == 2);
    CHECK(cfb_open(&f, "/dev/null", false) == CFB_INVALID_DATA && !f.source);
    CHECK(cfb_open(&f, "/", false) == CFB_MEDIUM && errno == EISDIR && !f.source);
    cfb_close(&f);
}

/* The number that the next file gets that is opened. */
static int next_number(void) {
    int number = dup(0);
    close(number);
    return number;
}

int main(int argc, char **argv) {
    const char *dir = argc > 1 ? argv[1] : "/tmp";
    char made[512];
    snprintf(made, sizeof made, "%s/cfb-test-%d.cfb", dir, (int)getpid());
    cfb_file f = CFB_CLOSED, g = CFB_CLOSED;
    uint32_t version = 0;
    size_t len = 0;
    bool is = false;
    struct stat now;
    cfb_close(&f);
    refuses_all(&f);
    for (uint32_t v = 3; v <= 4; v++) {
        /* in memory */
        CHECK(cfb_create_bytes(&f, 5) == CFB_INVALID_INPUT && says(&f, "version") && cfb_version(&f, &version) == CFB_NOT_OPEN);
        CHECK(cfb_create_bytes(&f, v) == CFB_DONE && cfb_version(&f, &version) == CFB_DONE && version == v);
        change(&f);
        in_turn(&f);
        refuses_path(&f, "/\xff", 2);
        CHECK(says(&f, "UTF-8"));
        refuses_path(&f, "/a\0b", 4);
        CHECK(says(&f, "zero"));
        refuses_null(&f);
        CHECK(cfb_copy_bytes(&f, &g) == CFB_DONE && cfb_exists(&g, "/z", &is) == CFB_DONE && is);
        CHECK(cfb_bytes(&f, (uint8_t *)made, 0, &len) == CFB_NOT_OPEN);
        CHECK(cfb_into_bytes(&f, &len) == CFB_DONE && len >= 1536);
        uint8_t *bytes = malloc(len);
        CHECK(cfb_bytes(&f, bytes, len - 1, &len) == CFB_TOO_SMALL);
        CHECK(cfb_bytes(&f, bytes, len, &len) == CFB_DONE && cfb_version(&f, &version) == CFB_NOT_OPEN);
        CHECK(cfb_open_bytes(&g, bytes, len, true) == CFB_DONE && cfb_is_stream(&g, "/z", &is) == CFB_DONE && is);
        pieces(bytes, len);
        lent(bytes, len);
        cfb_open_bytes(&g, bytes, len / 2, false);
        bytes[0] ^= 1;
        CHECK(cfb_open_bytes(&g, bytes, len, false) == CFB_INVALID_DATA && !says(&g, "no such text"));
        free(bytes);
        /* a file of the system */
        CHECK(cfb_open(&f, made, false) == CFB_MEDIUM && errno == ENOENT && cfb_version(&f, &version) == CFB_NOT_OPEN);
        CHECK(cfb_create_bytes(&f, v) == CFB_DONE);
        change(&f);
        CHECK(cfb_save(&f, made) == CFB_DONE && cfb_put(&f, "/y", (const uint8_t *)"y", 1) == CFB_DONE);
        CHECK(cfb_open(&g, made, true) == CFB_DONE && cfb_is_stream(&g, "/z", &is) == CFB_DONE && is);
        CHECK(cfb_is_stream(&g, "/y", &is) == CFB_DONE && !is);
        CHECK(chmod(made, 0640) == 0);
        CHECK(cfb_save(&f, made) == CFB_DONE && stat(made, &now) == 0 && (now.st_mode & 07777) == 0640);
        CHECK(cfb_save(&f, "/nowhere/x") == CFB_MEDIUM && errno == ENOENT);
        CHECK(cfb_save(&f, "/dev/null") == CFB_MEDIUM && errno == EINVAL);
        CHECK(cfb_open(&g, made, true) == CFB_DONE && cfb_is_stream(&g, "/y", &is) == CFB_DONE && is);
        int number = next_number();
        not_mapped(made);
        mapped(made);
        CHECK(next_number() == number && unlink(made) == 0);
    }
    cfb_close(&f);
    cfb_close(&f);
    cfb_close(&g);
    puts("ok");
    return 0;
}
