/* The proved calls of cfb.h, each behind tests of what a proof takes for granted: no pointer is NULL,
   no length is past the greatest object, and two handles are two. No proof covers this file. build.sh
   renames the calls of the proved library to cfb_proved_*, and hides them. */
#include "cfb_source.h"

#define HANDLE(handle) if (!(handle)) return CFB_NOT_OPEN
/* of a file whose bytes the call reads: what was mapped is there still */
#define FILE_OF(file) \
    HANDLE(file); \
    if ((file)->source && source_is_cut((file)->source)) return CFB_MEDIUM
/* what is reported is 0 if the call fails */
#define REPORT(at, nothing) if (!(at)) return CFB_INVALID_INPUT; *(at) = (nothing)
/* NULL stands for no bytes */
#define BYTES(at, len) \
    if ((!(at) && (len)) || (len) > PTRDIFF_MAX) return CFB_INVALID_INPUT; \
    if (!(at)) (at) = (void *)no_bytes

static uint8_t no_bytes[1];

/* What cfb_open has kept is read no more: the handle was closed, or holds something else. */
static uint8_t ended(cfb_file *file, uint8_t number) {
    if (file->source) source_end(file->source);
    file->source = NULL;
    return number;
}

/* The first change copies the bytes. */
static uint8_t changed(cfb_file *file, uint8_t number) {
    if (file->source && number == CFB_DONE) file->source->is_copied = true;
    return number;
}

uint8_t cfb_proved_open_bytes(cfb_file *file, const uint8_t *bytes, size_t len, bool is_strict);
uint8_t cfb_proved_open_lent(cfb_file *file, const uint8_t *bytes, size_t len, bool is_strict);
uint8_t cfb_proved_create_bytes(cfb_file *file, uint32_t version);
uint8_t cfb_proved_bytes_begin(cfb_file *file, size_t room);
uint8_t cfb_proved_bytes_add(cfb_file *file, const uint8_t *bytes, size_t len);
uint8_t cfb_proved_bytes_open(cfb_file *file, bool is_strict);
uint8_t cfb_proved_copy_bytes(cfb_file *file, cfb_file *copy);
uint8_t cfb_proved_into_bytes(cfb_file *file, size_t *len);
uint8_t cfb_proved_bytes(cfb_file *file, uint8_t *into, size_t room, size_t *len);
uint8_t cfb_proved_image_len(cfb_file *file, uint64_t *len);
uint8_t cfb_proved_image(cfb_file *file, uint64_t at, uint8_t *into, size_t room, size_t *len);
void cfb_proved_close(cfb_file *file);
uint8_t cfb_proved_version(cfb_file *file, uint32_t *version);
uint8_t cfb_proved_is_sound(cfb_file *file, bool *is_so);
uint8_t cfb_proved_is_failed(cfb_file *file, bool *is_so);
uint8_t cfb_proved_exists_n(cfb_file *file, const char *path, size_t path_len, bool *is_so);
uint8_t cfb_proved_is_stream_n(cfb_file *file, const char *path, size_t path_len, bool *is_so);
uint8_t cfb_proved_is_storage_n(cfb_file *file, const char *path, size_t path_len, bool *is_so);
uint8_t cfb_proved_entry_n(cfb_file *file, const char *path, size_t path_len, cfb_entry_info *info);
uint8_t cfb_proved_reason(cfb_file *file, char *into, size_t room, size_t *len);
uint8_t cfb_proved_list_n(cfb_file *file, const char *path, size_t path_len, cfb_entries *entries);
uint8_t cfb_proved_walk_n(cfb_file *file, const char *path, size_t path_len, cfb_entries *entries);
uint8_t cfb_proved_entries_len(cfb_entries *entries, size_t *len);
uint8_t cfb_proved_entries_get(cfb_entries *entries, size_t number, cfb_entry_info *info);
uint8_t cfb_proved_entries_path(cfb_entries *entries, size_t number, char *into, size_t room, size_t *len);
uint8_t cfb_proved_read_n(cfb_file *file, const char *path, size_t path_len, uint64_t at, uint8_t *into, size_t room, size_t *len);
uint8_t cfb_proved_get_n(cfb_file *file, const char *path, size_t path_len, uint8_t *into, size_t room, size_t *len);
uint8_t cfb_proved_put_n(cfb_file *file, const char *path, size_t path_len, const uint8_t *bytes, size_t len);
uint8_t cfb_proved_create_stream_n(cfb_file *file, const char *path, size_t path_len, bool is_new);
uint8_t cfb_proved_write_n(cfb_file *file, const char *path, size_t path_len, uint64_t at, const uint8_t *bytes, size_t len);
uint8_t cfb_proved_set_len_n(cfb_file *file, const char *path, size_t path_len, uint64_t len);
uint8_t cfb_proved_remove_stream_n(cfb_file *file, const char *path, size_t path_len);
uint8_t cfb_proved_create_storage_n(cfb_file *file, const char *path, size_t path_len, uint64_t moment);
uint8_t cfb_proved_create_storage_all_n(cfb_file *file, const char *path, size_t path_len, uint64_t moment);
uint8_t cfb_proved_remove_storage_n(cfb_file *file, const char *path, size_t path_len);
uint8_t cfb_proved_remove_storage_all_n(cfb_file *file, const char *path, size_t path_len);
uint8_t cfb_proved_set_clsid_n(cfb_file *file, const char *path, size_t path_len, const uint8_t clsid[16]);
uint8_t cfb_proved_set_state_bits_n(cfb_file *file, const char *path, size_t path_len, uint32_t bits);
uint8_t cfb_proved_set_created_n(cfb_file *file, const char *path, size_t path_len, uint64_t moment);
uint8_t cfb_proved_set_modified_n(cfb_file *file, const char *path, size_t path_len, uint64_t moment);

uint8_t cfb_open_bytes(cfb_file *file, const uint8_t *bytes, size_t len, bool is_strict) {
    HANDLE(file);
    BYTES(bytes, len);
    return ended(file, cfb_proved_open_bytes(file, bytes, len, is_strict));
}

uint8_t cfb_open_lent(cfb_file *file, const uint8_t *bytes, size_t len, bool is_strict) {
    HANDLE(file);
    BYTES(bytes, len);
    return ended(file, cfb_proved_open_lent(file, bytes, len, is_strict));
}

uint8_t cfb_create_bytes(cfb_file *file, uint32_t version) {
    HANDLE(file);
    return ended(file, cfb_proved_create_bytes(file, version));
}

uint8_t cfb_bytes_begin(cfb_file *file, size_t room) {
    HANDLE(file);
    return ended(file, cfb_proved_bytes_begin(file, room));
}

uint8_t cfb_bytes_add(cfb_file *file, const uint8_t *bytes, size_t len) {
    FILE_OF(file);
    BYTES(bytes, len);
    return changed(file, cfb_proved_bytes_add(file, bytes, len));
}

uint8_t cfb_bytes_open(cfb_file *file, bool is_strict) {
    FILE_OF(file);
    return cfb_proved_bytes_open(file, is_strict);
}

uint8_t cfb_copy_bytes(cfb_file *file, cfb_file *copy) {
    FILE_OF(file);
    if (!copy) return CFB_NOT_OPEN;
    if ((void *)file == (void *)copy) return CFB_INVALID_INPUT;
    uint8_t refused = cfb_proved_copy_bytes(file, copy);
    return refused && copy->at ? refused : ended(copy, refused); /* else it holds what it held */
}

uint8_t cfb_into_bytes(cfb_file *file, size_t *len) {
    REPORT(len, 0);
    HANDLE(file);
    return cfb_proved_into_bytes(file, len);
}

uint8_t cfb_bytes(cfb_file *file, uint8_t *into, size_t room, size_t *len) {
    REPORT(len, 0);
    FILE_OF(file);
    BYTES(into, room);
    return cfb_proved_bytes(file, into, room, len);
}

uint8_t cfb_image_len(cfb_file *file, uint64_t *len) {
    REPORT(len, 0);
    HANDLE(file);
    return cfb_proved_image_len(file, len);
}

uint8_t cfb_image(cfb_file *file, uint64_t at, uint8_t *into, size_t room, size_t *len) {
    REPORT(len, 0);
    FILE_OF(file);
    BYTES(into, room);
    return cfb_proved_image(file, at, into, room, len);
}

void cfb_close(cfb_file *file) {
    if (!file) return;
    cfb_proved_close(file);
    ended(file, CFB_DONE);
}

uint8_t cfb_version(cfb_file *file, uint32_t *version) {
    REPORT(version, 0);
    HANDLE(file);
    return cfb_proved_version(file, version);
}

uint8_t cfb_is_sound(cfb_file *file, bool *is_so) {
    REPORT(is_so, false);
    HANDLE(file);
    return cfb_proved_is_sound(file, is_so);
}

uint8_t cfb_is_failed(cfb_file *file, bool *is_so) {
    REPORT(is_so, false);
    HANDLE(file);
    return cfb_proved_is_failed(file, is_so);
}

uint8_t cfb_exists_n(cfb_file *file, const char *path, size_t path_len, bool *is_so) {
    REPORT(is_so, false);
    HANDLE(file);
    BYTES(path, path_len);
    return cfb_proved_exists_n(file, path, path_len, is_so);
}

uint8_t cfb_is_stream_n(cfb_file *file, const char *path, size_t path_len, bool *is_so) {
    REPORT(is_so, false);
    HANDLE(file);
    BYTES(path, path_len);
    return cfb_proved_is_stream_n(file, path, path_len, is_so);
}

uint8_t cfb_is_storage_n(cfb_file *file, const char *path, size_t path_len, bool *is_so) {
    REPORT(is_so, false);
    HANDLE(file);
    BYTES(path, path_len);
    return cfb_proved_is_storage_n(file, path, path_len, is_so);
}

uint8_t cfb_entry_n(cfb_file *file, const char *path, size_t path_len, cfb_entry_info *info) {
    if (!info) return CFB_INVALID_INPUT;
    memset(info, 0, sizeof *info);
    HANDLE(file);
    BYTES(path, path_len);
    return cfb_proved_entry_n(file, path, path_len, info);
}

uint8_t cfb_reason(cfb_file *file, char *into, size_t room, size_t *len) {
    REPORT(len, 0);
    HANDLE(file);
    BYTES(into, room);
    return cfb_proved_reason(file, into, room, len);
}

uint8_t cfb_list_n(cfb_file *file, const char *path, size_t path_len, cfb_entries *entries) {
    HANDLE(file);
    if (!entries) return CFB_NOT_OPEN;
    if ((void *)file == (void *)entries) return CFB_INVALID_INPUT;
    BYTES(path, path_len);
    return cfb_proved_list_n(file, path, path_len, entries);
}

uint8_t cfb_walk_n(cfb_file *file, const char *path, size_t path_len, cfb_entries *entries) {
    HANDLE(file);
    if (!entries) return CFB_NOT_OPEN;
    if ((void *)file == (void *)entries) return CFB_INVALID_INPUT;
    BYTES(path, path_len);
    return cfb_proved_walk_n(file, path, path_len, entries);
}

uint8_t cfb_entries_len(cfb_entries *entries, size_t *len) {
    REPORT(len, 0);
    HANDLE(entries);
    return cfb_proved_entries_len(entries, len);
}

uint8_t cfb_entries_get(cfb_entries *entries, size_t number, cfb_entry_info *info) {
    if (!info) return CFB_INVALID_INPUT;
    memset(info, 0, sizeof *info);
    HANDLE(entries);
    return cfb_proved_entries_get(entries, number, info);
}

uint8_t cfb_entries_path(cfb_entries *entries, size_t number, char *into, size_t room, size_t *len) {
    REPORT(len, 0);
    HANDLE(entries);
    BYTES(into, room);
    return cfb_proved_entries_path(entries, number, into, room, len);
}

uint8_t cfb_read_n(cfb_file *file, const char *path, size_t path_len, uint64_t at, uint8_t *into, size_t room, size_t *len) {
    REPORT(len, 0);
    FILE_OF(file);
    BYTES(path, path_len);
    BYTES(into, room);
    return cfb_proved_read_n(file, path, path_len, at, into, room, len);
}

uint8_t cfb_get_n(cfb_file *file, const char *path, size_t path_len, uint8_t *into, size_t room, size_t *len) {
    REPORT(len, 0);
    FILE_OF(file);
    BYTES(path, path_len);
    BYTES(into, room);
    return cfb_proved_get_n(file, path, path_len, into, room, len);
}

uint8_t cfb_put_n(cfb_file *file, const char *path, size_t path_len, const uint8_t *bytes, size_t len) {
    FILE_OF(file);
    BYTES(path, path_len);
    BYTES(bytes, len);
    return changed(file, cfb_proved_put_n(file, path, path_len, bytes, len));
}

uint8_t cfb_create_stream_n(cfb_file *file, const char *path, size_t path_len, bool is_new) {
    FILE_OF(file);
    BYTES(path, path_len);
    return changed(file, cfb_proved_create_stream_n(file, path, path_len, is_new));
}

uint8_t cfb_write_n(cfb_file *file, const char *path, size_t path_len, uint64_t at, const uint8_t *bytes, size_t len) {
    FILE_OF(file);
    BYTES(path, path_len);
    BYTES(bytes, len);
    return changed(file, cfb_proved_write_n(file, path, path_len, at, bytes, len));
}

uint8_t cfb_set_len_n(cfb_file *file, const char *path, size_t path_len, uint64_t len) {
    FILE_OF(file);
    BYTES(path, path_len);
    return changed(file, cfb_proved_set_len_n(file, path, path_len, len));
}

uint8_t cfb_remove_stream_n(cfb_file *file, const char *path, size_t path_len) {
    FILE_OF(file);
    BYTES(path, path_len);
    return changed(file, cfb_proved_remove_stream_n(file, path, path_len));
}

uint8_t cfb_create_storage_n(cfb_file *file, const char *path, size_t path_len, uint64_t moment) {
    FILE_OF(file);
    BYTES(path, path_len);
    return changed(file, cfb_proved_create_storage_n(file, path, path_len, moment));
}

uint8_t cfb_create_storage_all_n(cfb_file *file, const char *path, size_t path_len, uint64_t moment) {
    FILE_OF(file);
    BYTES(path, path_len);
    return changed(file, cfb_proved_create_storage_all_n(file, path, path_len, moment));
}

uint8_t cfb_remove_storage_n(cfb_file *file, const char *path, size_t path_len) {
    FILE_OF(file);
    BYTES(path, path_len);
    return changed(file, cfb_proved_remove_storage_n(file, path, path_len));
}

uint8_t cfb_remove_storage_all_n(cfb_file *file, const char *path, size_t path_len) {
    FILE_OF(file);
    BYTES(path, path_len);
    return changed(file, cfb_proved_remove_storage_all_n(file, path, path_len));
}

uint8_t cfb_set_clsid_n(cfb_file *file, const char *path, size_t path_len, const uint8_t clsid[16]) {
    FILE_OF(file);
    BYTES(path, path_len);
    if (!clsid) return CFB_INVALID_INPUT;
    return changed(file, cfb_proved_set_clsid_n(file, path, path_len, clsid));
}

uint8_t cfb_set_state_bits_n(cfb_file *file, const char *path, size_t path_len, uint32_t bits) {
    FILE_OF(file);
    BYTES(path, path_len);
    return changed(file, cfb_proved_set_state_bits_n(file, path, path_len, bits));
}

uint8_t cfb_set_created_n(cfb_file *file, const char *path, size_t path_len, uint64_t moment) {
    FILE_OF(file);
    BYTES(path, path_len);
    return changed(file, cfb_proved_set_created_n(file, path, path_len, moment));
}

uint8_t cfb_set_modified_n(cfb_file *file, const char *path, size_t path_len, uint64_t moment) {
    FILE_OF(file);
    BYTES(path, path_len);
    return changed(file, cfb_proved_set_modified_n(file, path, path_len, moment));
}
