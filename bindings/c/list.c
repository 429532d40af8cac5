/* cc list.c -lcfb: lists the objects of a file, or prints the bytes of one stream. */
#include <cfb.h>
#include <stdio.h>

static uint8_t list_all(cfb_file *file) {
    cfb_entries list = CFB_CLOSED;
    cfb_entry_info info;
    char path[4096];
    size_t count = 0, len;
    uint8_t refused = cfb_walk(file, "/", &list);
    if (!refused) refused = cfb_entries_len(&list, &count);
    for (size_t i = 0; i < count && !refused; i++) {
        refused = cfb_entries_get(&list, i, &info);
        if (!refused) refused = cfb_entries_path(&list, i, path, sizeof path, &len);
        if (!refused) printf("%c %llu %.*s\n", info.kind == CFB_STREAM ? 'f' : 'd', (unsigned long long)info.len, (int)len, path);
    }
    cfb_entries_close(&list);
    return refused;
}

static uint8_t print(cfb_file *file, const char *path) {
    uint8_t *bytes;
    size_t len;
    uint8_t refused = cfb_get_malloc(file, path, &bytes, &len);
    if (refused) return refused;
    fwrite(bytes, 1, len, stdout);
    free(bytes);
    return CFB_DONE;
}

int main(int argc, char **argv) {
    cfb_file file = CFB_CLOSED;
    char reason[256];
    size_t len = 0;
    if (argc < 2) return 2;
    uint8_t refused = cfb_open(&file, argv[1], false);
    if (!refused) refused = argc > 2 ? print(&file, argv[2]) : list_all(&file);
    if (refused) {
        if (cfb_reason(&file, reason, sizeof reason, &len)) len = 0;
        fprintf(stderr, "%s: %s%s%.*s\n", argv[1], cfb_error_text(refused), len ? ": " : "", (int)len, reason);
    }
    cfb_close(&file);
    return refused != 0;
}
